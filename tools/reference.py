#!/usr/bin/env python3
"""What the test programs, `latest`, `convert` and `board` must write, and what each call of the library must answer, worked out apart
from the code they test.

    python3 tools/reference.py NAME

writes what the program of that name must write (without a name, `examples`).

A book is its job count, its rules and its latest times, one a job: 0 where the file says nothing of the job.

The run is the bench run of the scope: from the latest times, passes over the rules from 0 upward, a step on each broken rule, an end
after a pass without a step (a plan) or when a time falls below the floor (none). The floor is the smallest latest time minus K.

A slip is a job, its time before a step and its time after it.

A reply is the library's five words (embed/marlinfray.h): 0 and the answer, 1 for a broken rule or none, 2 and a refusal; the last two are
the times before and after of a slip, 0 where the reply has none.
"""

import itertools
import os
import re
import struct
import sys


MOST_JOBS, MOST_RULES, MOST_MINUTES = 256, 1024, 20160


def book(n, rules, latest=None):
    """The bytes of a book: a record for each latest time other than 0, in the order of the jobs, and then the rules."""
    times = [latest_record(job, minute) for job, minute in enumerate(latest or []) if minute]
    return struct.pack("<2sH", b"BK", n) + b"".join(times + [rule_record(*r) for r in rules])


def latest_record(job, minute):
    """The record of a job's latest time."""
    return struct.pack("<2sHi", b"CE", job, minute)


def rule_record(x, y, z, k):
    """The record of a rule, by its minutes."""
    return struct.pack("<2sHHHi", b"RU", x, y, z, k)


def hours_record(x, y, z, hours):
    """The record of a rule, by its hours, in a stored file."""
    return struct.pack("<2sHHHh", b"HR", x, y, z, hours)


def rule_of(part):
    """The rule of a record's bytes."""
    x, y, z = struct.unpack_from("<HHH", part, 2)
    if part[:2] == b"HR":
        return x, y, z, 60 * struct.unpack_from("<h", part, 8)[0]
    return x, y, z, struct.unpack_from("<i", part, 8)[0]


def left(rule, times):
    x, y, _, k = rule
    return max(times[x], times[y]) + k


def total(rules):
    """K."""
    return sum(abs(k) for _, _, _, k in rules)


def floor(rules, latest):
    """The smallest latest time minus K: a board with a time below it shows none."""
    return min(latest) - total(rules)


def broken(rules, times):
    """The numbers of the broken rules."""
    return [i for i, r in enumerate(rules) if times[r[2]] > left(r, times)]


def lower(rule, times):
    """A step on a rule, which changes the times: the slip."""
    slip = rule[2], times[rule[2]], left(rule, times)
    times[rule[2]] = slip[2]
    return slip


def run(rules, latest):
    """The times at the end, the steps, and the slip of the last step where a job fell, or else None."""
    times, steps, lowest = list(latest), 0, floor(rules, latest)
    while True:
        begun = steps
        for rule in rules:
            if times[rule[2]] > left(rule, times):
                slip = lower(rule, times)
                steps += 1
                if slip[2] < lowest:
                    return times, steps, slip
        if steps == begun:
            return times, steps, None


def text(data):
    """What `latest` prints for a file."""
    reply, rules, latest = read(data, MOST_RULES, MOST_JOBS)
    if reply[0] == 2:
        return "REFUSED %d %d\n" % reply[1:3]
    n = reply[1]
    times, steps, slip = run(rules, latest)
    lines = ["BOOK %d %d %d" % (n, len(rules), total(rules))]
    if slip is None:
        lines += ["JOB %d %d" % item for item in enumerate(times)]
        tight = [i for i, r in enumerate(rules) if left(r, times) == times[r[2]]]
        lines.append(" ".join(["TIGHT"] + [str(i) for i in tight]))
    else:
        lines.append("NONE %d %d %d" % slip)
    return "\n".join(lines + ["STEPS %d" % steps]) + "\n"


B = [(0, 0, 1, -10), (3, 3, 2, 0), (1, 2, 3, -1), (1, 0, 3, 25)]
EXAMPLES = {
    "A": (1, [], [0]),
    "B": (4, B, [0] * 4),
    "C": (4, B + [(1, 2, 0, 9)], [0] * 4),
    "D": (1, [(0, 0, 0, -1)], [0]),
    "E": (1, [(0, 0, 0, 0)], [0]),
    "F": (2, [(0, 1, 0, -1)], [0] * 2),
    "G": (2, [(0, 0, 1, -5)], [0] * 2),
    "H": (2, [(0, 0, 1, 5)], [0] * 2),
    "I": (2, [(0, 0, 1, -1), (1, 1, 0, 0)], [0] * 2),
    "J": (2, [(0, 0, 1, -1), (1, 1, 0, 1)], [0] * 2),
    # Latest times other than zero: a plan with no job at zero, none, and a job that no rule but its latest time holds.
    "P": (2, [(0, 0, 1, -4)], [-3, -5]),
    "Q": (2, [(0, 0, 1, -1), (1, 1, 0, 0)], [-2, 0]),
    "R": (2, [], [0, -60]),
}


def hand():
    """Example L: two hand steps from a fresh board, on rule 1 and then on rule 0."""
    rules, times, steps, minutes = [(0, 1, 0, -1), (0, 0, 1, -3)], [0, 0], 0, 0
    out = ""
    for number in (1, 0):
        assert number in broken(rules, times)
        slip = lower(rules[number], times)
        minutes += slip[1] - slip[2]
        steps += 1
        out += "SLIP %d %d %d\n" % slip
        out += "BOARD %d %d\nTALLY %d %d\n" % (times[0], times[1], steps, minutes)
    return out + "BROKEN %d\n" % broken(rules, times)[0]


def records(data, numbers):
    """A rule's record by its number: its length and its bytes."""
    out = ""
    for i in numbers:
        _, at, size, _, _ = record(data, i)
        part = data[at : at + size]
        out += " ".join(["RECORD", str(i), str(len(part))] + [str(b) for b in part]) + "\n"
    return out


def by_hand(order):
    """Hand steps in an order, until no rule is broken or a time is below the floor: the times and the steps."""

    def end(rules, latest):
        times, steps, lowest = list(latest), 0, floor(rules, latest)
        for turn in itertools.count():
            numbers = broken(rules, times)
            if not numbers or min(times) < lowest:
                return times, steps
            number = order(turn, numbers)
            if number in numbers:
                lower(rules[number], times)
                steps += 1

    return end


WAYS = {
    "RUN": lambda rules, latest: run(rules, latest)[:2],
    "DOWN": by_hand(lambda turn, numbers: 1 - turn % 2),
    "UP": by_hand(lambda turn, numbers: turn % 2),
    "FIRST": by_hand(lambda turn, numbers: numbers[0]),
}


def searched(keeping):
    """The plan, by search, from the times that keep each of what is asked: the latest time of each job; None if there are no such times."""
    return list(map(max, zip(*set.intersection(*keeping)))) or None


def honest(turn, n, latest, times, slips, numbers, draws):
    """Hand steps on the first broken rule, and each third call takes back the last step that still stands."""
    if turn % 3 < 2:
        return "step", numbers[0] if numbers else 0
    return "back", slips[-1]


def forged(turn, n, latest, times, slips, numbers, draws):
    """Hand steps on rules 0 and 1 in turn, and each third call puts a job back at its latest time."""
    if turn % 3 < 2:
        return "step", turn % 2
    job = turn // 3 % n
    return "back", (job, latest[job], times[job])


def by_chance(turn, n, latest, times, slips, numbers, draws):
    """A call by a number: a hand step, or a step back by a slip of the list, by one made up that fits the job, or by any."""
    number = next(draws)
    kind, more = number % 16, number // 16
    if kind < 8:
        return "step", more % (2 if kind else 3)
    if kind < 12:
        return "back", slips[more % len(slips)]
    if kind < 15:
        after = times[more % n]
        return "back", (more % n, after + 1 + more // 4 % 2, after)
    return "back", (more % 4, 1 - more // 4 % 8, -(more // 32 % 8))


def book_number(n, rules, latest):
    """The number of a book: the digits are the latest times, and then each rule's jobs and its offset."""
    number = 0
    for x, y, z, k in rules[::-1]:
        number = (((3 * number + k + 1) * n + z) * n + y) * n + x
    return 27 * number + sum(-last * 3**job for job, last in enumerate(latest))


def impossible(rules):
    """Whether a rule is in the impossible class."""
    return any(class_of(*rule) == IMPOSSIBLE for rule in rules)


def drawn(state):
    """Numbers by chance, the same in each run."""
    while True:
        state = (state * 6364136223846793005 + 1442695040888963407) % 2**64
        yield state >> 33


def promised(rules, lowest, bound, plan, times, tally):
    """The broken rules of a board, which is what its book's plan, or that there is none, promises of it, with this floor and this bound of
    the steps."""
    numbers = broken(rules, times)
    if plan:
        assert all(a >= b for a, b in zip(times, plan)) and min(times) >= lowest and (times == plan) == (not numbers)
        assert tally[0] < bound or (tally[0] == bound and not numbers)
    else:
        assert numbers and (tally[0] <= bound or (tally[0] == bound + 1 and min(times) < lowest))
    return numbers


def played(mix, n, rules, latest, plan):
    """A list of twelve calls from a fresh board: how many hand steps and steps back were done, and how many calls got 24 to 29."""
    times, tally, slips, done = list(latest), (0, 0), [(0, 0, 0)], [0] * 8
    lowest = floor(rules, latest)
    bound = sum(latest) - lowest * n
    draws = drawn(book_number(n, rules, latest))
    numbers = promised(rules, lowest, bound, plan, times, tally)
    for turn in range(12):
        kind, what = mix(turn, n, latest, times, slips, numbers, draws)
        if kind == "step":
            f = step_fault(rules, lowest, times, what)
        else:
            f = back_fault(n, latest, times, tally, what)
        if f:
            done[f[0] - 22] += 1
            continue
        if kind == "step":
            slips.append(lower(rules[what], times))
            done[0] += 1
        else:
            times[what[0]] = what[1]
            done[1] += 1
            if mix is honest:
                slips.pop()
        tally = done[0] - done[1], depth(latest, times)
        numbers = promised(rules, lowest, bound, plan, times, tally)
    return done


def small_books(n, count):
    """All books of `count` rules with offsets -1 to 1, with latest times -2 to 0 that ascend: those that every call refuses, and the others
    by the bench run, by hand steps in each order and by lists of hand steps and steps back. The search is over all times from -6 up to the
    latest times."""
    rules = list(itertools.product(range(n), range(n), range(n), (-1, 0, 1)))
    times = list(itertools.product(range(-6, 1), repeat=n))
    keeping = {rule: {t for t in times if not broken([rule], t)} for rule in rules}
    lists = itertools.combinations_with_replacement((-2, -1, 0), n)
    before = {latest: {t for t in times if all(a <= b for a, b in zip(t, latest))} for latest in lists}
    books = []
    for b in itertools.product(rules, repeat=count):
        books += [(b, latest, searched([under, *(keeping[rule] for rule in b)])) for latest, under in before.items()]
    out = "JOBS %d RULES %d IMPOSSIBLE BOOKS %d DIFFERING %d\n" % (
        n, count, sum(impossible(b) for b, _, _ in books), sum(impossible(b) and plan is not None for b, _, plan in books),
    )
    books = [item for item in books if not impossible(item[0])]
    nones = sum(plan is None for _, _, plan in books)
    for name, way in WAYS.items():
        taken = minutes = differing = 0
        for b, latest, plan in books:
            end, steps = way(b, latest)
            taken += steps
            minutes += depth(latest, end)
            differing += min(end) >= floor(b, latest) if plan is None else end != plan
        out += "JOBS %d RULES %d %s BOOKS %d PLANS %d NONES %d STEPS %d MINUTES %d DIFFERING %d\n" % (
            n, count, name, len(books), len(books) - nones, nones, taken, minutes, differing,
        )
    for name, mix in (("HONEST", honest), ("FORGED", forged), ("CHANCE", by_chance)):
        done = [0] * 8
        for b, latest, plan in books:
            done = [a + c for a, c in zip(done, played(mix, n, b, latest, plan))]
        out += "JOBS %d RULES %d %s BOOKS %d STEPS %d BACKS %d REFUSED %d %d %d %d %d %d DIFFERING 0\n" % (
            n, count, name, len(books), *done,
        )
    return out


IDLE, IMPOSSIBLE, ONE_ARMED, TWO_ARMED = range(4)


def class_of(x, y, z, k):
    """The class of a rule, by its number."""
    if k >= 0 and z in (x, y):
        return IDLE
    if k < 0 and x == y == z:
        return IMPOSSIBLE
    if (k < 0 and (z == x) != (z == y)) or (x == y and z != x):
        return ONE_ARMED
    return TWO_ARMED


# The bytes in all of each record, by its mark: in a file that is sent, which the reader takes, and in a stored one, which the converter
# takes.
SENT = {b"BK": 4, b"CE": 8, b"RU": 12}
STORED = {**SENT, b"HR": 10}


def scan(data, stored):
    """A walk through a stored file, or through one that is sent, which has no rule in hours and no impossible one: the number and the byte
    of the first fault, or None; the latest times; and for each rule the byte where its record begins, the record's length and the rule."""
    sizes = STORED if stored else SENT
    at, latest, said, found = 0, None, set(), []
    while at < len(data) or latest is None:
        mark = data[at : at + 2]
        if len(mark) < 2:
            return (1, at), latest, found
        if mark not in sizes:
            return (2, at), latest, found
        if (mark == b"BK") != (latest is None) or (mark == b"CE" and found):
            return (3, at), latest, found
        if mark not in (b"BK", b"CE") and len(found) == MOST_RULES:
            return (5, at), latest, found
        size = sizes[mark]
        if at + size > len(data):
            return (1, at), latest, found
        if mark == b"BK":
            n = struct.unpack_from("<H", data, 2)[0]
            if not 1 <= n <= MOST_JOBS:
                return (4, at), latest, found
            latest = [0] * n
        elif mark == b"CE":
            job, minute = struct.unpack_from("<Hi", data, at + 2)
            if job >= len(latest):
                return (6, at), latest, found
            if not -MOST_MINUTES <= minute <= 0:
                return (8, at), latest, found
            if job in said:
                return (9, at), latest, found
            said.add(job)
            latest[job] = minute
        else:
            rule = rule_of(data[at : at + size])
            if max(rule[:3]) >= len(latest):
                return (6, at), latest, found
            if abs(rule[3]) > MOST_MINUTES:
                return (7, at), latest, found
            if not stored and class_of(*rule) == IMPOSSIBLE:
                return (10, at), latest, found
            found.append((at, size, rule))
        at += size
    return None, latest, found


def answered(kind, first=0, second=0, before=0, after=0):
    """A reply, by those of its words that are not 0."""
    return kind, first, second, before, after


def refused(f):
    """The reply of a refusal, from its number and place."""
    return answered(2, *f)


def read(data, places, latest_places):
    """The reader, lent a table of `places` rules and a list of `latest_places` latest times: its reply, and the rules and the latest
    times, a job each, where the file is not refused."""
    f, latest, found = scan(data, False)
    if not f and (places < len(found) or latest_places < len(latest)):
        f = 21, 0
    return (refused(f), [], []) if f else (answered(0, len(latest), len(found)), [rule for _, _, rule in found], latest)


def record(data, number):
    """A rule's record: the byte where it begins and its length, both 0 where there is none."""
    f, _, found = scan(data, False)
    return answered(0, *found[number][:2]) if not f and number < len(found) else answered(0)


def convert(data, room):
    """The converter, lent an output of `room` bytes: its reply, whose answer is the length written, and the bytes written from byte 0 of
    the output on, none where the file is refused."""
    f, _, found = scan(data, True)
    if f:
        return refused(f), b""
    rules = found[0][0] if found else len(data)
    parts = [(data[at : at + size], rule) for at, size, rule in found]
    out = data[:rules] + b"".join(rule_record(*rule) if part[:2] == b"HR" else part for part, rule in parts)
    return (refused((21, 0)), b"") if room < len(out) else (answered(0, len(out)), out)


def fault(n, rules, latest, times):
    """The refusals that all calls on a table have: number and place, or None."""
    if not 1 <= n <= MOST_JOBS:
        return 4, 0
    if len(rules) > MOST_RULES:
        return 5, 0
    for i, (x, y, z, k) in enumerate(rules):
        if max(x, y, z) >= n:
            return 6, i
        if abs(k) > MOST_MINUTES:
            return 7, i
        if class_of(x, y, z, k) == IMPOSSIBLE:
            return 10, i
    if len(latest) != n:
        return 21, 0
    for job, minute in enumerate(latest):
        if not -MOST_MINUTES <= minute <= 0:
            return 8, job
    return None if len(times) == n else (21, 0)


def initial(n, latest, times):
    """The fresh board: the reply, and the times afterwards."""
    f = fault(n, [], latest, times)
    return (refused(f), times) if f else (answered(0), list(latest))


def solved(n, rules, latest, times):
    """The bench run: its reply, and the times afterwards."""
    f = fault(n, rules, latest, times)
    if f:
        return refused(f), times
    after, steps, slip = run(rules, latest)
    return answered(0, steps) if slip is None else answered(1, steps, *slip), after


def kept(n, rules, latest, times):
    f = fault(n, rules, latest, times)
    if f:
        return refused(f)
    at = broken(rules, times)
    return answered(1, at[0]) if at else answered(0)


def tight(n, rules, latest, times, number):
    f = fault(n, rules, latest, times) or ((24, 0) if number >= len(rules) else None)
    if f:
        return refused(f)
    return answered(0, int(left(rules[number], times) == times[rules[number][2]]))


def depth(latest, times):
    """The minutes by which the times stand below the latest times, in all."""
    return sum(latest) - sum(times)


def legal(rules, latest, times):
    """Whether each time is from the smallest latest time minus 2K up to the job's own."""
    lowest = floor(rules, latest) - total(rules)
    return all(lowest <= t <= last for last, t in zip(latest, times))


def state_fault(n, rules, latest, times, tally):
    """The refusals that all calls on a board and its tally have: number and place, or None."""
    f = fault(n, rules, latest, times)
    if not f and not legal(rules, latest, times):
        f = 22, 0
    if not f and (tally[1] != depth(latest, times) or tally[0] > tally[1]):
        f = 23, 0
    return f


def step_fault(rules, lowest, times, number):
    """The refusals of a hand step, on a board that its tally fits, with this floor."""
    if number >= len(rules):
        return 24, 0
    if min(times) < lowest:
        return 25, 0
    return (26, 0) if times[rules[number][2]] <= left(rules[number], times) else None


def step(n, rules, latest, times, tally, number):
    """A hand step: its reply, and the times and the tally afterwards."""
    f = state_fault(n, rules, latest, times, tally) or step_fault(rules, floor(rules, latest), times, number)
    if f:
        return refused(f), times, tally
    times = list(times)
    job, before, after = lower(rules[number], times)
    return answered(0, job, 0, before, after), times, (tally[0] + 1, tally[1] + before - after)


def back_fault(n, latest, times, tally, slip):
    """The refusals of a step back, on a board that its tally fits."""
    job, before, after = slip
    if job >= n:
        return 27, 0
    if not times[job] == after < before <= latest[job]:
        return 28, 0
    return None if 0 <= tally[0] - 1 <= tally[1] - (before - after) else (29, 0)


def step_back(n, rules, latest, times, tally, slip):
    """A step taken back: its reply, and the times and the tally afterwards."""
    f = state_fault(n, rules, latest, times, tally) or back_fault(n, latest, times, tally, slip)
    if f:
        return refused(f), times, tally
    job, before, after = slip
    times = list(times)
    times[job] = before
    return answered(0), times, (tally[0] - 1, tally[1] - (before - after))


def write_plan(times, out, at):
    """The plan writer: its reply, and the bytes afterwards."""
    f = (4, 0) if not 1 <= len(times) <= MOST_JOBS else (21, 0) if at > len(out) - 8 * len(times) else None
    if f:
        return refused(f), out
    part = b"".join(struct.pack("<2sHi", b"PL", *item) for item in enumerate(times))
    return answered(0), out[:at] + part + out[at + len(part) :]


CLASSES = " IDLE", " IMPOSSIBLE", " ONE-ARMED", " TWO-ARMED"


def words(reply, *answers):
    """A reply as the programs write it, by the words for an answer and those for a broken rule or none."""
    return " REFUSED {} {}".format(*reply[1:]) if reply[0] == 2 else answers[reply[0]].format(*reply[1:])


def read_word(reply):
    return words(reply, " BOOK {} {}")


def converted_word(reply):
    return words(reply, " CONVERTED {}")


def solved_word(reply):
    return words(reply, " PLAN {}", " NONE {} {} {} {}")


def kept_word(reply):
    return words(reply, " KEPT", " BROKEN {}")


def tight_word(reply):
    return words(reply, " TIGHT" if reply[1] else " SLACK")


def step_word(reply):
    return words(reply, " STEPPED {0} {2} {3}")


def back_word(reply):
    return words(reply, " BACK")


def fresh_word(reply):
    return words(reply, " FRESH")


def minutes_word(word, minutes):
    return " " + word + "".join(" %d" % t for t in minutes)


def times_word(times):
    return minutes_word("TIMES", times)


def latest_word(latest):
    return minutes_word("LATEST", latest)


def table_word(rules):
    return " TABLE" + "".join(" %d %d %d %d" % rule for rule in rules)


def classes_word(rules):
    return "".join(CLASSES[class_of(*rule)] for rule in rules)


def tally_word(tally):
    return " TALLY %d %d" % tally


def slip_of(reply):
    """The slip of a reply that has one for its answer."""
    return reply[1], reply[3], reply[4]


def bench_line(n, rules, latest):
    """The latest times, the classes, the bench run, and the kept and the tight test on what it leaves; for none, its last step is then
    taken back."""
    reply, times = solved(n, rules, latest, [7] * n)
    out = " BOOK %d %d" % (n, len(rules)) + latest_word(latest) + classes_word(rules)
    out += solved_word(reply) + times_word(times) + kept_word(kept(n, rules, latest, times))
    out += "".join(tight_word(tight(n, rules, latest, times, i)) for i in range(len(rules)))
    if reply[0] == 0:
        return out
    reply, times, tally = step_back(n, rules, latest, times, (reply[1], depth(latest, times)), reply[2:])
    return out + back_word(reply) + times_word(times) + tally_word(tally)


def hand_line(n, rules, latest):
    """A fresh board, and three rounds of hand steps on it, on each rule and then on none; then each step taken back, the last one first,
    and the first one once more."""
    reply, times = initial(n, latest, [7] * n)
    tally, slips, out = (0, 0), [], fresh_word(reply)
    for number in list(range(len(rules) + 1)) * 3:
        reply, times, tally = step(n, rules, latest, times, tally, number)
        out += step_word(reply)
        slips += [slip_of(reply)] if reply[0] == 0 else []
    out += times_word(times) + tally_word(tally)
    for slip in slips[::-1] + slips[:1]:
        reply, times, tally = step_back(n, rules, latest, times, tally, slip)
        out += back_word(reply)
    return out + times_word(times) + tally_word(tally)


def reading_line(data, places, latest_places):
    """The reader, and the table and the list that it leaves, whose places held sevens."""
    reply, rules, latest = read(data, places, latest_places)
    rules = rules + [(7, 7, 7, 7)] * (places - len(rules))
    latest = latest + [7] * (latest_places - len(latest))
    return " PLACES %d %d" % (places, latest_places) + read_word(reply) + table_word(rules) + latest_word(latest)


def example_lines(data):
    """An example: what the reader refuses, or a line with the bench run and one with hand steps."""
    reply, rules, latest = read(data, MOST_RULES + 1, MOST_JOBS + 1)
    if reply[0] == 2:
        return [read_word(reply)]
    return [bench_line(reply[1], rules, latest), hand_line(reply[1], rules, latest)]


def each_call(n, rules, latest, length):
    """Each call that takes latest times, with buffers of a length: the words, and the times and the board that are left."""
    reply, times = solved(n, rules, latest, [7] * length)
    out = solved_word(reply) + kept_word(kept(n, rules, latest, times)) + tight_word(tight(n, rules, latest, times, 0))
    reply, board = initial(n, latest, [7] * length)
    out += fresh_word(reply)
    reply, board, tally = step(n, rules, latest, board, (0, 0), 0)
    out += step_word(reply) + tally_word(tally)
    slip = slip_of(reply) if reply[0] == 0 else (65535, 0, 0)
    reply, board, tally = step_back(n, rules, latest, board, tally, slip)
    return out + back_word(reply) + tally_word(tally), times, board


def limit_line(n, rule, count, minute, length):
    """The calls on `count` times one rule, with one latest time for all jobs, and with list and buffers of a length."""
    out, _, _ = each_call(n, [rule] * count, [minute] * length, length)
    return "LIMIT %d %d %d %d %d %d %d %d" % ((n,) + rule + (count, minute, length)) + out


def list_line(n, rules, latest, length):
    """The calls on a table with a list of latest times, and with buffers of a length."""
    out, times, board = each_call(n, rules, latest, length)
    out = "LIST %d %d" % (n, length) + latest_word(latest) + table_word(rules) + classes_word(rules) + out
    return out + times_word(times) + minutes_word("BOARD", board)


def most_line():
    """A book of 256 jobs, each with a latest time of its own."""
    data = book(256, []) + b"".join(latest_record(job, -79 * job) for job in range(256)) + rule_record(0, 1, 255, -1)
    reply, rules, latest = read(data, 1, 257)
    out, _, _ = each_call(256, rules, latest, 256)
    return "MOST" + read_word(reply) + latest_word(latest + [7]) + out


def held_line(rule, latest, times, tally, number):
    """A hand step on a rule, or on no rule, from any board and tally."""
    reply, after, tally_after = step(len(times), [rule], latest, times, tally, number)
    out = "HELD %d %d %d %d" % rule + latest_word(latest) + times_word(times) + tally_word(tally) + " %d" % number
    return out + step_word(reply) + times_word(after) + tally_word(tally_after)


def back_line(rules, latest, times, tally, slip):
    """A step back by any slip, from any board and tally."""
    reply, after, tally_after = step_back(len(times), rules, latest, times, tally, slip)
    out = "BACK %d" % len(rules) + latest_word(latest) + times_word(times) + tally_word(tally) + " SLIP %d %d %d" % slip
    return out + back_word(reply) + times_word(after) + tally_word(tally_after)


def latest_limits():
    """Files with latest times at and past the limits, each under its name."""
    yield "minute -20160", book(2, []) + latest_record(1, -20160)
    yield "minute -20161", book(2, []) + latest_record(1, -20161)
    yield "minute 0", book(2, []) + latest_record(1, 0)
    yield "minute 1", book(2, []) + latest_record(1, 1)
    yield "job 2 of 2", book(2, []) + latest_record(2, 0)
    yield "job 2 of 2, minute 1", book(2, []) + latest_record(2, 1)
    yield "a second", book(2, [], [0, -1]) + latest_record(1, -1)
    yield "a second, minute 1", book(2, [], [0, -1]) + latest_record(1, 1)
    yield "after a rule", book(2, [(0, 0, 1, -1)]) + latest_record(1, -1)
    yield "after a rule, cut off", book(2, [(0, 0, 1, -1)]) + b"CE"
    yield "before the head", latest_record(1, -1) + book(2, [])


def impossible_files():
    """Files with rules in the impossible class, or next to it, each under its name."""
    first, last, down = (0, 0, 0, -1), (1, 1, 1, -1), (0, 0, 1, -1)
    yield "offset -1", book(1, [first])
    yield "offset -20160", book(1, [(0, 0, 0, -20160)])
    yield "offset -20161", book(1, [(0, 0, 0, -20161)])
    yield "offset 0", book(1, [(0, 0, 0, 0)])
    yield "offset 1", book(1, [(0, 0, 0, 1)])
    yield "x and z one job", book(2, [(0, 1, 0, -1)])
    yield "y and z one job", book(2, [(1, 0, 0, -1)])
    yield "x and y one job", book(2, [down])
    yield "job 1 of 2", book(2, [last])
    yield "job 1 of 1", book(1, [last])
    yield "the second rule", book(2, [down, last])
    yield "both rules", book(2, [last, first])
    yield "behind a latest time", book(2, [first], [0, -60])
    yield "before a latest time", book(1, [first]) + latest_record(0, -60)
    yield "before a job of n", book(1, [first, down])
    yield "behind a job of n", book(1, [down, first])
    yield "before an offset past the bound", book(2, [first, (0, 0, 1, -20161)])
    yield "behind an offset past the bound", book(2, [(0, 0, 1, -20161), first])
    yield "before an unknown mark", book(1, [first]) + b"XX"
    yield "cut off", book(1, [first])[:-1]


EARLIEST = book(2, [], [0, -20160])


# A stored book: a latest time, and three rules, of which the first and the last are in hours.
IN_HOURS = book(2, [], [0, -60]) + hours_record(0, 0, 1, -1) + rule_record(0, 1, 0, -1) + hours_record(1, 1, 0, 2)


# A stored book of two rules in hours, of which the second is impossible.
IMPOSSIBLE_HOURS = book(2, []) + hours_record(0, 0, 1, -1) + hours_record(1, 1, 1, -1)


# Boards of two jobs and tallies, and slips for steps back. The rule puts job 1 three minutes before job 0, and the latest times are 0
# and -2, so that the floor is -5 and times may be from -8.
BACKS = [
    # 22, then 23, then 27, then 28, then 29.
    ([1, -4], (0, 0), (2, 0, 0)),
    ([0, -9], (0, 0), (2, 0, 0)),
    ([0, -8], (1, 5), (2, 0, 0)),
    ([0, -8], (7, 6), (2, 0, 0)),
    ([0, -4], (0, 2), (2, 0, 0)),
    ([0, -4], (0, 2), (1, -1, -4)),
    # The job.
    ([0, -4], (1, 2), (2, -2, -4)),
    ([0, -4], (1, 2), (65535, -2, -4)),
    ([0, -4], (1, 2), (1, -2, -4)),
    ([0, -4], (1, 2), (0, -2, -4)),
    # The time after.
    ([0, -4], (1, 2), (1, -2, -3)),
    ([0, -4], (1, 2), (1, -2, -5)),
    ([0, -4], (1, 2), (1, -2, -(2**31))),
    # The time before.
    ([0, -4], (1, 2), (1, -5, -4)),
    ([0, -4], (1, 2), (1, -4, -4)),
    ([0, -4], (1, 2), (1, -3, -4)),
    ([0, -4], (1, 2), (1, -1, -4)),
    ([0, -4], (1, 2), (1, 2**31 - 1, -4)),
    ([-1, -2], (1, 1), (0, 0, -1)),
    ([-1, -2], (1, 1), (0, 1, -1)),
    # The tally.
    ([0, -4], (0, 2), (1, -2, -4)),
    ([0, -4], (0, 2), (1, -3, -4)),
    ([0, -4], (2, 2), (1, -2, -4)),
    ([0, -4], (2, 2), (1, -3, -4)),
    ([-1, -4], (2, 3), (1, -2, -4)),
    ([-1, -4], (3, 3), (1, -2, -4)),
    # Boards with nothing broken, and boards that show none.
    ([0, -5], (1, 3), (1, -2, -5)),
    ([0, -6], (1, 4), (1, -5, -6)),
    ([0, -7], (1, 5), (1, -6, -7)),
    ([0, -8], (1, 6), (1, -2, -8)),
]


def calls():
    """The examples and the limits through the planner's public calls, a line a case."""
    l = 2, [(0, 1, 0, -1), (0, 0, 1, -3)], [0, 0]
    books = [*EXAMPLES.items(), ("L", l)]
    lines = [name + line for name, b in sorted(books) for line in example_lines(book(*b))]
    reply, times, tally = step(*l, [0, -3], (1, 3), 0)
    lines.append("L" + step_word(reply) + times_word(times) + tally_word(tally) + kept_word(kept(*l, times)))
    lines += ["B" + reading_line(book(*EXAMPLES["B"]), *c) for c in ((3, 4), (4, 3), (4, 4), (5, 5))]
    lines += ["P" + reading_line(book(*EXAMPLES["P"]), *c) for c in ((0, 2), (1, 1), (1, 2), (2, 3))]
    lines += [name + reading_line(data, 1, 3) for name, data in latest_limits()]
    lines += [name + reading_line(data, 3, 3) for name, data in impossible_files()]
    lines.append("D" + reading_line(book(*EXAMPLES["D"]), 0, 0))
    lines += ["cut off at %d" % length + reading_line(EARLIEST[:length], 1, 3) for length in range(len(EARLIEST) + 1)]
    lines.append(most_line())
    idle, down = (0, 0, 0, 0), (0, 0, 1, -1)
    lines += [limit_line(n, idle, 0, 0, n) for n in (0, 1, 256, 257)]
    lines.append(limit_line(257, idle, 0, 1, 257))
    lines += [limit_line(1, idle, *c, 1) for c in ((1024, 0), (1025, 0), (1025, 1))]
    lines += [limit_line(2, (0, 0, 1, k), 1, 0, 2) for k in (20160, 20161, -20160, -20161)]
    lines += [limit_line(256, (0, 0, z, -1), 1, 0, 256) for z in (255, 256)]
    lines += [limit_line(256, (0, 0, 255, -20160), 1024, minute, 256) for minute in (-20160, -20161, 0, 1)]
    lines += [list_line(2, [down], latest, length) for length in (1, 2, 3) for latest in ([0, 0], [0, 1])]
    lines += [list_line(2, [down], latest, 2) for latest in ([0], [0, 0, 0], [1], [1, 1, 1], [-5, -3])]
    lines += [list_line(2, [down], latest, 2) for latest in ([0, -20160], [0, -20161], [-20161, 1], [-20160, 0])]
    lines += [list_line(2, [(0, 0, 1, -20161)], latest, 2) for latest in ([0, 1], [1])]
    lines += [list_line(2, [(0, 0, 2, -1)], [1, 1], 2), list_line(0, [down], [1], 2), list_line(257, [down], [1, 1], 2)]
    before = 0, 0, 0, -1
    # Impossible rules and their neighbours, on one job and on two; then 10 before what is wrong with the list and the buffers, and behind
    # the counts.
    lines += [list_line(1, [(0, 0, 0, k)], [0], 1) for k in (-1, -20160, -20161, 0, 1)]
    lines += [list_line(n, [(1, 1, 1, -1)], [0] * n, n) for n in (1, 2)]
    lines += [list_line(2, [rule], [0, 0], 2) for rule in ((0, 1, 0, -1), (1, 0, 0, -1))]
    for rule in (down, (1, 1, 1, -2), (0, 0, 2, -1), (0, 0, 1, -20161)):
        lines += [list_line(2, rules, [0, 0], 2) for rules in ([before, rule], [rule, before])]
    lines += [list_line(1, [before], latest, 1) for latest in ([1], [], [0, 0])]
    lines += [list_line(1, [before], [0], length) for length in (0, 2)]
    lines += [list_line(n, [before], [0], 1) for n in (0, 257)]
    lines += [limit_line(1, before, count, 0, 1) for count in (1024, 1025)]
    # 10 before 22 to 25.
    for time, *c in ((1, (0, 0), 0), (-1, (0, 0), 0), (-1, (1, 1), 1), (-2, (2, 2), 0)):
        lines.append(held_line(before, [0], [time], *c))
    # 22, 23, 24, 25 and 26, and steps; the rule puts job 0 a minute before job 1.
    held = 1, 1, 0, -1
    for times, *c in (
        ([1, 0], (0, 0), 0), ([0, 1], (0, 0), 0), ([-3, 0], (3, 3), 0), ([-1, 0], (0, 0), 0), ([-1, 0], (2, 1), 0), ([-1, 0], (1, 1), 1),
        ([-2, 0], (2, 2), 0), ([-1, 0], (1, 1), 0), ([0, 0], (0, 0), 0), ([-1, -1], (1, 2), 0)):
        lines.append(held_line(held, [0, 0], times, *c))
    for times, *c in (
        ([-4, -5], (0, 0), 0), ([-8, -5], (3, 3), 0), ([-6, -5], (1, 0), 0), ([-6, -5], (1, 11), 0), ([-6, -5], (1, 1), 1),
        ([-7, -5], (2, 2), 0), ([-6, -5], (1, 1), 0), ([-6, -6], (1, 2), 0)):
        lines.append(held_line(held, [-5, -5], times, *c))
    for times, minutes in (([0, -4], 0), ([0, -5], 0), ([-6, -5], 6), ([-6, -6], 7), ([-7, -5], 7), ([-8, -5], 8)):
        lines.append(held_line(held, [0, -5], times, (0, minutes), 0))
    lines += [back_line([(0, 0, 1, -3)], [0, -2], *c) for c in BACKS]
    lines.append(back_line([], [0, -2], [-2, -2], (2, 2), (0, -1, -2)))
    return "\n".join(lines) + "\n"


def limits():
    """Files and plans at and past each limit: what the reader, the converter and the plan writer answer."""

    def reads(data):
        return read_word(read(data, MOST_RULES, MOST_JOBS)[0])

    def converts(name, data, room):
        """What the converter answers and the output that it leaves, each byte of which was 7."""
        reply, out = convert(data, room)
        return "convert %s into %d bytes:" % (name, room) + converted_word(reply) + minutes_word("OUT", out + b"\7" * (room - len(out)))

    stored_books = ("hours and minutes", IN_HOURS), ("hours of an impossible rule", IMPOSSIBLE_HOURS)

    def in_hours(n, z, hours):
        return book(n, []) + hours_record(0, 0, z, hours)

    def writes(n, at):
        return words(write_plan([0] * n, bytes(2048), at)[0], " WRITTEN")

    lines = ["jobs %d:" % n + reads(book(n, [])) for n in (0, 1, 256, 257)]
    for times, count in ((0, 1024), (0, 1025), (256, 1024), (256, 1025), (257, 0)):
        data = book(256, []) + b"".join(latest_record(i % 256, -20160) for i in range(times)) + rule_record(0, 0, 0, 0) * count
        lines.append("latest times %d, rules %d:" % (times, count) + reads(data))
    lines += ["offset bits %d:" % (k % 2**32) + reads(book(2, [(0, 0, 1, k)])) for k in (20160, 20161, -20160, -20161)]
    lines += ["a record in hours:" + reads(in_hours(1, 0, 0)), "hours first:" + reads(hours_record(0, 0, 0, 0))]
    lines += ["job of 256, %d:" % z + reads(book(256, [(0, 0, z, 0)])) for z in (255, 256)]
    lines += ["latest times, %s:" % name + reads(data) for name, data in latest_limits()]
    lines += ["impossible, %s:" % name + reads(data) for name, data in impossible_files()]
    lines += ["impossible, behind %d rules:" % c + reads(book(1, [(0, 0, 0, 0)] * c + [(0, 0, 0, -1)])) for c in (1023, 1024)]
    lines += ["cut off at %d:" % length + reads(EARLIEST[:length]) for length in range(len(EARLIEST) + 1)]
    lines += ["42 4B 01 00 52:" + reads(b"\x42\x4b\x01\0\x52"), "no byte:" + reads(b"")]
    for h, room in ((336, 16), (337, 16), (-336, 16), (-337, 16), (336, 0), (336, 15), (336, 20), (337, 15)):
        lines.append(converts("hours bits %d" % (h % 2**16), in_hours(1, 0, h), room))
    lines.append(converts("hours first", hours_record(0, 0, 0, 0), 16))
    lines += [converts("job of 256, %d" % z, in_hours(256, z, 0), 16) for z in (255, 256)]
    for count, room in ((1024, 14340), (1024, 14339), (1025, 14352)):
        data = book(256, []) + b"".join(latest_record(i, -20160) for i in range(256)) + hours_record(0, 0, 0, 0) * count
        lines.append("convert latest times 256, rules %d into %d bytes:" % (count, room) + converted_word(convert(data, room)[0]))
    lines += [converts("hours and minutes", IN_HOURS, room) for room in (47, 48, 49)]
    lines += [converts("latest times, " + name, data, 28) for name, data in latest_limits()]
    lines += [converts("impossible, " + name, data, 28) for name, data in impossible_files()]
    lines += ["converted, %s:" % name + reads(convert(data, 48)[1]) for name, data in stored_books]
    lines += [converts("cut off at %d" % length, in_hours(2, 1, -1)[:length], 16) for length in range(15)]
    plans = (0, 0), (1, 0), (256, 0), (256, 1), (257, 0), (1, 2040), (1, 2041), (1, 2049), (1, 2**64 - 1)
    lines += ["times %d at %d:" % c + writes(*c) for c in plans]
    return "\n".join(lines) + "\n"


def examples():
    """The examples: their texts, the hand steps of L and the records of B."""
    out = "".join(letter + "\n" + text(book(*b)) for letter, b in EXAMPLES.items())
    return out + "L\n" + hand() + "B\n" + records(book(*EXAMPLES["B"]), range(5)) + "P\n" + records(book(*EXAMPLES["P"]), range(2))


NUMBER, TIME = rb"(0|[1-9][0-9]*)", rb"(0|-?[1-9][0-9]*)"
COMMANDS = [re.compile(b" ".join(parts)) for parts in (
    (b"(SHOW)",), (b"(STEP)", NUMBER), (b"(BACK)", NUMBER, TIME, TIME), (b"(KEPT)",), (b"(TIGHT)", NUMBER), (b"(RULE)", NUMBER), (b"(RUN)",),
    (b"(FRESH)",), (b"(PLAN)",))]


def command(line):
    """A line of `board`: its word and its numbers, or None where it is no command."""
    found = [m for m in (c.fullmatch(line) for c in COMMANDS) if m]
    if not found or len(line) > 255:
        return None
    word, *numbers = found[0].groups()
    numbers = [int(n) for n in numbers]
    if word == b"BACK":
        job, *times = numbers
        fits = job < 2**16 and all(-(2**31) <= t < 2**31 for t in times)
    else:
        fits = all(n < 2**32 for n in numbers)
    return (word.decode(), *numbers) if fits else None


def board(data, lines):
    """What `board` prints for a file and the bytes of its standard input."""
    reply, rules, latest = read(data, MOST_RULES, MOST_JOBS)
    if reply[0] == 2:
        return "REFUSED %d %d\n" % reply[1:3]
    n, times, tally, out = reply[1], list(latest), (0, 0), []

    def said(reply, *answers):
        out.append("REFUSED %d %d" % reply[1:3] if reply[0] == 2 else answers[reply[0]])

    for line in lines.split(b"\n"):
        match command(line):
            case None:
                out += ["WHAT"] if line else []
            case ["SHOW"]:
                out += ["JOB %d %d" % item for item in enumerate(times)] + ["TALLY %d %d" % tally]
            case ["STEP", number]:
                reply, times, tally = step(n, rules, latest, times, tally, number)
                said(reply, "STEPPED %d %d %d" % (reply[1], *reply[3:]))
            case ["BACK", *slip]:
                reply, times, tally = step_back(n, rules, latest, times, tally, tuple(slip))
                said(reply, "BACK")
            case ["KEPT"]:
                reply = kept(n, rules, latest, times)
                said(reply, "KEPT", "BROKEN %d" % reply[1])
            case ["TIGHT", number]:
                reply = tight(n, rules, latest, times, number)
                said(reply, ("NO", "YES")[reply[1] if reply[0] == 0 else 0])
            case ["RULE", number]:
                out.append("RULE %d %d %d %d %d" % (number, rules[number][0], rules[number][1], rules[number][3], rules[number][2])
                    if number < len(rules) else "REFUSED 24 0")
            case ["RUN"]:
                reply, _ = solved(n, rules, latest, times)
                said(reply, "PLAN %d" % reply[1], "NONE %d %d %d %d" % (*reply[2:], reply[1]))
            case ["FRESH"]:
                times, tally = list(latest), (0, 0)
                out.append("FRESH")
            case ["PLAN"]:
                out.append(write_plan(times, bytes(8 * n), 0)[1].hex().upper())
    return "".join(line + "\n" for line in out)


def stored(name):
    """A file that a program is run on."""
    return open(os.path.join(os.path.dirname(os.path.abspath(__file__)), "..", "crates", name), "rb").read()


def board_sessions():
    """The sessions of `board_sessions`: each example's, under the name of the file of its lines, one on lines that are no commands, and
    two on other files that are refused, of which one has a rule in hours."""
    books = dict(EXAMPLES, L=(2, [(0, 1, 0, -1), (0, 0, 1, -3)], [0, 0]))
    files = [(letter.lower(), book(*books[letter])) for letter in "ABCDEFGHIJLPQ"]
    files += [("hours", book(2, []) + hours_record(0, 0, 1, -1)), ("what", book(*books["B"])), ("refused", b"BK\1\0RU")]
    return "".join("%s.lines\n%s" % (name, board(data, stored("board_sessions/data/%s.lines" % name))) for name, data in files)


def converted(data):
    """What `convert` prints for a file on standard output, and on standard error."""
    reply, out = convert(data, 2**14)
    return out, "REFUSED %d %d\n" % reply[1:3] if reply[0] == 2 else ""


PROGRAMS = {
    "examples": examples,
    "calls": calls,
    "limits": limits,
    "small_books": lambda: "".join(small_books(n, count) for n, count in ((2, 0), (2, 1), (2, 2), (3, 2))),
    "latest": lambda: text(book(*EXAMPLES["B"])),
    "board": lambda: board(book(*EXAMPLES["B"]), stored("board/stdin")),
    "board_sessions": board_sessions,
    "convert": lambda: converted(stored("convert/stdin"))[0],
}

if __name__ == "__main__":
    out = PROGRAMS[sys.argv[1] if 1 < len(sys.argv) else "examples"]()
    sys.stdout.buffer.write(out if isinstance(out, bytes) else out.encode())
