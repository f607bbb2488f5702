#!/usr/bin/env python3
"""Cases for the library's calls from C, with the answers that tools/reference.py works out.

    python3 embed/cases.py              writes the cases, one on a line, for embed/check.c to read
    python3 embed/cases.py PROGRAM      runs PROGRAM, which is to print what `latest` prints, on the files of examples/ and on others

The cases are always the same. Status 1 where a call's refusal has no case, or where PROGRAM prints something else.
"""

import itertools
import pathlib
import random
import struct
import subprocess
import sys

sys.dont_write_bytecode = True
ROOT = pathlib.Path(__file__).resolve().parent.parent
sys.path.insert(0, str(ROOT / "tools"))
import reference as ref

rng = random.Random(2008)
JOBS, RULES, OFFSET, HOURS = 256, 1024, 20160, 336
MOST = 2**64 - 1
HUGE = 2**16, 2**32 - 1, 2**32, 2**32 + 1, 2**63, MOST - 7, MOST

REFUSALS = {
    "read_book": {1, 2, 3, 4, 5, 6, 7, 8, 9, 10, 21},
    "convert": {1, 2, 3, 4, 5, 6, 7, 8, 9, 21},
    "first_violated": {4, 5, 6, 7, 8, 10, 21},
    "is_tight": {4, 5, 6, 7, 8, 10, 21, 24},
    "initial": {4, 8, 21},
    "step": {4, 5, 6, 7, 8, 10, 21, 22, 23, 24, 25, 26},
    "step_back": {4, 5, 6, 7, 8, 10, 21, 22, 23, 27, 28, 29},
    "solve": {4, 5, 6, 7, 8, 10, 21},
    "write_plan": {4, 21},
}
seen = {call: set() for call in REFUSALS}

# the examples that no call refuses
EXAMPLES = [b for b in ref.EXAMPLES.values() if not ref.fault(*b, b[2])]


# ---- lines


def number(v):
    return "%x" % (v % 2**64)


def lent(before, after=None):
    """A buffer, and what is to stand in it after the call where that is something else."""
    return ":" + before.hex() + ("" if after in (None, before) else "/" + after.hex())


def packed(times):
    return struct.pack("<%di" % len(times), *times)


def listed(n, latest):
    """A list of latest times, which is not to be read where it is not n long."""
    return ":!"[len(latest) != n] + packed(latest).hex()


def table(rules):
    """The bytes of a table; those between z and k are any."""
    return b"".join(struct.pack("<3HHi", x, y, z, rng.getrandbits(16), k) for x, y, z, k in rules)


def line(call, reply, *arguments):
    if reply[0] == 2 and call in seen:
        seen[call].add(reply[1])
    print(call, *map(number, reply), *arguments)


def read_book(data, places, latest_places):
    reply, rules, latest = ref.read(data, places, latest_places)
    before, times = rng.randbytes(12 * places), rng.randbytes(4 * latest_places)
    after = "".join(struct.pack("<3H", *r[:3]).hex() + "...." + struct.pack("<i", r[3]).hex() for r in rules)
    after += before[12 * len(rules) :].hex()
    times = lent(times, packed(latest) + times[4 * len(latest) :])
    line("read_book", reply, lent(data), lent(before) + ("/" + after if rules else ""), times)


def record(data, rule):
    line("record", ref.record(data, rule), lent(data), number(rule))


def convert(data, room):
    reply, written = ref.convert(data, room)
    before = rng.randbytes(room)
    line("convert", reply, lent(data), lent(before, written + before[len(written) :]))


def class_of(x, y, z, k):
    line("class", ref.answered(ref.class_of(x, y, z, k)), *map(number, (x, y, z, k)))


def first_violated(n, rules, latest, times):
    reply = ref.kept(n, rules, latest, times)
    line("first_violated", reply, number(n), lent(table(rules)), listed(n, latest), lent(packed(times)))


def is_tight(n, rules, latest, times, rule):
    reply = ref.tight(n, rules, latest, times, rule)
    line("is_tight", reply, number(n), lent(table(rules)), listed(n, latest), lent(packed(times)), number(rule))


def initial(n, latest, times):
    reply, after = ref.initial(n, latest, times)
    line("initial", reply, number(n), listed(n, latest), lent(packed(times), packed(after)))


def on_board(call, n, rules, latest, times, tally, last, written):
    """A call that changes a board and its tally, with its last argument and how a line has that; answers what the reference does."""
    reply, after, tally_after = getattr(ref, call)(n, rules, latest, times, tally, last)
    board = lent(packed(times), packed(after))
    tallies = (struct.pack("<2Q", *t) for t in (tally, tally_after))
    line(call, reply, number(n), lent(table(rules)), listed(n, latest), board, lent(*tallies), written)
    return reply, after, tally_after


def step(n, rules, latest, times, tally, rule):
    """A hand step; answers its slip, or None where it is refused, and the times and the tally that it leaves."""
    (kind, job, _, *both), *state = on_board("step", n, rules, latest, times, tally, rule, number(rule))
    return None if kind else (job, *both), *state


def step_back(n, rules, latest, times, tally, slip):
    """A step back; answers whether it is done, and the times and the tally that it leaves."""
    job, before, after = slip
    written = lent(struct.pack("<2H2i", job, rng.getrandbits(16), before, after))
    reply, *state = on_board("step_back", n, rules, latest, times, tally, slip, written)
    return not reply[0], *state


def solve(n, rules, latest, times):
    reply, after = ref.solved(n, rules, latest, times)
    line("solve", reply, number(n), lent(table(rules)), listed(n, latest), lent(packed(times), packed(after)))


def write_plan(times, out, at):
    reply, after = ref.write_plan(times, out, at)
    line("write_plan", reply, lent(packed(times)), lent(out, after), number(at))


# ---- what the calls are given


def any_times(n):
    """Times of 32 bits: small ones, any, and the least and the largest."""
    kind = rng.randrange(3)
    return [rng.choice((rng.randint(-3, 3), rng.randint(-(2**31), 2**31 - 1), -(2**31), 2**31 - 1)[kind : kind + 2]) for _ in range(n)]


def any_latest(n):
    """Latest times: near zero, any, at and next to their bounds, all alike, or zero but for one."""
    kind = rng.randrange(5)
    if kind == 0:
        return [-rng.randrange(4) for _ in range(n)]
    if kind == 1:
        return [-rng.randint(0, OFFSET) for _ in range(n)]
    if kind == 2:
        return [rng.choice((0, -1, 1 - OFFSET, -OFFSET)) for _ in range(n)]
    if kind == 3:
        return [-rng.randint(1, OFFSET)] * n
    latest = [0] * n
    latest[rng.randrange(n)] = rng.choice((-1, -60, -OFFSET, -rng.randint(1, OFFSET)))
    return latest


def is_impossible(rule):
    return ref.class_of(*rule) == ref.IMPOSSIBLE


def any_rules(n, count, size):
    """Rules that may well contradict each other, though none is impossible; jobs often coincide."""
    rules = []
    for _ in range(count):
        x, y, z = (rng.randrange(n) for _ in range(3))
        y, z = rng.choice(((y, z), (x, z), (y, x), (y, y), (x, x)) if rng.random() < 0.5 else ((y, z),))
        k = rng.choice((rng.randint(-size, size), rng.randint(-size // 60, size // 60) * 60))
        if is_impossible((x, y, z, k)):
            if n > 1:
                z = (z + rng.randrange(1, n)) % n
            else:
                k = -k
        rules.append((x, y, z, k))
    return rules


def kept_rules(n, count, size):
    """Rules that some times keep, half of them exactly."""
    times = [-rng.randrange(size // 2 + 1) for _ in range(n)]
    rules = []
    for _ in range(count):
        x, y, z = (rng.randrange(n) for _ in range(3))
        rules.append((x, y, z, times[z] - max(times[x], times[y]) + rng.randrange(2) * rng.randrange(size // 100 + 1)))
    return rules


def ring(n, size):
    """A ring that loses a minute a round, its rules in the order of the jobs or the other way: a long run to none."""
    rules = [((i - 1) % n, (i - 1) % n, i, size if i % 2 else -size) for i in range(n)]
    rules[0] = n - 1, n - 1, 0, -1 - sum(k for _, _, _, k in rules[1:])
    return rules[:: rng.choice((1, -1))]


def few_jobs():
    """Job counts and rules of small books."""
    for size in (0, 1, 2, 60, 600, OFFSET) * 40:
        n = rng.randint(1, 6)
        yield n, rng.choice((any_rules, kept_rules))(n, rng.randrange(10), size)
    for n, size in ((2, 500), (3, 700), (4, 2000), (5, 300), (6, 100)):
        yield n, ring(n, size)
    for size in (500, 2000):
        example = [(0, 0, 1, -size), (3, 3, 2, 0), (1, 2, 3, -1), (1, 0, 3, 25)]
        yield 4, example
        yield 4, example + [(1, 2, 0, size - 1)]
    yield from (b[:2] for b in EXAMPLES)


def many_jobs():
    """Job counts and rules of books up to the most of both, and with the fewest of one and the most of the other."""
    for n, count in ((20, 40), (60, 40), (100, 90), (256, 40), (256, 320), (64, 1024), (256, 1024)):
        yield n, kept_rules(n, count, OFFSET)
        yield n, any_rules(n, count, 60)
    yield 1, [(0, 0, 0, OFFSET)] * 1024
    yield 2, [(0, 0, 1, -OFFSET), (1, 1, 0, -OFFSET)] * 512
    yield 256, [(255, 255, 254, -OFFSET), (254, 254, 255, -OFFSET)]
    yield 256, []
    yield 2, [(0, 1, 0, 0)] * 1023 + [(0, 0, 1, -OFFSET)]


def with_latest(books):
    """Books of these job counts and rules, each with latest times of zero and with others."""
    for n, rules in books:
        yield n, rules, [0] * n
        yield n, rules, any_latest(n)


def small_books():
    yield from with_latest(few_jobs())
    yield from EXAMPLES


def large_books():
    yield from with_latest(many_jobs())


def spoilt(n, rules):
    """A job count and rules with up to three faults."""
    rules = list(rules)
    for _ in range(rng.randint(1, 3)):
        kind = rng.randrange(10)
        if kind == 0:
            n = rng.choice((0, 257, n + 2**32, *HUGE))
        elif kind == 1 and len(rules) < 500:
            rules += [(0, 0, 0, 0)] * (rng.choice((1024, 1025, 1300)) - len(rules))
        elif rules:
            i = rng.choice((rng.randrange(len(rules)), len(rules) - 1))
            rule = list(rules[i])
            if kind < 6:
                rule[rng.randrange(3)] = rng.choice((min(n, 65535), min(n + 1, 65535), 256, 65535))
            if 4 < kind < 8:
                rule[3] = rng.choice((OFFSET + 1, -OFFSET - 1, 2**31 - 1, -(2**31), 2**16, 2**30))
            if kind > 7:
                rule = [rule[0]] * 3 + [rng.choice((-1, -60, -OFFSET, rule[3]))]
            rules[i] = tuple(rule)
    return n, rules


def spoilt_latest(latest):
    """A list with up to two times out of bounds, or of another length, or both."""
    latest = list(latest)
    for _ in range(rng.randrange(3)):
        latest[rng.randrange(len(latest))] = rng.choice((1, -OFFSET - 1, 2**31 - 1, -(2**31)))
    if rng.random() < 0.3:
        latest = (latest + any_times(257))[: rng.choice((0, len(latest) - 1, len(latest) + 1, 256, 257))]
    return latest


def lengths(n):
    """A length for the times: mostly the right one."""
    n = min(n, 300)
    return n if rng.random() < 0.7 else rng.choice((0, 1, n + 1, max(n - 1, 0), 256, 257))


def rule_numbers(rules):
    count = len(rules)
    return rng.choice((rng.randrange(count) if count else 0, rng.randrange(count) if count else 0, count, count + 1, rng.choice(HUGE)))


def held_board(rules, latest):
    """Times at and past the bounds of a legal board and of the floor."""
    k, floor = ref.total(rules), ref.floor(rules, latest)
    times = []
    for last in latest:
        edges = last, last, last - 1, floor, floor - 1, floor - k
        times.append(rng.choice((rng.randint(floor - k, last), rng.choice(edges))))
    if rng.random() < 0.5:
        times = [max(t, floor) for t in times]
    if rng.random() < 0.15:
        job = rng.randrange(len(times))
        times[job] = rng.choice((latest[job] + 1, floor - k - 1, 2**31 - 1, -(2**31)))
    return times


def held_tally(latest, times):
    """A tally that fits the times, or does not for once."""
    minutes = max(sum(latest) - sum(times), 0)
    steps = rng.choice((0, minutes, rng.randint(0, minutes)))
    if rng.random() < 0.2:
        near = (minutes + 1, minutes), (steps, minutes + 1), (0, max(minutes - 1, 0)), (0, max(-sum(times), 0))
        steps, minutes = rng.choice((*near, (MOST, minutes), (0, MOST), (MOST, MOST), (0, minutes + 2**32)))
    return steps, minutes


def any_slip(n, latest, times):
    """A slip that fits the board, or one of which up to two numbers may not."""
    job = rng.randrange(n)
    last, now = latest[job], times[job]
    slip = [job, rng.choice((last, now + 1, rng.randint(min(now, last), last))), now]
    for _ in range(rng.choice((0, 0, 0, 1, 2))):
        kind = rng.randrange(3)
        jobs = rng.randrange(n), n, 255, 256, 65535
        minutes = last, last + 1, now - 1, now, now + 1, 2**31 - 1, -(2**31)
        slip[kind] = rng.choice(minutes if kind else jobs)
    job, *both = slip
    return job, *(max(min(t, 2**31 - 1), -(2**31)) for t in both)


def slip_tally(latest, times, slip):
    """A tally that fits the times, and would or would not once the slip is taken back."""
    minutes = max(sum(latest) - sum(times), 0)
    left = minutes - (slip[1] - slip[2])
    return min(max(rng.choice((0, 1, left, left + 1, left + 2, minutes)), 0), minutes), minutes


# ---- cases of each call


def table_calls(n, rules, latest, turns):
    """A book that is not refused, through all calls that read its list."""
    solve(n, rules, latest, any_times(n))
    initial(n, latest, any_times(n))
    plan, steps, fall = ref.run(rules, latest)
    first_violated(n, rules, latest, plan)
    if fall:
        back_from_none(n, rules, latest, plan, steps, fall)
    for _ in range(turns):
        times = rng.choice((plan, any_times(n), latest, [t + rng.randint(-1, 1) for t in plan]))
        first_violated(n, rules, latest, times)
        is_tight(n, rules, latest, times, rule_numbers(rules))
        times = held_board(rules, latest)
        tally = held_tally(latest, times)
        slip, *state = step(n, rules, latest, times, tally, rule_numbers(rules))
        if slip:
            assert step_back(n, rules, latest, *state, slip) == (True, times, tally)
        slip = any_slip(n, latest, times)
        step_back(n, rules, latest, times, rng.choice((tally, slip_tally(latest, times, slip))), slip)
    mixed(n, rules, latest, latest, (0, 0), 4 * turns)


def mixed(n, rules, latest, times, tally, turns):
    """Hand steps and steps back on a board, in stretches with more of the one or of the other. Half of the slips are those of steps that
    were not taken back yet, the last one first; the others are those of any steps, or forged."""
    given, untaken, share = [], [], rng.random()
    for turn in range(turns):
        if turn % 8 == 7:
            share = rng.random()
        numbers = ref.broken(rules, times)
        if turn > 3 and not numbers and not tally[0]:
            return  # there is nothing to take off or back
        back = tally[0] > 0 and (not numbers or rng.random() < share)
        if rng.random() < 0.1:
            back = not back
        if back:
            slip = untaken.pop() if untaken and rng.random() < 0.5 else rng.choice(given[-4:] + [any_slip(n, latest, times)] * 3)
            _, times, tally = step_back(n, rules, latest, times, tally, slip)
        else:
            rule = rng.choice(numbers) if numbers and rng.random() < 0.9 else rule_numbers(rules)
            slip, times, tally = step(n, rules, latest, times, tally, rule)
            if slip:
                given.append(slip)
                untaken.append(slip)


def back_from_none(n, rules, latest, times, steps, slip):
    """Steps back from where a run for none ends: the board shows none there, and hand steps are refused."""
    tally = steps, ref.depth(latest, times)
    step(n, rules, latest, times, tally, rng.randrange(len(rules)))
    step_back(n, rules, latest, times, tally, any_slip(n, latest, times))
    _, times, tally = step_back(n, rules, latest, times, tally, slip)
    mixed(n, rules, latest, times, tally, 3)


def every_call(n, rules, latest, times, tally, rule):
    """The same through each call that reads a list."""
    slip = rng.choice((0, min(n, 65535), 65535)), *rng.choice(((0, -1), (-1, 0), any_times(2)))
    solve(n, rules, latest, times)
    initial(n, latest, times)
    first_violated(n, rules, latest, times)
    is_tight(n, rules, latest, times, rule)
    step(n, rules, latest, times, tally, rule)
    step_back(n, rules, latest, times, tally, slip)


def refused_tables(n, rules, latest):
    """A spoilt table or list, or times of another length, through each call that reads a list."""
    if rng.random() < 0.5:
        latest = spoilt_latest(latest)
    if rng.random() < 0.8:
        n, rules = spoilt(n, rules)
    times = [0] * lengths(n) if rng.random() < 0.5 else any_times(lengths(n))
    every_call(n, rules, latest, times, held_tally(latest, times), rule_numbers(rules))


def tables():
    for n, rules, latest in small_books():
        table_calls(n, rules, latest, 3)
        refused_tables(n, rules, latest)
    for n, rules, latest in large_books():
        table_calls(n, rules, latest, 2)
        refused_tables(n, rules, latest)
    for n, count in ((0, 1), (1, 1024), (1, 1025), (256, 1024), (257, 0), (257, 1025), (0, 1025)):
        for length in {n, 0, 1, 256, 257}:
            every_call(n, [(0, 0, 0, 1)] * count, [0] * n, [0] * length, (0, 0), 1023)
            every_call(n, [(0, 0, 0, 1)] * count, [1] * length, [0] * n, (0, 0), 1023)
    for job in (255, 256):
        for place in range(3):
            rule = [0, 0, 0, -1]
            rule[place] = job
            refused_tables(256, [(0, 0, 0, 0), tuple(rule)], [0] * 256)
            solve(256, [(0, 0, 0, 0), tuple(rule)], [0] * 256, [7] * 256)
    for k in (OFFSET, OFFSET + 1, -OFFSET, -OFFSET - 1):
        solve(2, [(0, 0, 1, 0), (0, 0, 1, k)], [0, 0], [7, 7])
        first_violated(2, [(0, 0, 1, 0), (0, 0, 1, k)], [0, 0], [2**31 - 1, -(2**31)])


def lists():
    """Lists with times at and past the bounds, lists of other lengths, and which of two refusals comes first."""
    for n in (1, 2, 3, 256):
        rules = any_rules(n, 3, OFFSET)
        for job in {0, n // 2, n - 1}:
            for minute in (0, 1, -OFFSET, -OFFSET - 1, 2**31 - 1, -(2**31)):
                latest = any_latest(n)
                latest[job] = minute
                every_call(n, rules, latest, latest, (0, 0), 0)
                # 8 comes before a board of another length, and before all that only a hand step is refused for
                every_call(n, rules, latest, any_times(n + 1), (0, 0), 0)
                every_call(n, rules, latest, [1] * n, (MOST, 0), MOST)
                # a list of another length gets 21, also where the board has that length
                for length in (n - 1, n + 1):
                    for times in ([0] * n, [0] * length):
                        every_call(n, rules, (latest + [minute])[:length], times, (0, 0), MOST)
                # both come after the faults of all rules
                for rule in ((0, 0, n, 0), (0, 0, 0, OFFSET + 1), (0, 0, 0, -1)):
                    every_call(n, [*rules, rule], latest, latest, (0, 0), 0)
                    every_call(n, [*rules, rule], latest[1:], latest, (0, 0), 0)
        # the first of two faults is the place
        for first, second in itertools.combinations(sorted({0, 1, n // 2, n - 2, n - 1} & set(range(n))), 2):
            latest = any_latest(n)
            latest[first], latest[second] = rng.sample((1, -OFFSET - 1), 2)
            every_call(n, rules, latest, latest, (0, 0), 0)


def impossible_rules():
    """Impossible rules and rules that are nearly so, alone and among others, and which of two refusals comes first."""
    for n in (1, 2, 3, 256):
        for job in {0, n // 2, n - 1}:
            others, latest, beside = any_rules(n, 3, OFFSET), any_latest(n), (job + 1) % n
            for k in (0, 1, -1, -60, -OFFSET, -OFFSET - 1, -(2**31)):
                rule = job, job, job, k
                for rules in ([rule], [*others, rule], [others[0], rule, *others[1:]]):
                    every_call(n, rules, latest, latest, (0, 0), len(rules) - 1)
                # 10 comes after 6 and 7 of the rule, and before 8 and 21
                for faulty in (latest[1:], [1] * n, latest + [0]):
                    every_call(n, [rule], faulty, latest, (0, 0), 0)
                every_call(n, [rule], latest, any_times(n + 1), (0, 0), 0)
                every_call(n, [rule], latest, [1] * n, (MOST, 0), MOST)
                every_call(n, [(n, n, n, k)], latest, latest, (0, 0), 0)
                # one job of the three is another, where there is one
                for rule in ((beside, job, job, k), (job, beside, job, k), (job, job, beside, k)):
                    every_call(n, [rule], latest, latest, (0, 0), 0)
            # the first rule at fault is the place
            rule = job, job, job, -1
            for fault in ((0, 0, n, 0), (0, 0, 0, OFFSET + 1), rule):
                every_call(n, [others[0], rule, fault], latest, latest, (0, 0), 0)
                every_call(n, [others[0], fault, rule], latest, latest, (0, 0), 0)
    # 4 and 5 come before 10
    for n, count in ((0, 1), (257, 1), (1, 1024), (1, 1025)):
        every_call(n, [(0, 0, 0, -1)] * count, [0] * n, [0] * n, (0, 0), 0)


def slips():
    """Slips and tallies at and past their bounds, and which of two refusals comes first."""
    for n, job, fall in itertools.product((1, 2, 256), (0, -1), (1, 2, 7, OFFSET)):
        rules = [(0, 0, 0, OFFSET)] + any_rules(n, 2, OFFSET)
        latest = any_latest(n)
        job %= n
        last, now = latest[job], latest[job] - fall
        times = latest[:job] + [now] + latest[job + 1 :]
        befores = last - 1, last, last + 1, now - 1, now, now + 1, 2**31 - 1, -(2**31)
        afters = now, now - 1, now + 1, 2**31 - 1, -(2**31)
        for slip in itertools.product({job, n, 65535}, befores, afters):
            step_back(n, rules, latest, times, (rng.choice((0, 1, fall)), fall), slip)
        # the tally, where another job is lowered too or none
        for more in (0, 1, 2, 9) if n > 1 else (0,):
            minutes = fall + more
            board = list(times)
            board[job - 1] -= more
            for before in {last, now + 1, (last + now + 1) // 2}:
                left = minutes - (before - now)
                for steps in {0, 1, 2, left, left + 1, left + 2, minutes, minutes + 1}:
                    step_back(n, rules, latest, board, (steps, minutes), (job, before, now))
                # 22 and 23 come before 27
                step_back(n, rules, latest, board, (minutes + 1, minutes), (n, before, now))
                step_back(n, rules, latest, board, (0, minutes + 1), (n, before, now))
                step_back(n, rules, latest, [t + 1 for t in board], (0, minutes), (n, before, now))
    # there is no rule, or every rule is kept
    step_back(2, [], [0, -5], [-3, -5], (1, 3), (0, 0, -3))
    step_back(2, [], [0, -5], [-5, -5], (2, 5), (0, -1, -5))
    step_back(2, [(0, 0, 1, 5)], [0, 0], [0, -4], (4, 4), (1, -3, -4))
    # one job or two stand below the floor, and one goes back
    rules = [(0, 0, 1, -1), (1, 1, 0, -2)]
    for time in range(-6, 0):
        for slip in ((0, 0, time), (0, time + 1, time), (1, 0, -6), (1, -3, -6)):
            step_back(2, rules, [0, 0], [time, -6], (2, 6 - time), slip)


def long_lists():
    """Long lists of hand steps and steps back, on books with offsets so small that most steps take off few minutes."""
    for size in (1, 1, 3, 60) * 10:
        n = rng.randint(1, 5)
        rules, latest = any_rules(n, rng.randint(1, 8), size), any_latest(n)
        mixed(n, rules, latest, latest, (0, 0), 60)


def long_runs():
    """Runs of many passes from latest times other than zero: a ring or two, with and without other rules among theirs; and two jobs that
    fall a minute a pass down to the latest time of a third."""
    for _ in range(40):
        n, size = rng.choice(((2, 400), (3, 200), (5, 60), (9, 20), (30, 2)))
        m = rng.randint(2, n)
        second = [(x + n, y + n, z + n, k) for x, y, z, k in ring(m, size)]
        for jobs, rules in ((n, ring(n, size)), (n, ring(n, size) + any_rules(n, 4, size)), (n + m, ring(n, size) + second)):
            solve(jobs, rules, any_latest(jobs), any_times(jobs))
            rng.shuffle(rules)
            rules += any_rules(jobs, 2, 0)
            solve(jobs, rules, any_latest(jobs), any_times(jobs))
    for minute in (-1, -2, -17, -600, -OFFSET):
        for others in ([0, 0], [minute // 2, minute // 3], [minute, 0]):
            solve(3, [(2, 2, 1, 0), (0, 1, 2, -1)], [minute, *others], any_times(3))
            solve(3, [(0, 1, 2, -1), (2, 2, 1, 0), (2, 1, 0, 60)], [minute, *others], any_times(3))


def classes():
    for x in range(3):
        for y in range(3):
            for z in range(3):
                for k in (0, 1, -1, OFFSET, -OFFSET, 2**31 - 1, -(2**31)):
                    class_of(x, y, z, k)
    for _ in range(300):
        x, y = rng.getrandbits(16), rng.getrandbits(16)
        y = rng.choice((x, y))
        class_of(x, y, rng.choice((x, y, rng.getrandbits(16))), rng.randint(-(2**31), 2**31 - 1))


def initial_boards():
    for n in (0, 1, 2, 255, 256, 257, *HUGE):
        few = min(n, 300)
        for length in {few, 0, 1, 2, 255, 256, 257}:
            initial(n, [0] * few, any_times(length))
            initial(n, [0] * length, any_times(few))
    for _ in range(100):
        n = rng.randint(1, 256)
        latest = any_latest(n)
        initial(n, rng.choice((latest, spoilt_latest(latest))), any_times(lengths(n)))


def plans():
    for count in [0, 1, 2, 3, 255, 256, 257, *(rng.randint(0, 260) for _ in range(60))]:
        times, size = any_times(count), 8 * count
        for spare in (-9, -8, -1, 0, 1, 7, 100):
            at = rng.choice((0, 1, rng.randrange(40)))
            write_plan(times, rng.randbytes(max(at + size + spare, 0)), at)
        out = rng.randbytes(size + 24)
        for at in (len(out), len(out) + 1, 2**64 - size if size else MOST, (2**64 - size + 1) % 2**64, *HUGE):
            write_plan(times, out, at)


# ---- files


def stored_record(x, y, z, k):
    """The record of a rule in a stored file, mostly in hours where it can be."""
    if k % 60 == 0 and abs(k) <= 60 * HOURS and rng.random() < 0.8:
        return ref.hours_record(x, y, z, k // 60)
    return ref.rule_record(x, y, z, k)


def book_file(n, rules, latest=(), rule_record=ref.rule_record):
    """The bytes of a book, its rules written by `rule_record`, with records for some of the latest times of zero too, in any order."""
    jobs = [job for job, minute in enumerate(latest) if minute or rng.random() < 0.1]
    rng.shuffle(jobs)
    times = [ref.latest_record(job, latest[job]) for job in jobs]
    return struct.pack("<2sH", b"BK", n) + b"".join(times + [rule_record(*r) for r in rules])


def damaged(data):
    """A file with up to three bytes or stretches flipped, missing or added."""
    for _ in range(rng.randint(1, 3)):
        at = rng.randrange(len(data) + 1)
        some = rng.choice((1, 1, 2, rng.randrange(30)))
        kind = rng.randrange(7)
        if kind == 0 and data:
            at = min(at, len(data) - 1)
            data = data[:at] + bytes([data[at] ^ 1 << rng.randrange(8)]) + data[at + 1 :]
        elif kind == 1:
            data = data[:at] + data[at + some :]
        elif kind == 2:
            data = data[:at] + rng.randbytes(some) + data[at:]
        elif kind == 3:
            data = data[:at]
        elif kind == 4:
            data += rng.randbytes(some)
        elif kind == 5:
            data = data[:4] + ref.latest_record(rng.randrange(4), rng.choice((0, -1, -OFFSET, 1, -OFFSET - 1))) + data[4:]
        else:
            rules = stored_record(0, 0, 0, 60), ref.rule_record(9, 0, 0, -1), stored_record(0, 0, 0, -60)
            more = *rules, ref.latest_record(0, 0)
            data += rng.choice((b"BK\1\0", b"RU", b"HR", b"CE", b"B", b"RK", *more))
    return data


def limit_files(rule_record):
    """Files at and past each limit, their rules written by `rule_record`."""
    for n in (0, 1, 256, 257, 65535):
        yield book_file(n, [])
    head = book_file(256, [])
    for hours in (HOURS, HOURS + 1, -HOURS, -HOURS - 1, 2**15 - 1, -(2**15)):
        yield head + ref.hours_record(0, 0, 0, hours)
    for k in (OFFSET, OFFSET + 1, -1, -OFFSET, -OFFSET - 1, 2**31 - 1, -(2**31)):
        for z in (0, 1):
            yield head + ref.rule_record(0, 0, z, k)
    for jobs in ((255, 255, 255), (256, 0, 0), (0, 256, 0), (0, 0, 256), (256, 256, 256), (65535, 0, 0)):
        for k in (0, 60, -60, OFFSET + 1):
            yield head + rule_record(*jobs, k)
    rule, time, impossible = rule_record(0, 0, 0, 60), ref.latest_record(0, -5), rule_record(0, 0, 0, -60)
    # an impossible rule behind other records and before them, and cut off
    for first in (b"", rule, time, time + rule * 3):
        for more in (b"", rule, impossible, time, b"XX", ref.rule_record(0, 0, 256, 0), ref.rule_record(0, 0, 0, OFFSET + 1)):
            yield head + first + impossible + more
            yield head + first + more + impossible
        yield head + first + impossible[:-1]
    for minute in (0, 1, -1, -OFFSET, -OFFSET - 1, 2**31 - 1, -(2**31)):
        for job in (0, 255, 256, 65535):
            yield head + ref.latest_record(job, minute)
        # a second record for a job, with the same minute and another; and one behind a record for another job
        for first in (0, minute):
            yield head + ref.latest_record(7, first) + ref.latest_record(7, minute)
            yield head + ref.latest_record(7, first) + ref.latest_record(8, minute) + ref.latest_record(7, first)
    # behind a rule, whole or cut off, whatever is in it; and before the head
    for first in (rule, time + rule, rule * 3):
        for late in (b"CE", time, time[:7], ref.latest_record(9, 1)):
            yield book_file(1, []) + first + late + rule
    for early in (b"CE", time, time + book_file(1, []), time * 3000, b"C", b"EC" + time[2:]):
        yield early
        yield book_file(1, []) + early
    yield book_file(1, []) + time + book_file(1, [])
    three = [(0, 1, 2, 60), (2, 1, 0, -1), (1, 1, 1, 120)]
    for latest in ((), [-1, -OFFSET, -300]):
        whole = book_file(3, three, latest, rule_record)
        for length in range(len(whole) + 1):
            yield whole[:length]
    most = any_rules(256, RULES, OFFSET)
    for book in ((1, [(0, 0, 0, 0)] * RULES), (256, most), (256, most, [-OFFSET] * 256)):
        whole = book_file(*book, rule_record=rule_record)
        yield whole
        for more in (b"R", b"RU", b"HR", b"CE", b"BK", b"XX", rule, rule * 600, time, impossible):
            yield whole + more
    yield head + rule * (RULES - 1) + impossible
    whole = book_file(256, [], [-1 - job for job in range(256)])
    for more in (b"", b"C", b"CE", time, ref.latest_record(256, 0), rule):
        yield whole + more
    yield from (b"", b"B", b"BK", b"KB\1\0", b"RU", b"HR" * 20, b"\x42\x4b\x01\0\x52", bytes(20000), b"BK\1\0" * 5000)


def files():
    """Books and damaged books, and those at the limits: first sent files, then stored ones."""
    for rule_record in (ref.rule_record, stored_record):
        for books in (small_books(), large_books()):
            for book in books:
                data = book_file(*book, rule_record)
                yield data
                yield damaged(data)
        yield from limit_files(rule_record)


def file_calls():
    for data in files():
        (kind, n, *_), rules, _ = ref.read(data, RULES, JOBS)
        count = len(rules)
        few = len(data) < 3000
        for places in {count, rng.choice((0, count + 1, max(count - 1, 0), rng.randrange(2 * count + 3), RULES if few else count + 5))}:
            read_book(data, places, JOBS if kind else n)
        read_book(data, count, rng.choice((0, JOBS, 300) if kind else (0, n - 1, n + 1, JOBS, rng.randrange(2 * n))))
        for rule in {0, max(count - 1, 0), rng.choice((count, MOST, rng.choice(HUGE), rng.randrange(count + 1)))}:
            if few or rule:
                record(data, rule)
        (kind, length, *_), _ = ref.convert(data, 2**14)
        others = 0, 4, length + 1, rng.randrange(length + 1), rng.randrange(2 * length + 1)
        for room in {0, len(data) + 9} if kind else {length, length - 1, rng.choice(others)}:
            convert(data, room)


# ---- the program


def print_alike(program):
    """How many files the program was run on; tells those for which it prints something else than the reference's text."""
    cases = [p.read_bytes() for p in sorted((ROOT / "examples").glob("*.book"))]
    cases += rng.sample(list(files()), 250)
    differing = 0
    for i, data in enumerate(cases):
        done = subprocess.run([program], input=data, stdout=subprocess.PIPE)
        if done.returncode or done.stdout.decode("latin-1") != ref.text(data):
            print("file %d, %d bytes beginning with %s: prints something else" % (i, len(data), data[:40].hex()), file=sys.stderr)
            differing += 1
    print("texts: %d" % len(cases), end="")
    return differing


if __name__ == "__main__":
    if 1 < len(sys.argv):
        sys.exit(print_alike(sys.argv[1]) > 0)
    classes()
    tables()
    lists()
    impossible_rules()
    slips()
    long_lists()
    long_runs()
    initial_boards()
    plans()
    file_calls()
    missing = {call: REFUSALS[call] ^ numbers for call, numbers in seen.items() if REFUSALS[call] != numbers}
    if missing:
        print("no case for these refusals, or one that cannot be: %s" % missing, file=sys.stderr)
        sys.exit(1)
