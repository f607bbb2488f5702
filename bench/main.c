// Times the library's calls against straight C code, on families of books (docs/PERFORMANCE.md).
// With a word, only the bench run on those with the word in their names; with `calls`, only the calls on everyday books. With --survey, a
// hundred other books of each random family. Ends with status 1 where an answer, a step count or a time differs.
#define _GNU_SOURCE
#include <inttypes.h>
#include <pthread.h>
#include <signal.h>
#include <stdio.h>
#include <stdlib.h>
#include <string.h>
#include <sys/wait.h>
#include <time.h>
#include <unistd.h>

#include "../embed/marlinfray.h"

enum { JOBS = MARLINFRAY_MAX_JOBS, RULES = MARLINFRAY_MAX_RULES, OFFSET = MARLINFRAY_MAX_OFFSET };

typedef struct {
    size_t n, count;
    int32_t *latest;         // n of them, behind the rules
    marlinfray_rule rules[]; // `count` of them
} Book;

typedef struct {
    marlinfray_reply reply;
    int32_t times[JOBS];
} Out;

static void solve(const Book *b, Out *o) {
    marlinfray_solve(b->n, b->rules, b->count, b->latest, b->n, o->times, b->n, &o->reply);
}

// ---- straight code ----

static int refuse(marlinfray_reply *reply, uint64_t number, uint64_t place) {
    *reply = (marlinfray_reply){MARLINFRAY_REFUSED, number, place, 0, 0};
    return 1;
}

// The smallest of n latest times, where each is from MARLINFRAY_MIN_LATEST to 0; else 1 and the refusal.
static int32_t smallest_of(size_t n, const int32_t *latest, marlinfray_reply *reply) {
    int32_t smallest = 0;
    for (size_t i = 0; i < n; i++) {
        if (latest[i] < MARLINFRAY_MIN_LATEST || 0 < latest[i])
            return refuse(reply, MARLINFRAY_REFUSED_LATEST, i);
        smallest = latest[i] < smallest ? latest[i] : smallest;
    }
    return smallest;
}

// A rule that sets a job before itself, which the calls refuse.
static int is_impossible(marlinfray_rule r) {
    return r.k < 0 && r.x == r.y && r.y == r.z;
}

// The floor of a book that isn't refused, and its smallest latest time; else 1 and the refusal: the same checks as the library's.
static int32_t floor_of(size_t n, const marlinfray_rule *rules, size_t count, const int32_t *latest, size_t latest_len, size_t times_len,
                        int32_t *smallest, marlinfray_reply *reply) {
    int32_t k = 0;
    if (n < 1 || JOBS < n)
        return refuse(reply, MARLINFRAY_REFUSED_JOBS, 0);
    if (RULES < count)
        return refuse(reply, MARLINFRAY_REFUSED_RULES, 0);
    for (size_t i = 0; i < count; i++) {
        if (n <= rules[i].x || n <= rules[i].y || n <= rules[i].z)
            return refuse(reply, MARLINFRAY_REFUSED_JOB, i);
        if (rules[i].k < -OFFSET || OFFSET < rules[i].k)
            return refuse(reply, MARLINFRAY_REFUSED_OFFSET, i);
        if (is_impossible(rules[i]))
            return refuse(reply, MARLINFRAY_REFUSED_IMPOSSIBLE, i);
        k += abs(rules[i].k);
    }
    if (latest_len != n)
        return refuse(reply, MARLINFRAY_REFUSED_LENGTH, 0);
    *smallest = smallest_of(n, latest, reply);
    if (0 < *smallest)
        return 1;
    return times_len == n ? *smallest - k : refuse(reply, MARLINFRAY_REFUSED_LENGTH, 0);
}

// One pass over all rules, with a step on each violated one; 1 when the run has ended.
static int pass(const marlinfray_rule *rules, size_t count, int32_t floor, int32_t *times, marlinfray_reply *reply) {
    uint64_t before = reply->first, steps = before;
    for (size_t i = 0; i < count; i++) {
        int32_t p = times[rules[i].x], q = times[rules[i].y], time = times[rules[i].z];
        int32_t left = (p > q ? p : q) + rules[i].k;
        if (left < time) {
            times[rules[i].z] = left;
            steps++;
            if (left < floor) {
                *reply = (marlinfray_reply){MARLINFRAY_NONE, steps, rules[i].z, time, left};
                return 1;
            }
        }
    }
    *reply = (marlinfray_reply){MARLINFRAY_PLAN, steps, 0, 0, 0};
    return steps == before;
}

// Seconds of processor time, so that other work on the machine counts for little.
static double now(void) {
    struct timespec t;
    clock_gettime(CLOCK_PROCESS_CPUTIME_ID, &t);
    return t.tv_sec + t.tv_nsec * 1e-9;
}

// The seconds after which straight passes stop, and those that a step took in the second half of them.
static double limit, per_step;

// A straight run: its passes, or 0 where the limit came first. Called as solve is, and compiled for any book, not for the one address
// that it is called with here.
__attribute__((noipa)) static uint64_t straight_passes(size_t n, const marlinfray_rule *rules, size_t rules_len, const int32_t *latest,
                                                       size_t latest_len, int32_t *times, size_t times_len, marlinfray_reply *reply) {
    int32_t smallest, floor = floor_of(n, rules, rules_len, latest, latest_len, times_len, &smallest, reply);
    if (0 < floor)
        return 0;
    memset(reply, 0, sizeof *reply);
    memcpy(times, latest, n * sizeof *times);
    double start = 0, half = 0;
    uint64_t steps_at_half = 0;
    for (uint64_t passes = 1;; passes++) {
        if (pass(rules, rules_len, floor, times, reply))
            return passes;
        if (passes % 1024 == 0) {
            double t = now();
            if (!start)
                start = t;
            if (!half && limit / 2 < t - start)
                half = t, steps_at_half = reply->first;
            if (limit < t - start) {
                per_step = (t - half) / (reply->first - steps_at_half);
                return 0;
            }
        }
    }
}

static uint64_t straight(const Book *b, Out *o) {
    return straight_passes(b->n, b->rules, b->count, b->latest, b->n, o->times, b->n, &o->reply);
}

// The larger of x and y, plus k, whatever the times are.
static int64_t left_side(marlinfray_rule r, const int32_t *times) {
    int32_t p = times[r.x], q = times[r.y];
    return (int64_t)(p > q ? p : q) + r.k;
}

// The kept test and the hand step, called and compiled in the same way.
__attribute__((noipa)) static void straight_first_violated(size_t n, const marlinfray_rule *rules, size_t rules_len,
                                                           const int32_t *latest, size_t latest_len, const int32_t *times,
                                                           size_t times_len, marlinfray_reply *reply) {
    int32_t smallest;
    if (0 < floor_of(n, rules, rules_len, latest, latest_len, times_len, &smallest, reply))
        return;
    for (size_t i = 0; i < rules_len; i++)
        if (left_side(rules[i], times) < times[rules[i].z]) {
            *reply = (marlinfray_reply){MARLINFRAY_VIOLATED, i, 0, 0, 0};
            return;
        }
    *reply = (marlinfray_reply){MARLINFRAY_SATISFIED, 0, 0, 0, 0};
}

__attribute__((noipa)) static int straight_step(size_t n, const marlinfray_rule *rules, size_t rules_len, const int32_t *latest,
                                                size_t latest_len, int32_t *times, size_t times_len, marlinfray_tally *tally,
                                                size_t number, marlinfray_reply *reply) {
    int32_t smallest, floor = floor_of(n, rules, rules_len, latest, latest_len, times_len, &smallest, reply), least = 0;
    uint64_t minutes = 0;
    if (0 < floor)
        return 1;
    for (size_t i = 0; i < n; i++) {
        if (times[i] < 2 * floor - smallest || latest[i] < times[i])
            return refuse(reply, MARLINFRAY_REFUSED_RANGE, 0);
        minutes += latest[i] - times[i];
        least = times[i] < least ? times[i] : least;
    }
    if (tally->minutes != minutes || minutes < tally->steps)
        return refuse(reply, MARLINFRAY_REFUSED_TALLY, 0);
    if (rules_len <= number)
        return refuse(reply, MARLINFRAY_REFUSED_NUMBER, 0);
    if (least < floor)
        return refuse(reply, MARLINFRAY_REFUSED_FLOOR, 0);
    int32_t *time = &times[rules[number].z];
    int64_t left = left_side(rules[number], times);
    if (*time <= left)
        return refuse(reply, MARLINFRAY_REFUSED_SATISFIED, 0);
    tally->steps++;
    tally->minutes += *time - left;
    *reply = (marlinfray_reply){MARLINFRAY_DONE, rules[number].z, 0, *time, left};
    *time = left;
    return 0;
}

// ---- families ----

// Adds a rule, but for an impossible one; answers how many it added.
static int rule(Book *b, int x, int y, int k, int z) {
    marlinfray_rule r = {x, y, z, k};
    b->rules[b->count] = r;
    b->count += !is_impossible(r);
    return !is_impossible(r);
}

static void swap(Book *b, size_t i, size_t j) {
    marlinfray_rule r = b->rules[i];
    b->rules[i] = b->rules[j], b->rules[j] = r;
}

static uint64_t seed;

// splitmix64, below m
static int below(int m) {
    uint64_t v = seed += 0x9e3779b97f4a7c15;
    v = (v ^ v >> 30) * 0xbf58476d1ce4e5b9;
    v = (v ^ v >> 27) * 0x94d049bb133111eb;
    return (v ^ v >> 31) % m;
}

enum { FORWARD, REVERSE, INTERLEAVED };

// The rule that comes i-th in a ring of `len` rules.
static int in_order(int i, int len, int order) {
    return order == FORWARD ? i : order == REVERSE ? len - 1 - i : i < (len + 1) / 2 ? 2 * i : 2 * (i - (len + 1) / 2) + 1;
}

// A ring from job `at` on: rule i sets job at + i by the job before it. The offsets alternate between 1 - o and o - 1,
// but for rule 0's, so that their sum is -1. Where `join` is another ring's first job, it is the second arm of rule 0,
// and the first `arms` jobs of that ring are those of every sixteenth rule.
static void ring(Book *b, int at, int len, int o, int order, int join, int arms) {
    for (int i = 0; i < len; i++) {
        int r = in_order(i, len, order);
        int k = r == 0 ? (len % 2 ? -1 : -o) : (r + len) % 2 ? o - 1 : 1 - o;
        int x = at + (r + len - 1) % len, y = x;
        if (join >= 0 && r == 0)
            y = join;
        else if (0 < r && r % 16 == 0 && r <= arms)
            y = join + r - 1;
        rule(b, x, y, k, at + r);
    }
}

// Rules that never step, and raise K.
static void idle(Book *b, int count, int o) {
    for (int i = 0; i < count; i++)
        rule(b, i % b->n, (i + 1) % b->n, o, i % b->n);
}

static void one_ring(Book *b, int o, int len, int order) {
    b->n = len;
    ring(b, 0, len, o, order, -1, 0);
}

static void full_ring(Book *b, int o, int len, int order) {
    one_ring(b, o, len, order);
    idle(b, RULES - len, o);
}

// Two rings in reverse order, apart or joined by rules with two arms: then no ring falls while the other stands.
static void apart(Book *b, int o, int len, int other) {
    b->n = len + other;
    ring(b, 0, len, o, REVERSE, -1, 0);
    ring(b, len, other, o, REVERSE, -1, 0);
}

static void joined(Book *b, int o, int len, int other) {
    b->n = len + other;
    ring(b, 0, len, o, REVERSE, len, other);
    ring(b, len, other, o, REVERSE, 0, 0);
}

// More than two, with lengths two apart and the last with the jobs that are left; joined, job 0 is a second arm in each
// of the others.
static void many(Book *b, int o, int rings, int joined) {
    b->n = JOBS;
    for (int i = 0, at = 0, len; i < rings; i++, at += len) {
        len = i + 1 < rings ? JOBS / rings - rings + 2 * i + 1 : JOBS - at;
        ring(b, at, len, o, REVERSE, joined && i ? 0 : -1, 0);
    }
}

// The same apart, and idle rules whose second arms lie in other rings.
static void across(Book *b, int o, int rings, int count) {
    many(b, o, rings, 0);
    for (int i = 0; i < count; i++)
        rule(b, i % JOBS, below(JOBS), o, i % JOBS);
}

// Rings of random lengths and offsets, each with its own drop in a round, in random order; some rules between them, and idle ones
// across.
static void random_rings(Book *b, int o, int rings, int count) {
    for (int i = 0; i < rings; i++) {
        int at = b->n, len = 12 + below(40), sum = 0;
        for (int r = 0; r < len; r++) {
            int x = at + (r + len - 1) % len, k = r + 1 < len ? below(o + 1) - (sum > 0 ? o : 0) : -1 - below(60) - sum;
            rule(b, x, below(20) ? x : below(at + len), k, at + r);
            sum += k;
        }
        b->n += len;
    }
    for (size_t i = 0; i < b->count; i++)
        swap(b, i, i + below(b->count - i));
    for (int i = 0; i < rings; i++)
        rule(b, below(b->n), below(b->n), below(o), below(b->n));
    while (b->count < (size_t)count)
        rule(b, b->count % b->n, below(b->n), o, b->count % b->n);
}

// Rings of odd lengths in reverse order that all fall a minute a pass, each in rounds of its own, and a job that follows
// the first job of each.
static void followed(Book *b, int o, int rings, int unused) {
    (void)unused;
    b->n = JOBS;
    int firsts[JOBS];
    for (int i = 0, at = 0, len; i < rings; i++, at += len) {
        len = i + 1 < rings ? JOBS / rings - rings + 2 * i + 1 : JOBS - 1 - at;
        firsts[i] = at;
        for (int r = len - 1; r >= 0; r--)
            rule(b, at + (r + len - 1) % len, at + (r + len - 1) % len, r == 0 ? 1 - len : r % 2 ? o : -o, at + r);
    }
    for (int i = 0; i < rings; i++)
        rule(b, firsts[i], firsts[i], 0, JOBS - 1);
}

// The paper's Example 1, u - o >= x after a chain of `deep` such rules; `none` adds its last rule.
static void example(Book *b, int o, int deep, int none) {
    b->n = deep + 3;
    int y = deep + 1, z = deep + 2;
    for (int i = 0; i < deep; i++)
        rule(b, i, i, -o, i + 1);
    rule(b, z, z, 0, y);
    rule(b, deep, y, -1, z);
    rule(b, deep, 0, 25, z);
    if (none)
        rule(b, deep, y, o - 1, 0);
}

// Rules that some times keep, half of them exactly; so there is a plan.
static void random_plan(Book *b, int o, int n, int count) {
    int32_t t[JOBS];
    b->n = n;
    for (int i = 0; i < n; i++)
        t[i] = i ? -below(o / 2) : 0;
    while (b->count < (size_t)count) {
        int x = below(n), y = below(n), z = below(n);
        int k = t[z] - (t[x] > t[y] ? t[x] : t[y]);
        rule(b, x, y, k + below(2) * below(o / 100 + 1), z);
    }
}

// Every job has a rule with a negative offset, so none can be the latest of a model.
static void random_none(Book *b, int o, int n, int count) {
    b->n = n;
    for (int i = 0; i < n;)
        i += rule(b, below(n), below(n), -1 - below(o / 100), i);
    while (b->count < (size_t)count)
        rule(b, below(n), below(n), below(2 * o + 1) - o, below(n));
}

// The same with random latest times.
static void random_latest(Book *b, int o, int n, int count) {
    random_plan(b, o, n, count);
    for (int i = 0; i < n; i++)
        b->latest[i] = -below(1 - MARLINFRAY_MIN_LATEST);
}

// A plan's rules, and a ring of nine jobs among them whose offsets have the sum -1.
static void slow_none(Book *b, int o, int n, int count) {
    random_plan(b, o, n, count - 9);
    ring(b, 0, 9, o, REVERSE, -1, 0);
}

static void empty(Book *b, int o, int n, int count) {
    b->n = n;
    idle(b, count, o);
}

// A ring that is all descent.
static void steep(Book *b, int o, int n, int order) {
    b->n = n;
    for (int i = 0; i < n; i++) {
        int r = in_order(i, n, order);
        rule(b, r, r, -o, (r + 1) % n);
    }
}

// A chain in reverse order: pass p lowers the jobs from p on, so no two passes are alike.
static void chain(Book *b, int o, int n, int unused) {
    (void)unused;
    b->n = n;
    for (int i = n - 2; i >= 0; i--)
        rule(b, i, i, -1 - below(o), i + 1);
}

// A ring in reverse order on which one large drop goes round.
static void wave(Book *b, int at, int len, int o) {
    for (int i = len - 1; i >= 0; i--)
        rule(b, at + (i + len - 1) % len, at + (i + len - 1) % len, i ? 0 : -o, at + i);
}

// Two of them, of lengths 127 and 129; idle rules let the run go on for `drops` drops.
static void waves(Book *b, int o, int drops, int unused) {
    (void)unused;
    b->n = 256;
    wave(b, 0, 127, o);
    wave(b, 127, 129, o);
    idle(b, drops - 2, o);
}

// Pairs that count down a minute a pass, each to a limit of its own: what a pass does changes as one after the other stops.
static void counters(Book *b, int o, int pairs, int unused) {
    (void)unused;
    b->n = 3 * pairs + 1;
    for (int i = 0; i < pairs; i++) {
        int stop = 1 + 3 * i, c = stop + 1, d = stop + 2;
        rule(b, 0, 0, -(o / 10 + below(o)), stop);
        rule(b, d, d, 0, c);
        rule(b, c, stop, -1, d);
    }
}

typedef struct {
    const char *name;
    void (*make)(Book *, int offset, int a, int b);
    int offset, a, b;
    int sister; // the offset of the smaller book that is compared where straight passes take too long
    int seed;
} Family;

static const Family families[] = {
    {"ring of 256, forward", one_ring, OFFSET, 256, FORWARD, 200, 0},
    {"ring of 256, reverse", one_ring, OFFSET, 256, REVERSE, 20, 0},
    {"ring of 256, interleaved", one_ring, OFFSET, 256, INTERLEAVED, 40, 0},
    {"ring of 256 and 768 idle rules, forward", full_ring, OFFSET, 256, FORWARD, 60, 0},
    {"ring of 256 and 768 idle rules, reverse", full_ring, OFFSET, 256, REVERSE, 3, 0},
    {"rings of 127 and 129, joined", joined, OFFSET, 127, 129, 30, 0},
    {"rings of 129 and 127, joined", joined, OFFSET, 129, 127, 30, 0},
    {"rings of 126 and 130, joined", joined, OFFSET, 126, 130, 30, 0},
    {"rings of 130 and 126, joined", joined, OFFSET, 130, 126, 30, 0},
    {"rings of 63 and 65, joined", joined, OFFSET, 63, 65, 200, 0},
    {"Example 1, plan", example, OFFSET, 1, 0, 0, 0},
    {"Example 1, none", example, OFFSET, 1, 1, 0, 0},
    {"Example 1 after a chain of 253", example, OFFSET, 253, 0, 1000, 0},
    {"random, sparse, plan", random_plan, OFFSET, 256, 320, 0, 1},
    {"random, sparse, plan", random_plan, OFFSET, 256, 512, 0, 2},
    {"random, dense, plan", random_plan, OFFSET, 64, 1024, 0, 3},
    {"random, dense, plan", random_plan, OFFSET, 256, 1024, 0, 4},
    {"random, everyday, latest times", random_latest, OFFSET, 32, 40, 0, 70},
    {"random, dense, latest times", random_latest, OFFSET, 256, 1024, 0, 4},
    {"random, sparse, none", random_none, OFFSET, 256, 320, 2000, 5},
    {"random, sparse, none", random_none, OFFSET, 128, 160, 2000, 6},
    {"random, dense, none", random_none, OFFSET, 64, 1024, 2000, 7},
    {"random, dense, none", random_none, OFFSET, 256, 1024, 2000, 8},
    {"random, sparse, slow none", slow_none, OFFSET, 256, 320, 200, 9},
    {"random, dense, slow none", slow_none, OFFSET, 128, 1024, 200, 10},
    {"no rule", empty, 0, 256, 0, 0, 0},
    {"1,024 idle rules", empty, OFFSET, 256, 1024, 0, 0},
    // Beyond these, to see where it does worse.
    {"rings of 127 and 129, apart", apart, OFFSET, 127, 129, 30, 0},
    {"rings of 126 and 130, apart", apart, OFFSET, 126, 130, 30, 0},
    {"rings of 63 and 65, apart", apart, OFFSET, 63, 65, 200, 0},
    {"rings of 83, 85 and 88, apart", many, OFFSET, 3, 0, 30, 0},
    {"five rings of 47 to 56, apart", many, OFFSET, 5, 0, 30, 0},
    {"eight rings of 25 to 39, apart", many, OFFSET, 8, 0, 30, 0},
    {"rings of 83, 85 and 88, joined", many, OFFSET, 3, 1, 30, 0},
    {"five rings of 47 to 56, joined", many, OFFSET, 5, 1, 30, 0},
    {"rings of 83, 85 and 88, and 768 idle rules across", across, OFFSET, 3, 768, 3, 14},
    {"five rings of 47 to 56, and 768 idle rules across", across, OFFSET, 5, 768, 3, 15},
    {"three random rings, 600 rules", random_rings, OFFSET, 3, 600, 20, 16},
    {"four random rings, 600 rules", random_rings, OFFSET, 4, 600, 20, 17},
    {"five random rings, 600 rules", random_rings, OFFSET, 5, 600, 20, 18},
    {"five random rings, 1,024 rules", random_rings, OFFSET, 5, 1024, 20, 20},
    {"rings of 83, 85 and 87 at one rate, and a job below", followed, OFFSET, 3, 0, 2000, 0},
    {"ring of 2, offsets of 1 minute", one_ring, 1, 2, FORWARD, 0, 0},
    {"ring of 2", one_ring, OFFSET, 2, FORWARD, 0, 0},
    {"ring of 2, reverse", one_ring, OFFSET, 2, REVERSE, 0, 0},
    {"ring of 256 that only falls, forward", steep, OFFSET, 256, FORWARD, 0, 0},
    {"ring of 256 that only falls, reverse", steep, OFFSET, 256, REVERSE, 0, 0},
    {"chain of 101, reverse", chain, OFFSET, 101, 0, 0, 11},
    {"chain of 256, reverse", chain, OFFSET, 256, 0, 0, 12},
    {"rings of 127 and 129, one drop each, 3 rounds", waves, OFFSET, 3, 0, 0, 0},
    {"rings of 127 and 129, one drop each, 8 rounds", waves, OFFSET, 8, 0, 0, 0},
    {"85 counters with limits of their own", counters, 900, 85, 0, 0, 13},
};

// A random family has a book for each variant; the others have one. It takes no more memory than its rules and latest times need, which
// are zero where the family sets no others.
static Book *make(const Family *f, int offset, int variant) {
    Book *b = calloc(1, sizeof *b + RULES * sizeof *b->rules + JOBS * sizeof *b->latest);
    seed = f->seed + 1000 * variant;
    b->latest = (int32_t *)&b->rules[RULES];
    f->make(b, offset, f->a, f->b);
    memmove(&b->rules[b->count], b->latest, b->n * sizeof *b->latest);
    b = realloc(b, sizeof *b + b->count * sizeof *b->rules + b->n * sizeof *b->latest);
    b->latest = (int32_t *)&b->rules[b->count];
    return b;
}

// ---- timing ----

static int by_size(const void *a, const void *b) {
    double p = *(const double *)a, q = *(const double *)b;
    return (p > q) - (p < q);
}

// Seconds: the most for straight passes, the most for the run, the most for both over all variants of a book; and a batch of short calls.
enum { LIMIT = 2, PATIENCE = 20, ROUND = 20 };
static const double BATCH = 0.01;
enum { BATCHES = 15, VARIANTS = 1024 };

static double median(double *t, int count) {
    qsort(t, count, sizeof *t, by_size);
    return t[count / 2];
}

// Makes a call on one of the variants, which are numbered from 0.
typedef void Call(int variant);

// Seconds of a fast and of a slow call: the median of batches that the two make by turns, each over all variants. `once` is about what
// both take together on a variant, or 0; where `both` is 0 there is no slow call.
__attribute__((always_inline)) static inline void by_turns(Call *fast, Call *slow, int both, int variants, double once, double *fast_time,
                                                           double *slow_time) {
    // short calls are made in batches, and their first calls were made with cold caches
    if (once < 0.001) {
        int rounds = 1 + 100 / variants;
        double t = now();
        for (int r = 0; r < rounds; r++)
            for (int v = 0; v < variants; v++) {
                fast(v);
                if (both)
                    slow(v);
            }
        once = (now() - t) / rounds / variants;
    }
    double round = once * variants;
    int rounds = 1 + BATCH / round, batches = round < 0.5 ? BATCHES : round < 5 ? 3 : 1;
    double fasts[BATCHES], slows[BATCHES];
    for (int i = 0; i < batches; i++) {
        double t = now();
        for (int r = 0; r < rounds; r++)
            for (int v = 0; v < variants; v++)
                fast(v);
        fasts[i] = (now() - t) / rounds / variants;
        t = now();
        for (int r = 0; both && r < rounds; r++)
            for (int v = 0; v < variants; v++)
                slow(v);
        slows[i] = (now() - t) / rounds / variants;
    }
    *fast_time = median(fasts, batches);
    *slow_time = median(slows, batches);
}

static int same(const Book *b, const Out *o, const Out *p) {
    return !memcmp(&o->reply, &p->reply, sizeof o->reply) && !memcmp(o->times, p->times, b->n * sizeof *o->times);
}

// Three digits and no exponent, with commas.
static const char *number(double v) {
    static char text[4][40];
    static int turn;
    char digits[40], *out = text[turn++ % 4];
    if (v < 100) {
        int places = 2;
        for (double u = v; 0 < u && u < 1; u *= 10)
            places++;
        snprintf(out, 40, "%.*f", places - (10 <= v), v);
        return out;
    }
    double unit = 1;
    while (1000 <= v / unit)
        unit *= 10;
    int len = snprintf(digits, sizeof digits, "%.0f", (double)(long)(v / unit + 0.5) * unit), j = 0;
    for (int i = 0; i < len; i++) {
        if (i && (len - i) % 3 == 0)
            out[j++] = ',';
        out[j++] = digits[i];
    }
    out[j] = 0;
    return out;
}

static void patient_solve(const Book *b, Out *o) {
    alarm(PATIENCE);
    solve(b, o);
    alarm(0);
}

// The variants of the book that is timed, and what was said of the last.
static Book *books[VARIANTS];
static Out fast, slow;

static void fast_call(int variant) {
    solve(books[variant], &fast);
}

static void slow_call(int variant) {
    straight(books[variant], &slow);
}

// One line of the table; 0 where the answers agree.
static int measure(const Family *f) {
    double t;
    limit = 60;
    if (f->sister) {
        Book *b = make(f, f->sister, 0);
        patient_solve(b, &fast);
        if (!straight(b, &slow) || !same(b, &fast, &slow)) {
            printf("| %s | | | | | | | DIFFERS | |\n", f->name);
            return 1;
        }
    }

    Book *b = books[0] = make(f, f->offset, 0);
    t = now();
    patient_solve(b, &fast);
    double once = now() - t;
    t = now();
    limit = LIMIT;
    uint64_t passes = straight(b, &slow);
    once += passes ? now() - t : 0;

    int differs = passes ? !same(b, &fast, &slow) : !f->sister;

    uint64_t steps = fast.reply.first;
    const char *answer = fast.reply.kind == MARLINFRAY_PLAN ? "plan" : fast.reply.kind == MARLINFRAY_NONE ? "none" : "refused";
    printf("| %s | %zu | %zu | %s | ", f->name, b->n, b->count, answer);
    if (passes)
        printf("%" PRIu64, passes);
    printf(" | %" PRIu64 " | ", steps);

    // of a random book that straight passes finish, variants by turns: else the processor learns the one book's steps by heart
    int variants = 1;
    double start = now();
    for (int v = 1; f->seed && passes && v < VARIANTS && now() - start < ROUND; v++) {
        b = make(f, f->offset, v);
        patient_solve(b, &fast);
        if (straight(b, &slow)) {
            differs |= !same(b, &fast, &slow);
            books[variants++] = b;
        } else
            free(b);
    }
    if (1 < variants)
        once = (now() - start) / variants;

    double fast_time, slow_time;
    by_turns(fast_call, slow_call, passes != 0, variants, once, &fast_time, &slow_time);
    if (!passes)
        slow_time = per_step * steps;

    printf("%d | %s%s | %s |%s\n", variants, passes ? "" : "~", number(slow_time / fast_time), number(fast_time * 1e3),
           differs ? " DIFFERS" : "");
    return differs;
}

// ---- survey ----

enum { SURVEYED = 100, TURNS = 5 };

// The least seconds that a call on each book took, and its answer: the library's first, then straight passes'; and whether these finished.
static double took[2][SURVEYED];
static Out answers[2][SURVEYED];
static int is_finished[SURVEYED];

// Makes a call on each book, and after the first turn only on those on which it takes less than a millisecond. `clock` is what the clock
// itself takes.
static void take_turn(int turn, int by_straight, double clock) {
    for (int i = 0; i < SURVEYED; i++) {
        double *least = &took[by_straight][i];
        if (turn && 0.001 < *least)
            continue;
        alarm(PATIENCE);
        double t = now();
        if (by_straight)
            is_finished[i] = straight(books[i], &answers[1][i]) != 0;
        else
            solve(books[i], &answers[0][i]);
        t = now() - t - clock;
        alarm(0);
        if (!turn || t < *least)
            *least = t;
    }
}

// Other books of a random family, by turns, so that the processor learns none by heart: how many straight passes finish in a tenth of a
// second, the least ratio and how many are below 0.9 among these, and the longest solve of all. 0 where the answers agree.
static int survey(const Family *f) {
    int finished = 0, low = 0, differs = 0;
    double least = 1e300, longest = 0, clock = now();
    for (int i = 0; i < 1000; i++)
        now();
    clock = (now() - clock) / 1001;
    limit = 0.1;
    for (int i = 0; i < SURVEYED; i++)
        books[i] = make(f, f->offset, i + 1);
    for (int turn = 0; turn < TURNS; turn++)
        take_turn(turn, 0, clock), take_turn(turn, 1, clock);
    for (int i = 0; i < SURVEYED; i++) {
        double t = took[0][i], u = took[1][i];
        if (longest < t)
            longest = t;
        if (!is_finished[i])
            continue;
        finished++;
        differs |= !same(books[i], &answers[0][i], &answers[1][i]);
        low += u < 0.9 * t;
        if (u / t < least)
            least = u / t;
    }
    printf("| %s | %d | %d | %s | %d | %s |%s\n", f->name, SURVEYED, finished, finished ? number(least) : "", low, number(longest * 1e3),
           differs ? " DIFFERS" : "");
    return differs;
}

// ---- calls ----

// The rules of an everyday book, and those of all variants of a book together: they take half a megabyte, so that the processor learns
// none of them by heart and still has most of them in its nearer caches.
enum { EVERYDAY = 40, ALL_RULES = EVERYDAY * VARIANTS };

// A book with its plan and a board in the middle of its run: that one's tally, the rule that steps next, its third job and that job's
// time.
typedef struct {
    Book *book;
    int32_t *plan, *board;
    marlinfray_tally tally;
    size_t number, job;
    int32_t time;
} Sample;

static Sample samples[VARIANTS];
static marlinfray_reply fast_reply, slow_reply;

// Makes the first `steps` steps of the run.
static void begin_run(Sample *s, uint64_t steps) {
    const Book *b = s->book;
    for (size_t i = 0; b->count; i = (i + 1) % b->count) {
        marlinfray_rule r = b->rules[i];
        int32_t left = left_side(r, s->board);
        if (s->board[r.z] <= left)
            continue;
        s->number = i, s->job = r.z, s->time = s->board[r.z];
        if (s->tally.steps == steps)
            return;
        s->tally.steps++;
        s->tally.minutes += s->board[r.z] - left;
        s->board[r.z] = left;
    }
}

static void fast_run(int v) {
    solve(samples[v].book, &fast);
}

static void slow_run(int v) {
    straight(samples[v].book, &slow);
}

static void fast_kept(int v) {
    const Book *b = samples[v].book;
    marlinfray_first_violated(b->n, b->rules, b->count, b->latest, b->n, samples[v].plan, b->n, &fast_reply);
}

static void slow_kept(int v) {
    const Book *b = samples[v].book;
    straight_first_violated(b->n, b->rules, b->count, b->latest, b->n, samples[v].plan, b->n, &slow_reply);
}

// A hand step is made on the board, and taken back but for its tally.
static marlinfray_tally fast_tally, slow_tally;

static void fast_step(int v) {
    Sample *s = &samples[v];
    const Book *b = s->book;
    fast_tally = s->tally;
    marlinfray_step(b->n, b->rules, b->count, b->latest, b->n, s->board, b->n, &fast_tally, s->number, &fast_reply);
    s->board[s->job] = s->time;
}

static void slow_step(int v) {
    Sample *s = &samples[v];
    const Book *b = s->book;
    slow_tally = s->tally;
    straight_step(b->n, b->rules, b->count, b->latest, b->n, s->board, b->n, &slow_tally, s->number, &slow_reply);
    s->board[s->job] = s->time;
}

static int same_reply(uint64_t kind) {
    return !memcmp(&fast_reply, &slow_reply, sizeof fast_reply) && fast_reply.kind == kind;
}

// Books that have a plan, the everyday ones among them, by their latest times: zero or random.
static const Family planned[] = {
    {"zero", random_plan, OFFSET, JOBS, 0, 0, 30},
    {"zero", random_plan, OFFSET, 32, EVERYDAY, 0, 30 + EVERYDAY},
    {"zero", random_plan, OFFSET, JOBS, 320, 0, 30 + 320},
    {"zero", random_plan, OFFSET, JOBS, RULES, 0, 30 + RULES},
    {"random", random_latest, OFFSET, 32, EVERYDAY, 0, 30 + EVERYDAY},
    {"random", random_latest, OFFSET, JOBS, RULES, 0, 30 + RULES},
};

static void call_line(const char *call, const Family *f, double fast_time, double slow_time, int differs) {
    printf("| %s | %d | %d | %s | %s | %s | %s |%s\n", call, f->a, f->b, f->name, number(slow_time / fast_time), number(fast_time * 1e9),
           number(slow_time * 1e9), differs ? " DIFFERS" : "");
}

// The bench run, the hand step and the kept test on books that have a plan. The kept test is made on the plan, so that it
// looks at every rule, and the hand step steps; without a rule it is refused. 0 where the answers agree.
static int everyday(const Family *f) {
    int n = f->a, count = f->b;
    int variants = count ? ALL_RULES / count : 1, run_differs = 0, step_differs = 0, kept_differs = 0;
    limit = 60;
    for (int v = 0; v < variants; v++) {
        Sample *s = &samples[v];
        Book *b = s->book = make(f, f->offset, v);
        s->plan = malloc(2 * n * sizeof *s->plan), s->board = s->plan + n;
        memcpy(s->board, b->latest, n * sizeof *s->board);
        fast_run(v), slow_run(v);
        run_differs |= !same(b, &fast, &slow) || fast.reply.kind != MARLINFRAY_PLAN;
        memcpy(s->plan, slow.times, n * sizeof *s->plan);
        begin_run(s, slow.reply.first / 2);

        fast_kept(v), slow_kept(v);
        kept_differs |= !same_reply(MARLINFRAY_SATISFIED);

        int32_t left[2];
        marlinfray_tally tally[2] = {s->tally, s->tally};
        marlinfray_step(n, b->rules, count, b->latest, n, s->board, n, &tally[0], s->number, &fast_reply);
        left[0] = s->board[s->job], s->board[s->job] = s->time;
        straight_step(n, b->rules, count, b->latest, n, s->board, n, &tally[1], s->number, &slow_reply);
        left[1] = s->board[s->job], s->board[s->job] = s->time;
        step_differs |= !same_reply(count ? MARLINFRAY_DONE : MARLINFRAY_REFUSED) || left[0] != left[1] ||
                        memcmp(&tally[0], &tally[1], sizeof *tally);
    }
    double fast_time, slow_time;
    by_turns(fast_run, slow_run, 1, variants, 0, &fast_time, &slow_time);
    call_line("bench run", f, fast_time, slow_time, run_differs);
    by_turns(fast_step, slow_step, 1, variants, 0, &fast_time, &slow_time);
    call_line("hand step", f, fast_time, slow_time, step_differs);
    by_turns(fast_kept, slow_kept, 1, variants, 0, &fast_time, &slow_time);
    call_line("kept test", f, fast_time, slow_time, kept_differs);
    return run_differs || step_differs || kept_differs;
}

// ---- stack ----

enum { STACK = 1 << 20, PAINT = 0xa5 };

// What the calls are given whose stack is counted: a book of the most jobs and rules, its file, a stored file with as many rules in hours
// and the file that it is converted to, and the bytes of the plan.
static Book *stack_book;
static marlinfray_rule stack_rules[RULES];
static int32_t stack_latest[JOBS];
static uint8_t stack_file[MARLINFRAY_FILE_BYTES], stack_stored[MARLINFRAY_FILE_BYTES], stack_converted[MARLINFRAY_FILE_BYTES];
static uint8_t stack_bytes[MARLINFRAY_PLAN_BYTES * JOBS];
static size_t stack_length, stack_stored_length;
static Out stack_out;
static marlinfray_tally stack_tally;
static marlinfray_slip stack_slip;
static size_t stack_number;

// A call; it answers something, so that it is no jump.
typedef int Body(void);

static int no_call(void) {
    return 0;
}

static int read_book_call(void) {
    marlinfray_read_book(stack_file, stack_length, stack_rules, RULES, stack_latest, JOBS, &stack_out.reply);
    return 0;
}

static int record_call(void) {
    marlinfray_record(stack_file, stack_length, RULES - 1, &stack_out.reply);
    return 0;
}

static int convert_call(void) {
    marlinfray_convert(stack_stored, stack_stored_length, stack_converted, sizeof stack_converted, &stack_out.reply);
    return 0;
}

static int class_call(void) {
    stack_out.reply.kind = marlinfray_class(0, 1, 2, -1);
    return 0;
}

static int first_violated_call(void) {
    const Book *b = stack_book;
    marlinfray_first_violated(b->n, b->rules, b->count, b->latest, b->n, stack_out.times, b->n, &stack_out.reply);
    return 0;
}

static int is_tight_call(void) {
    const Book *b = stack_book;
    marlinfray_is_tight(b->n, b->rules, b->count, b->latest, b->n, stack_out.times, b->n, 0, &stack_out.reply);
    return 0;
}

static int initial_call(void) {
    marlinfray_initial(stack_book->n, stack_book->latest, stack_book->n, stack_out.times, stack_book->n, &stack_out.reply);
    return 0;
}

static int step_call(void) {
    const Book *b = stack_book;
    marlinfray_step(b->n, b->rules, b->count, b->latest, b->n, stack_out.times, b->n, &stack_tally, stack_number, &stack_out.reply);
    return 0;
}

static int step_back_call(void) {
    const Book *b = stack_book;
    stack_slip = (marlinfray_slip){stack_out.reply.first, stack_out.reply.before, stack_out.reply.after};
    marlinfray_step_back(b->n, b->rules, b->count, b->latest, b->n, stack_out.times, b->n, &stack_tally, &stack_slip, &stack_out.reply);
    return 0;
}

static int solve_call(void) {
    solve(stack_book, &stack_out);
    return 0;
}

static int write_plan_call(void) {
    marlinfray_write_plan(stack_out.times, JOBS, stack_bytes, sizeof stack_bytes, 0, &stack_out.reply);
    return 0;
}

static unsigned char stack[STACK] __attribute__((aligned(4096)));
static size_t written;

// Paints what is left of the thread's stack, makes the call, and counts the bytes from the deepest one that was written.
static void *painted(void *body) {
    unsigned char *top;
    __asm__ volatile("movq %%rsp, %0" : "=r"(top));
    memset(stack, PAINT, top - 16 - stack); // the painting's own return address stands there
    (*(Body **)body)();
    size_t i = 0;
    while (stack[i] == PAINT)
        i++;
    written = top - stack - i;
    return 0;
}

static size_t depth(Body *body) {
    pthread_attr_t attr;
    pthread_t thread;
    pthread_attr_init(&attr);
    pthread_attr_setstack(&attr, stack, STACK);
    pthread_create(&thread, &attr, painted, &body);
    pthread_join(thread, 0);
    return written;
}

static void put16(uint16_t v) {
    stack_file[stack_length++] = v;
    stack_file[stack_length++] = v >> 8;
}

// Prints the stack of each call, less that of no call; of the bench run the most on any book of the families.
static int stacks(void) {
    static const struct {
        const char *name;
        Body *body;
    } calls[] = {
        {"read_book", read_book_call}, {"record", record_call},
        {"convert", convert_call},     {"class", class_call},
        {"first_violated", first_violated_call}, {"is_tight", is_tight_call},
        {"initial", initial_call},     {"step", step_call},
        {"step_back", step_back_call}, {"write_plan", write_plan_call},
    };
    const Family f = {"", random_latest, OFFSET, JOBS, RULES, 0, 29};
    const Book *b = stack_book = make(&f, f.offset, 0);
    put16('B' | 'K' << 8), put16(JOBS);
    for (size_t i = 0; i < JOBS; i++)
        put16('C' | 'E' << 8), put16(i), put16(b->latest[i]), put16(b->latest[i] >> 16);
    for (size_t i = 0; i < RULES; i++) {
        marlinfray_rule r = b->rules[i];
        put16('R' | 'U' << 8), put16(r.x), put16(r.y), put16(r.z), put16(r.k), put16(r.k >> 16);
    }
    size_t head = 4 + 8 * JOBS;
    memcpy(stack_stored, stack_file, stack_stored_length = head);
    for (size_t i = 0; i < RULES; i++, stack_stored_length += 10) {
        uint8_t *record = stack_stored + stack_stored_length;
        memcpy(record, stack_file + head + 12 * i, 8);
        memcpy(record, "HR", 2), memcpy(record + 8, "\xff\xff", 2);
    }
    memcpy(stack_out.times, b->latest, sizeof stack_out.times);
    straight_first_violated(JOBS, b->rules, RULES, b->latest, JOBS, stack_out.times, JOBS, &stack_out.reply);
    stack_number = stack_out.reply.first;

    size_t none = depth(no_call), most = 0;
    printf("\nStack of a call, bytes:");
    for (size_t i = 0; i < sizeof calls / sizeof *calls; i++)
        printf(" %s %zu,", calls[i].name, depth(calls[i].body) - none);
    alarm(PATIENCE);
    for (size_t i = 0; i < sizeof families / sizeof *families; i++) {
        stack_book = make(&families[i], families[i].offset, 0);
        size_t d = depth(solve_call) - none;
        most = most < d ? d : most;
    }
    printf(" solve %zu\n", most);
    return 0;
}

// ---- the program ----

// Leaves a part of the work to a child, which may be stopped where it takes too long: 1 in the child; in the parent 0, once the child has
// ended with that status.
static int is_child(int *status) {
    fflush(stdout);
    pid_t child = fork();
    if (child)
        waitpid(child, status, 0);
    return !child;
}

static int is_late(int status) {
    return WIFSIGNALED(status) && WTERMSIG(status) == SIGALRM;
}

int main(int argc, char **argv) {
    int others = 1 < argc && !strcmp(argv[1], "--survey"), only_calls = 1 < argc && !strcmp(argv[1], "calls");
    int all = argc == 1, differs = 0, status;
    if (others) {
        argc--, argv++;
        printf("| Book | Books | Finished by straight passes | Least straight / solve | Below 0.9 | Longest solve, ms |\n|---|---|---|---|---|---|\n");
    } else if (!only_calls)
        printf("| Book | Jobs | Rules | Answer | Passes | Steps | Variants | Straight / solve | solve, ms |\n"
               "|---|---|---|---|---|---|---|---|---|\n");
    for (size_t i = 0; !only_calls && i < sizeof families / sizeof *families; i++) {
        const Family *f = &families[i];
        if ((1 < argc && !strstr(f->name, argv[1])) || (others && !f->seed))
            continue;
        if (is_child(&status))
            exit(others ? survey(f) : measure(f));
        if (is_late(status))
            printf("| %s | | | | | | | no answer in %d s | |\n", f->name, PATIENCE);
        else if (status)
            differs = 1;
    }
    if (all || only_calls) {
        printf("%s| Call | Jobs | Rules | Latest times | Straight / library | library, ns | straight, ns |\n"
               "|---|---|---|---|---|---|---|\n",
               all ? "\n" : "");
        for (size_t i = 0; i < sizeof planned / sizeof *planned; i++) {
            if (is_child(&status))
                exit(everyday(&planned[i]));
            if (status)
                differs = 1;
        }
    }
    if (is_child(&status))
        exit(stacks());
    if (is_late(status))
        printf("\nStack: no answer in %d s\n", PATIENCE);
    printf(differs ? "Some answers differ.\n" : "All answers agree.\n");
    return differs;
}
