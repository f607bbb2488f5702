/*
 * Marlinfray: the latest time for every job of a book of rules, or the word that no timetable exists.
 *
 * A rule (x, y, k -> z) says that job z stands no later than k minutes after the later of the jobs x and y. Times are whole minutes
 * counted from hand-over, which is minute zero; those before it are negative. A book has n jobs, numbered from 0, for each of them a
 * latest time past which no plan sets it, and a table of rules, numbered from 0 in the table's order. K is the sum of the table's
 * offsets without their signs, and the floor is the smallest latest time minus K.
 *
 * Link libmarlinfray.a, which `rt lib` in crates/marlinfray writes to its folder out/ for x86-64.
 *
 * What holds for every function:
 *
 *   Replies    Every call ends, and answers or refuses, whatever numbers and bytes it is given. All but marlinfray_class write their
 *              reply to *reply, all of it. A refusal leaves everything else that was lent as it was.
 *   Lending    What is lent is read and written during the call only: nothing is kept after it, and nothing needs to be given back.
 *              Only what is not const is written. A length counts elements, not bytes.
 *   Pointers   No pointer may be null, also where its length is 0. Each is aligned as C asks for its type, and points to as many
 *              elements as its length says. What is lent to be written, the reply included, overlaps nothing else that is lent to the
 *              same call; what is only read may overlap.
 *   Latest     Every call on a table, and the fresh board, reads the list of latest times: latest[j] is that of job j, a minute from
 *              -20,160 to 0, and 0 where the job has none of its own. A list that is not n long gets 21, its times unread.
 *   State      Nothing is allocated, there is no state between calls, and no file, clock or setting is looked at. Of the C library
 *              memcpy and memset are asked for, and nothing else. Every function is reentrant: threads and signal handlers
 *              may call at once, while none writes what another call has been lent.
 *   Stack      marlinfray_solve takes 121,608 bytes of stack, every other call fewer than 512.
 */
#ifndef MARLINFRAY_H
#define MARLINFRAY_H

#include <stddef.h>
#include <stdint.h>

#ifdef __cplusplus
extern "C" {
#endif

/* Limits of a book. */
enum {
    MARLINFRAY_MAX_JOBS = 256,
    MARLINFRAY_MAX_RULES = 1024,
    MARLINFRAY_MAX_OFFSET = 20160,  /* minutes, of either sign */
    MARLINFRAY_MAX_HOURS = 336,     /* of an HR record, which marlinfray_convert alone takes, of either sign */
    MARLINFRAY_MIN_LATEST = -20160, /* minutes; the largest latest time is 0 */
    MARLINFRAY_FILE_BYTES = 16384,  /* the reply to a longer file is the reply to its first 16,384 bytes */
    MARLINFRAY_PLAN_BYTES = 8       /* what a written plan takes for each job */
};

/* A rule: job z stands no later than k minutes after the later of the jobs x and y. The three jobs may coincide. */
typedef struct {
    uint16_t x, y, z;
    int32_t k;
} marlinfray_rule;

/* The tally of a board: the hand steps taken, and the minutes that they lowered jobs by in all. */
typedef struct {
    uint64_t steps, minutes;
} marlinfray_tally;

/* A slip tells what a step took off: the job that it lowered, the job's time before the step and its time after it. */
typedef struct {
    uint16_t job;
    int32_t before, after;
} marlinfray_slip;

/*
 * A reply. What the numbers behind the kind are is said at each function; where nothing is said they are 0. `before` and `after` are
 * those of a slip.
 */
typedef struct {
    uint64_t kind; /* one of the kinds below */
    uint64_t first, second;
    int32_t before, after;
} marlinfray_reply;

/* Kinds of reply. */
enum {
    MARLINFRAY_DONE = 0,      /* the answer */
    MARLINFRAY_PLAN = 0,      /* marlinfray_solve: there is a plan */
    MARLINFRAY_SATISFIED = 0, /* marlinfray_first_violated: every rule is kept */
    MARLINFRAY_NONE = 1,      /* marlinfray_solve: no timetable exists */
    MARLINFRAY_VIOLATED = 1,  /* marlinfray_first_violated: some rule is broken */
    MARLINFRAY_REFUSED = 2    /* `first` is the refusal's number, `second` its place */
};

/* Numbers of refusals. The number given is the first whose condition holds, in the order that each function names. */
enum {
    /* Of a file. The place is the byte where the record begins. Numbers 4 to 8 and 10 are said of a file as well. */
    MARLINFRAY_REFUSED_END = 1,    /* the file ends inside a record, or before the record BK */
    MARLINFRAY_REFUSED_MARK = 2,   /* a record's mark is none of BK, CE and RU; at marlinfray_convert, nor HR */
    MARLINFRAY_REFUSED_HEAD = 3,   /* the first record is not BK, or a later one is, or a CE stands behind a rule */
    MARLINFRAY_REFUSED_SECOND = 9, /* there is a second CE for one job */

    /* Of a table. The place is the rule's number, 0 with numbers 4 and 5, and the job's number with 8. */
    MARLINFRAY_REFUSED_JOBS = 4,        /* the job count is not from 1 to 256 */
    MARLINFRAY_REFUSED_RULES = 5,       /* there is a rule past the 1,024th */
    MARLINFRAY_REFUSED_JOB = 6,         /* a rule, or a CE, names a job that the book has not */
    MARLINFRAY_REFUSED_OFFSET = 7,      /* an offset is beyond 20,160 minutes of either sign; at marlinfray_convert, or 336 hours */
    MARLINFRAY_REFUSED_LATEST = 8,      /* a latest time is not from -20,160 to 0 */
    MARLINFRAY_REFUSED_IMPOSSIBLE = 10, /* a rule is impossible: it is of the class MARLINFRAY_CONTRADICTION */

    /* Of what is held. The place is 0. */
    MARLINFRAY_REFUSED_LENGTH = 21,    /* something lent has not the length that is asked for */
    MARLINFRAY_REFUSED_RANGE = 22,     /* a time of the board is not from the smallest latest time minus 2K to its job's latest */
    MARLINFRAY_REFUSED_TALLY = 23,     /* the tally does not fit the board */
    MARLINFRAY_REFUSED_NUMBER = 24,    /* no rule has that number */
    MARLINFRAY_REFUSED_FLOOR = 25,     /* some job stands below the floor: the board shows that no timetable exists */
    MARLINFRAY_REFUSED_SATISFIED = 26, /* the rule is kept, so that there is no step to take */
    MARLINFRAY_REFUSED_SLIP_JOB = 27,  /* the slip names a job that the book has not */
    MARLINFRAY_REFUSED_SLIP = 28,      /* the slip's times do not fit the board */
    MARLINFRAY_REFUSED_SHORT = 29      /* the tally has no step, or would not fit the board any more */
};

/* Classes of a rule. */
enum {
    MARLINFRAY_TAUTOLOGY = 0,     /* idle: k is 0 or more, and z is x or y */
    MARLINFRAY_CONTRADICTION = 1, /* impossible: k is negative, and x, y and z are one job */
    MARLINFRAY_DIFFERENCE = 2,    /* one-armed: k is negative and z is just one of x and y, or x is y and z is not */
    MARLINFRAY_DISJUNCTIVE = 3    /* two-armed: every other rule */
};

/*
 * Reads a book's file into the lent table and list. All numbers in it are little-endian:
 *
 *   "BK", the job count (16 bits)                                   4 bytes, the first record and only there
 *   "CE", a job (16 bits), its latest time (32 bits signed)         8 bytes, before the first rule, one for a job at most
 *   "RU", x, y, z (16 bits each), k (32 bits signed)                12 bytes, a rule
 *
 * A stored file with an HR is refused with 2: marlinfray_convert comes first.
 * Done: `first` is the job count and `second` the rule count. The table's first entries are the rules (the bytes between z and k
 * may be any), the list's first times are the latest times, 0 for a job without a CE, and what stands behind them is as it was.
 * Refused: 1 to 10, the first record at fault deciding; then 21, where the table has fewer entries than the file has rules, or the
 * list fewer times than the book has jobs.
 * A table of MARLINFRAY_MAX_RULES entries and a list of MARLINFRAY_MAX_JOBS times are always long enough.
 */
void marlinfray_read_book(const uint8_t *file, size_t file_len, marlinfray_rule *rules, size_t rules_len, int32_t *latest,
                          size_t latest_len, marlinfray_reply *reply);

/*
 * Finds a rule's record in a file.
 * Done, always: `first` is the byte where the record of that rule begins and `second` its length in bytes, mark included, which is 12.
 * Both are 0 where marlinfray_read_book would refuse the file for its bytes (1 to 10), or where it holds no rule of that number.
 */
void marlinfray_record(const uint8_t *file, size_t file_len, size_t number, marlinfray_reply *reply);

/*
 * Converts a stored file, which may have rules in hours, to one that has none. A stored file has the records that are said at
 * marlinfray_read_book, and for a rule also
 *
 *   "HR", x, y, z (16 bits each), hours (16 bits signed)            10 bytes, a rule whose k is 60 times the hours
 *
 * The records are written from the output's first byte on, in their order: each as it is, but for an HR the RU of its rule. So the
 * converted file has the job count, the latest times and the rules of the stored one, and a file without an HR is converted to itself.
 * A stored file may have impossible rules. marlinfray_read_book refuses the converted file for the first of them, with 10, and takes
 * every other converted file.
 * Done: `first` is the number of bytes written, and those behind them are as they were.
 * Refused: 1 to 9, the first record at fault deciding; then 21, where the output is shorter than the converted file.
 * An output of MARLINFRAY_FILE_BYTES is always long enough.
 */
void marlinfray_convert(const uint8_t *file, size_t file_len, uint8_t *out, size_t out_len, marlinfray_reply *reply);

/* The class of a rule, whatever its numbers: MARLINFRAY_TAUTOLOGY, _CONTRADICTION, _DIFFERENCE or _DISJUNCTIVE. */
uint8_t marlinfray_class(uint16_t x, uint16_t y, uint16_t z, int32_t k);

/*
 * The kept test, on any times. Job j stands at times[j].
 * Satisfied: every rule is kept. Violated: `first` is the number of the first broken rule.
 * Refused: 4, 5, then rule by rule 6, 7, 10; 8, where latest_len is n; then 21, where latest_len or times_len is not n.
 */
void marlinfray_first_violated(size_t n, const marlinfray_rule *rules, size_t rules_len, const int32_t *latest, size_t latest_len,
                               const int32_t *times, size_t times_len, marlinfray_reply *reply);

/*
 * The tight test of one rule, on any times.
 * Done: `first` is 1 where the later of x and y, plus k, is exactly the time of z, and 0 where it is not.
 * Refused: as the kept test; then 24.
 */
void marlinfray_is_tight(size_t n, const marlinfray_rule *rules, size_t rules_len, const int32_t *latest, size_t latest_len,
                         const int32_t *times, size_t times_len, size_t number, marlinfray_reply *reply);

/*
 * The fresh board: each of the n jobs at its latest time. The tally of a fresh board is 0, 0.
 * Done: the times are the latest times. Refused: 4; 8, where latest_len is n; then 21, where latest_len or times_len is not n.
 */
void marlinfray_initial(size_t n, const int32_t *latest, size_t latest_len, int32_t *times, size_t times_len,
                        marlinfray_reply *reply);

/*
 * The hand step: lowers the third job of a broken rule to the later of the first two, plus k.
 * Done: times[z] is lowered, the tally has one step more, and as many minutes more as the job was lowered by. The reply is the
 * slip: `first` is the job z, `before` its time before the step, and `after` its time now, which is below that.
 * Refused: 4, 5, then rule by rule 6, 7, 10; 8, where latest_len is n; 21, where latest_len or times_len is not n; 22; 23, where
 * the minutes are not the sum, over the jobs, of latest time minus time, or the steps are more than the minutes; 24; 25; 26.
 * From a fresh board with a tally of 0, 0 no calls on one book, in whatever order, bring about 22 or 23, while nobody else writes
 * either.
 */
void marlinfray_step(size_t n, const marlinfray_rule *rules, size_t rules_len, const int32_t *latest, size_t latest_len,
                     int32_t *times, size_t times_len, marlinfray_tally *tally, size_t number, marlinfray_reply *reply);

/*
 * Takes a step back: sets the job of a slip to the slip's time before. The slip may be any three numbers: what counts is that it fits
 * the board and the tally, not where it comes from. That of a step just taken does, and brings back both as they were before the step.
 * Done: times[slip->job] is slip->before, the tally has one step less, and as many minutes less as the job was raised by.
 * Refused: up to 23 as the hand step; then 27; 28, where times[slip->job] is not slip->after, or slip->before is not above that or is
 * past the job's latest time; 29, where the tally has no step, or with one step and those minutes less would have more steps than
 * minutes. 24 to 26 do not concern it: a board may be stepped back from though it shows that no timetable exists.
 * What is said of 22 and 23 at the hand step holds with steps back among the calls too, whatever their slips. The tally then has the
 * steps taken less those taken back, and a board on which every rule is kept is the plan.
 */
void marlinfray_step_back(size_t n, const marlinfray_rule *rules, size_t rules_len, const int32_t *latest, size_t latest_len,
                          int32_t *times, size_t times_len, marlinfray_tally *tally, const marlinfray_slip *slip,
                          marlinfray_reply *reply);

/*
 * The bench run: from a fresh board, passes over the rules from 0 upward with a step on each broken one, until a pass without a step
 * or until a job falls below the floor. What the times were before does not matter.
 * Plan: `first` is the number of steps, and the times are the plan: every rule is kept, no time is past its job's latest, and each
 * job is as late as any such times have it. None: no times of any sign keep every rule; `first` is the number of steps, and the times
 * are as the last step left them. The rest is that step's slip: `second` is the job that fell, `before` its time before the step, not
 * below the floor, and `after` its time now, below the floor.
 * Refused: 4, 5, then rule by rule 6, 7, 10; 8, where latest_len is n; then 21, where latest_len or times_len is not n.
 */
void marlinfray_solve(size_t n, const marlinfray_rule *rules, size_t rules_len, const int32_t *latest, size_t latest_len,
                      int32_t *times, size_t times_len, marlinfray_reply *reply);

/*
 * Writes times from byte `at` of the output on, for each job in order "PL", the job (16 bits) and its time (32 bits signed),
 * little-endian: MARLINFRAY_PLAN_BYTES bytes a job. The times may be any.
 * Done: those bytes are written, and those before and behind them are as they were.
 * Refused: 4, where times_len is not from 1 to 256; then 21, where fewer bytes than that stand from `at` on, or none do.
 */
void marlinfray_write_plan(const int32_t *times, size_t times_len, uint8_t *out, size_t out_len, size_t at, marlinfray_reply *reply);

#ifdef __cplusplus
}
#endif

#endif
