// Makes the calls of the library that embed/cases.py writes, one on a line of standard input, and compares every reply and every lent
// buffer with what the line expects. Prints the counts; ends with status 1 where anything differs or a refusal never occurs.
//
// A line has the call, the five numbers of the reply and the arguments in the order of the call, with one blank between them. Numbers
// are hexadecimal, those below zero as 64 bits in two's complement. A buffer is `:`, its bytes as hexadecimal digits and, where the call
// changes it, `/` and its bytes afterwards, of which `..` may be any. Its length is not written. With `!` for the `:` the call is not to
// read it, and it is lent where nobody may. The reply itself is lent too, and is no argument here.
#define _DEFAULT_SOURCE
#include <inttypes.h>
#include <signal.h>
#include <stdio.h>
#include <stdlib.h>
#include <string.h>
#include <sys/mman.h>
#include <unistd.h>

#include "marlinfray.h"

_Static_assert(sizeof(marlinfray_rule) == 12, "a rule has 12 bytes");
_Static_assert(offsetof(marlinfray_rule, x) == 0 && offsetof(marlinfray_rule, y) == 2 && offsetof(marlinfray_rule, z) == 4 &&
                   offsetof(marlinfray_rule, k) == 8,
               "a rule's fields stand at 0, 2, 4 and 8");
_Static_assert(sizeof(marlinfray_tally) == 16, "a tally has 16 bytes");
_Static_assert(offsetof(marlinfray_tally, steps) == 0 && offsetof(marlinfray_tally, minutes) == 8, "a tally's fields stand at 0 and 8");
_Static_assert(sizeof(marlinfray_slip) == 12, "a slip has 12 bytes");
_Static_assert(offsetof(marlinfray_slip, job) == 0 && offsetof(marlinfray_slip, before) == 4 && offsetof(marlinfray_slip, after) == 8,
               "a slip's fields stand at 0, 4 and 8");
_Static_assert(sizeof(marlinfray_reply) == 32, "a reply has 32 bytes");
_Static_assert(offsetof(marlinfray_reply, kind) == 0 && offsetof(marlinfray_reply, first) == 8 &&
                   offsetof(marlinfray_reply, second) == 16 && offsetof(marlinfray_reply, before) == 24 &&
                   offsetof(marlinfray_reply, after) == 28,
               "a reply's fields stand at 0, 8, 16, 24 and 28");

// Each buffer is lent at the start, in the middle and at the end of a room of its own. A line has the arguments behind six other words.
enum { ARGUMENTS = 6, FIRST_ARGUMENT = 6, ROOM = 1 << 15, LONGEST = ROOM - 16, SHOWN = 10 };
enum { START, MIDDLE, END, SPOTS };
static const char *const spots[] = {"start", "middle", "end"};

typedef struct {
    uint8_t *room; // ROOM bytes that stand between two pages that nobody may touch
    uint8_t before[LONGEST], after[LONGEST], may_be_any[LONGEST];
    size_t bytes;
    int is_unread; // lent on the page behind the room, without bytes
    uint8_t *lent; // where it is lent
} Buffer;

typedef struct {
    uint64_t number; // of a number, its value
    size_t length;   // of a buffer, its elements
    Buffer buffer;
} Argument;

static Argument args[ARGUMENTS];
static Buffer reply;
static uint8_t guards[ROOM]; // what stands in a room outside the buffer

// The calls. `types` has a letter for each argument: n a number, b bytes, r rules, t times or latest times, a a tally, s a slip.
static const struct {
    const char *name, *types;
} calls[] = {
    {"read_book", "brt"},  {"record", "bn"},   {"convert", "bb"},  {"class", "nnnn"},       {"first_violated", "nrtt"},
    {"is_tight", "nrttn"}, {"initial", "ntt"}, {"step", "nrttan"}, {"step_back", "nrttas"}, {"solve", "nrtt"},
    {"write_plan", "tbn"},
};
enum { READ_BOOK, RECORD, CONVERT, CLASS, FIRST_VIOLATED, IS_TIGHT, INITIAL, STEP, STEP_BACK, SOLVE, WRITE_PLAN, CALLS };

static size_t size_of(char type) {
    switch (type) {
    case 'b': return 1;
    case 'r': return sizeof(marlinfray_rule);
    case 't': return sizeof(int32_t);
    case 's': return sizeof(marlinfray_slip);
    default: return sizeof(marlinfray_tally);
    }
}

static size_t align_of(char type) {
    return type == 'b' ? 1 : type == 'a' ? 8 : 4;
}

// The numbers of refusals are below NUMBERS; of those from 11 to 20 there are none.
enum { NUMBERS = 30 };

static unsigned long line_number, made[CALLS], refused[NUMBERS];
static const char *call_name = "";

static void wrong_line(const char *why) {
    fprintf(stderr, "line %lu, %s: %s\n", line_number, call_name, why);
    exit(2);
}

static void make_room(Buffer *b) {
    size_t page = sysconf(_SC_PAGESIZE);
    uint8_t *all = mmap(0, ROOM + 2 * page, PROT_NONE, MAP_PRIVATE | MAP_ANONYMOUS, -1, 0);
    if (all == MAP_FAILED || mprotect(all + page, ROOM, PROT_READ | PROT_WRITE))
        wrong_line("no memory");
    b->room = all + page;
}

static int digit(char c) {
    return '0' <= c && c <= '9' ? c - '0' : 'a' <= c && c <= 'f' ? c - 'a' + 10 : -1;
}

// Bytes from hexadecimal digits up to the next character that is none; answers where that stands.
static const char *bytes(const char *text, uint8_t *out, uint8_t *may_be_any, size_t *count) {
    for (*count = 0; digit(*text) >= 0 || *text == '.'; text += 2, ++*count) {
        if (*count == LONGEST)
            wrong_line("a buffer is too long");
        may_be_any[*count] = *text == '.';
        out[*count] = *text == '.' ? 0 : digit(text[0]) << 4 | digit(text[1]);
    }
    return text;
}

static void read_argument(char type, const char *text, Argument *a) {
    if (type == 'n') {
        a->number = strtoull(text, 0, 16);
        return;
    }
    Buffer *b = &a->buffer;
    size_t after = 0;
    if (*text != ':' && *text != '!')
        wrong_line("an argument is no buffer");
    b->is_unread = *text++ == '!';
    text = bytes(text, b->before, b->may_be_any, &b->bytes);
    if (*text == '/')
        text = bytes(text + 1, b->after, b->may_be_any, &after);
    else
        memcpy(b->after, b->before, after = b->bytes);
    if (*text || after != b->bytes || b->bytes % size_of(type))
        wrong_line("a buffer is not as its argument asks");
    a->length = b->bytes / size_of(type);
    if (b->is_unread)
        b->bytes = 0;
}

// Lends a buffer: its bytes at that spot of the room, in the middle aligned as its type asks and no more, and guard bytes all around.
static void lend(Buffer *b, int spot, size_t align) {
    size_t at = spot == END || b->is_unread ? ROOM - b->bytes : spot == START ? 0 : (ROOM - b->bytes) / 2 / 16 * 16 + align;
    memcpy(b->room, guards, ROOM);
    b->lent = b->room + at;
    memcpy(b->lent, b->before, b->bytes);
}

// 1 where the buffer is as expected after the call, and so are the guard bytes.
static int is_as_expected(const Buffer *b) {
    const uint8_t *end = b->lent + b->bytes;
    for (size_t i = 0; i < b->bytes; i++)
        if (b->lent[i] != b->after[i] && !b->may_be_any[i])
            return 0;
    return !memcmp(b->room, guards, b->lent - b->room) && !memcmp(end, guards + (end - b->room), b->room + ROOM - end);
}

static void call(int c) {
    const Argument *a = args;
    void *lent[ARGUMENTS];
    for (int i = 0; i < ARGUMENTS; i++)
        lent[i] = a[i].buffer.lent;
    marlinfray_reply *r = (marlinfray_reply *)reply.lent;
    switch (c) {
    case READ_BOOK: marlinfray_read_book(lent[0], a[0].length, lent[1], a[1].length, lent[2], a[2].length, r); break;
    case RECORD: marlinfray_record(lent[0], a[0].length, a[1].number, r); break;
    case CONVERT: marlinfray_convert(lent[0], a[0].length, lent[1], a[1].length, r); break;
    case CLASS: *r = (marlinfray_reply){.kind = marlinfray_class(a[0].number, a[1].number, a[2].number, a[3].number)}; break;
    case FIRST_VIOLATED:
        marlinfray_first_violated(a[0].number, lent[1], a[1].length, lent[2], a[2].length, lent[3], a[3].length, r);
        break;
    case IS_TIGHT:
        marlinfray_is_tight(a[0].number, lent[1], a[1].length, lent[2], a[2].length, lent[3], a[3].length, a[4].number, r);
        break;
    case INITIAL: marlinfray_initial(a[0].number, lent[1], a[1].length, lent[2], a[2].length, r); break;
    case STEP:
        marlinfray_step(a[0].number, lent[1], a[1].length, lent[2], a[2].length, lent[3], a[3].length, lent[4], a[5].number, r);
        break;
    case STEP_BACK:
        marlinfray_step_back(a[0].number, lent[1], a[1].length, lent[2], a[2].length, lent[3], a[3].length, lent[4], lent[5], r);
        break;
    case SOLVE: marlinfray_solve(a[0].number, lent[1], a[1].length, lent[2], a[2].length, lent[3], a[3].length, r); break;
    case WRITE_PLAN: marlinfray_write_plan(lent[0], a[0].length, lent[1], a[1].length, a[2].number, r); break;
    }
}

static void print_reply(const char *what, const marlinfray_reply *r) {
    fprintf(stderr, "%s %" PRIu64 " %" PRIu64 " %" PRIu64 " %" PRId32 " %" PRId32, what, r->kind, r->first, r->second,
            r->before, r->after);
}

// One line: the call with its buffers at each spot. 1 where anything differs.
static int check(char *line) {
    int c = 0, count = 0;
    char *words[FIRST_ARGUMENT + ARGUMENTS];
    for (char *w = strtok(line, " \n"); w; w = strtok(0, " \n")) {
        if (count == FIRST_ARGUMENT + ARGUMENTS)
            wrong_line("too many arguments");
        words[count++] = w;
    }
    if (!count)
        wrong_line("no call");
    call_name = words[0];
    while (c < CALLS && strcmp(calls[c].name, words[0]))
        c++;
    if (c == CALLS || (size_t)count != FIRST_ARGUMENT + strlen(calls[c].types))
        wrong_line("no such call, or not its arguments");
    const char *types = calls[c].types;
    for (int i = 0; types[i]; i++)
        read_argument(types[i], words[FIRST_ARGUMENT + i], &args[i]);
    uint64_t w[FIRST_ARGUMENT];
    for (int i = 1; i < FIRST_ARGUMENT; i++)
        w[i] = strtoull(words[i], 0, 16);
    marlinfray_reply expected = {w[1], w[2], w[3], w[4], w[5]};
    memset(reply.before, 0x5a, reply.bytes = sizeof expected);
    memcpy(reply.after, &expected, sizeof expected);

    for (int spot = 0; spot < SPOTS; spot++) {
        for (int i = 0; types[i]; i++)
            if (types[i] != 'n')
                lend(&args[i].buffer, spot, align_of(types[i]));
        lend(&reply, spot, 8);
        call(c);
        int differs = !is_as_expected(&reply);
        if (differs) {
            fprintf(stderr, "line %lu, %s, at the %s: ", line_number, words[0], spots[spot]);
            print_reply("the reply is", (const marlinfray_reply *)reply.lent);
            print_reply(" and not", &expected);
            fprintf(stderr, "\n");
        }
        for (int i = 0; types[i]; i++)
            if (types[i] != 'n' && !is_as_expected(&args[i].buffer)) {
                fprintf(stderr, "line %lu, %s, at the %s: argument %d is not as expected afterwards\n", line_number, words[0],
                        spots[spot], i);
                differs = 1;
            }
        if (differs)
            return 1;
    }
    made[c]++;
    if (c != CLASS && expected.kind == MARLINFRAY_REFUSED && expected.first < NUMBERS)
        refused[expected.first]++;
    return 0;
}

// A call that touches a page outside the rooms, which is also where what it is not to read is lent, ends here.
static void outside(int unused) {
    (void)unused;
    fprintf(stderr, "line %lu, %s: reads or writes outside what it is lent, or what it is not to read\n", line_number, call_name);
    _exit(1);
}

int main(void) {
    char *line = 0;
    size_t room = 0;
    int differing = 0;
    unsigned long total = 0;
    for (int i = 0; i < ARGUMENTS; i++)
        make_room(&args[i].buffer);
    make_room(&reply);
    for (size_t i = 0; i < ROOM; i++)
        guards[i] = 13 + 167 * i;
    signal(SIGSEGV, outside);
    while (differing < SHOWN && 0 < getline(&line, &room, stdin)) {
        line_number++;
        differing += check(line);
    }
    if (differing)
        return 1;
    for (int c = 0; c < CALLS; c++)
        total += made[c];
    printf("%lu cases", total);
    for (int c = 0; c < CALLS; c++)
        printf("%s %s %lu", c ? "," : ":", calls[c].name, made[c]);
    printf("; refusals");
    int missing = 0;
    for (int i = 1; i < NUMBERS; i++) {
        if (10 < i && i < 21)
            continue;
        printf("%s %d: %lu", i > 1 ? "," : "", i, refused[i]);
        missing |= !refused[i];
    }
    if (missing)
        fprintf(stderr, "some refusal never occurs\n");
    return missing;
}
