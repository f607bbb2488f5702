// Reads a book's file on standard input, and prints what `latest` prints: the plan, or NONE, or REFUSED.
#include <inttypes.h>
#include <stdio.h>
#include <stdlib.h>

#include "marlinfray.h"

int main(void) {
    static uint8_t file[MARLINFRAY_FILE_BYTES];
    static marlinfray_rule rules[MARLINFRAY_MAX_RULES];
    static int32_t latest[MARLINFRAY_MAX_JOBS], times[MARLINFRAY_MAX_JOBS];
    marlinfray_reply book, run, tight;

    size_t bytes = fread(file, 1, sizeof file, stdin);
    marlinfray_read_book(file, bytes, rules, MARLINFRAY_MAX_RULES, latest, MARLINFRAY_MAX_JOBS, &book);
    if (book.kind == MARLINFRAY_REFUSED) {
        printf("REFUSED %" PRIu64 " %" PRIu64 "\n", book.first, book.second);
        return 0;
    }

    size_t jobs = book.first, count = book.second;
    long total = 0;
    for (size_t i = 0; i < count; i++)
        total += labs(rules[i].k);
    printf("BOOK %zu %zu %ld\n", jobs, count, total);

    marlinfray_solve(jobs, rules, count, latest, jobs, times, jobs, &run);
    if (run.kind == MARLINFRAY_NONE) {
        printf("NONE %" PRIu64 " %" PRId32 " %" PRId32 "\n", run.second, run.before, run.after);
    } else {
        for (size_t j = 0; j < jobs; j++)
            printf("JOB %zu %" PRId32 "\n", j, times[j]);
        printf("TIGHT");
        for (size_t i = 0; i < count; i++) {
            marlinfray_is_tight(jobs, rules, count, latest, jobs, times, jobs, i, &tight);
            if (tight.first)
                printf(" %zu", i);
        }
        printf("\n");
    }
    printf("STEPS %" PRIu64 "\n", run.first);
    return 0;
}
