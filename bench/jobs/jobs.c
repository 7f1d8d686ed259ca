/*
 * jobs WORKLOAD SEED ROUNDS
 *
 * Does the jobs that users of wsn wait for, by libwsn, on sessions that it makes from a seed, and prints a digest of all
 * that they print. Each round does a job, or a few, on recordings that no other round reads. bench/workloads.txt has the
 * workloads that are timed; `all` runs each of them.
 */
#include "jobs.h"

#include <inttypes.h>
#include <stdio.h>
#include <stdlib.h>
#include <string.h>

static const struct {
    const char *name;
    workload *work;
} workloads[] = {
    {"show", show},     {"same", same},   {"fragments", fragments},
    {"frames", frames}, {"recut", recut}, {"awkward", awkward},
};

/* The number that a word names. */
static uint64_t number_of(const char *word, uint64_t most)
{
    char *end;
    unsigned long long number = strtoull(word, &end, 10);
    if (end == word || *end != '\0' || number > most)
        fail("SEED and ROUNDS are numbers");
    return number;
}

int main(int count, char **words)
{
    struct printed printed = {new_room(), {0}, 0, 0, 0};
    size_t at, found = 0;
    if (count != 4)
        fail("it takes WORKLOAD SEED ROUNDS");
    uint64_t seed = number_of(words[2], UINT64_MAX);
    size_t rounds = (size_t)number_of(words[3], 1000000);
    for (at = 0; at < sizeof workloads / sizeof workloads[0]; at++)
        if (strcmp(words[1], "all") == 0 || strcmp(words[1], workloads[at].name) == 0) {
            workloads[at].work(seed, rounds, &printed);
            found++;
        }
    if (found == 0)
        fail("no such workload");
    printf("%" PRIu64 " texts, %" PRIu64 " bytes, %016" PRIx64 "\n", printed.texts, printed.bytes, printed.sum);
    free(printed.output.at);
    return 0;
}
