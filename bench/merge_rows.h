/* The rows that merges are measured with, by the rule of `timed-merge` of pm_cases_codecs: keys from 1 on, in so
   many runs. Where they are spread each key stands in one run, which a hash of it tells, else each run has all keys.
   Rows are numbered from 1 on, run by run, and a row's text is `v` and its number. */
#ifndef MERGE_ROWS_H
#define MERGE_ROWS_H
#include <stdint.h>
#include <stdio.h>
#include <stdlib.h>
#include <string.h>
#include <sys/resource.h>
#include <time.h>

struct plan {
    uint64_t keys;
    uint64_t runs;
    int is_spread;
};

static struct plan read_plan(int count, char **words) {
    struct plan plan;
    if (count != 4 || (strcmp(words[3], "spread") && strcmp(words[3], "same"))) {
        fprintf(stderr, "usage: %s ROWS RUNS spread|same\n", words[0]);
        exit(2);
    }
    plan.runs = strtoull(words[2], NULL, 10);
    if (plan.runs == 0) exit(2);
    plan.is_spread = strcmp(words[3], "spread") == 0;
    plan.keys = strtoull(words[1], NULL, 10) / (plan.is_spread ? 1 : plan.runs);
    return plan;
}

/* Whether a run has a row of the key. */
static int has_key(struct plan plan, uint64_t run, uint64_t key) {
    return !plan.is_spread || (key * 0x9E3779B97F4A7C15u >> 32) % plan.runs == run;
}

/* The milliseconds of the clock, and those of this process's processors. */
static double clock_now(void) {
    struct timespec t;
    clock_gettime(CLOCK_MONOTONIC, &t);
    return (double)t.tv_sec * 1e3 + (double)t.tv_nsec / 1e6;
}

static double processor_now(void) {
    struct rusage use;
    getrusage(RUSAGE_SELF, &use);
    return (double)(use.ru_utime.tv_sec + use.ru_stime.tv_sec) * 1e3 +
           (double)(use.ru_utime.tv_usec + use.ru_stime.tv_usec) / 1e3;
}

static inline void *grown(void *room, size_t size) {
    room = realloc(room, size);
    if (!room) exit(3);
    return room;
}
#endif
