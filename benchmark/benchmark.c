/*
 * The benchmark's program.
 *   bench agree   compares the library and the plain C on the benchmark's inputs and on random ones
 *   bench count   runs each job once on each side, for callgrind: one line for each time `measured` is called
 *   bench time    runs the jobs many times, library and plain C in turn: shortest and middle time of each
 */
#define _POSIX_C_SOURCE 199309L
#include <stdio.h>
#include <stdlib.h>
#include <string.h>
#include <time.h>

#include "jobs.h"

static const char *const side_names[SIDES] = {"library", "plain", "plain256"};

/* Callgrind counts what happens in here, and nothing else (--toggle-collect=measured). */
__attribute__((noinline)) void measured(const struct job *job, enum side side)
{
    run_job(job, side);
    __asm__ volatile("" ::: "memory"); /* no tail call: the count ends at this function's end */
}

static void print_job(const struct job *job, enum side side)
{
    printf("%s %s %s %u %u %u", side_names[side], kind_name(job->kind), job->bus == PLAIN_I2C ? "i2c" : "rs485",
           (unsigned)job->frame, (unsigned)job->amount, (unsigned)job->page);
}

static void count(void)
{
    for (size_t i = 0; i < job_count; i++) {
        make_inputs(&job_list[i]);
        for (enum side side = LIBRARY; side < SIDES; side++) {
            set_up(&job_list[i], side);
            measured(&job_list[i], side);
            print_job(&job_list[i], side);
            printf("\n");
        }
    }
}

static int ascending(const void *a, const void *b)
{
    double x = *(const double *)a, y = *(const double *)b;
    return (x > y) - (x < y);
}

static double now(void)
{
    struct timespec t;
    clock_gettime(CLOCK_MONOTONIC, &t);
    return (double)t.tv_sec * 1e9 + (double)t.tv_nsec;
}

static void time_jobs(void)
{
    enum { TURNS = 41, TIMED = 2 }; /* LIBRARY and PLAIN */
    static double ns[TIMED][TURNS];
    for (size_t i = 0; i < job_count; i++) {
        const struct job *job = &job_list[i];
        make_inputs(job);
        for (int turn = -2; turn < TURNS; turn++) { /* two turns to warm up */
            for (int k = 0; k < TIMED; k++) {
                enum side side = (k + turn) & 1 ? PLAIN : LIBRARY; /* each goes first in half of the turns */
                set_up(job, side);
                double start = now();
                measured(job, side);
                double took = now() - start;
                if (turn >= 0)
                    ns[side][turn] = took;
            }
        }
        for (enum side side = LIBRARY; side < (enum side)TIMED; side++) {
            qsort(ns[side], TURNS, sizeof ns[side][0], ascending);
            print_job(job, side);
            printf(" %.0f %.0f\n", ns[side][0], ns[side][TURNS / 2]);
        }
    }
}

int main(int argc, char **argv)
{
    const char *mode = argc == 2 ? argv[1] : "";
    if (strcmp(mode, "agree") == 0)
        return agree() ? 0 : 1;
    if (strcmp(mode, "count") == 0)
        count();
    else if (strcmp(mode, "time") == 0)
        time_jobs();
    else {
        fprintf(stderr, "usage: bench agree | count | time\n");
        return 2;
    }
    return 0;
}
