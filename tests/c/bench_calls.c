/* The library's calls over those of the second implementation, in one run: CPU time, the best of several rounds, the two in turn, after a
 * round that does not count. How the time of ours grows with m, N and M, and the stack that each call takes.
 *
 *     bench_calls [stack]    stack: the stack alone; fails where it is more than badge.h says */
#define _XOPEN_SOURCE 700
#include "badge.h"
#include "calls.h"
#include "samples.h"

#include <pthread.h>
#include <stdio.h>
#include <stdlib.h>
#include <string.h>
#include <time.h>

enum job { MESSAGE_1, MESSAGE_3, MESSAGE_5, MESSAGE_7, JUDGE, REFUSED, PAIR, JOBS };

static const char *const names[JOBS] = {"message 1", "message 3", "message 5", "message 7", "judge, accepted", "judge, refused with 17", "pair"};

static struct sample sample;
static uint8_t damaged[MAX_RUN], out[MAX_RUN], hash[2][MAX_HASH_INPUT], secret[MAX_COLUMNS];
static uint32_t uv[MAX_ROWS + MAX_COLUMNS], answer[ANSWER_WORDS], entries[MAX_AT], work[MAX_WORK];
static const struct lent lists = {work, MAX_WORK, entries, MAX_AT};

static void prepare(const uint32_t record[6])
{
    uint64_t generator = 1;
    make_inputs(&sample, record, &generator);
    make_honest(&sample);
    memcpy(damaged, sample.run[0], sample.run_len[0]);
    damaged[56] ^= 1; /* h_Gamma: refused after everything was recomputed */
}

static int64_t run(const struct calls *c, enum job job, const struct lent *lent)
{
    struct sample *s = &sample;
    struct list in[INPUTS] = {{s->key, s->key_len}, {s->seeds, 16 * s->read.M}, {s->secret, s->read.m}, {s->E, s->read.tau},
                              {s->K, 16}, {s->L, 16}, {s->hidden[0], s->read.kept}};
    struct list one = {s->run[0], s->run_len[0]}, two = {s->run[1], s->run_len[1]}, bad = {damaged, s->run_len[0]};
    struct pair_outputs found = {{hash[0], MAX_HASH_INPUT}, {hash[1], MAX_HASH_INPUT}, {secret, MAX_COLUMNS},
                                 {uv, MAX_ROWS + MAX_COLUMNS}, {answer, ANSWER_WORDS}};
    switch (job) {
    case JUDGE: return c->judge(in[IN_KEY], one, lent);
    case REFUSED: return c->judge(in[IN_KEY], bad, lent);
    case PAIR: return c->pair(in[IN_KEY], one, two, &found, lent);
    default: return c->message(2 * (int)job + 1, in, (struct list){out, MAX_RUN}, 0, lent);
    }
}

static double seconds(void)
{
    struct timespec t;
    clock_gettime(CLOCK_PROCESS_CPUTIME_ID, &t);
    return (double)t.tv_sec + 1e-9 * (double)t.tv_nsec;
}

static double once(const struct calls *c, enum job job, int64_t *result)
{
    double start = seconds();
    *result = run(c, job, NULL);
    return seconds() - start;
}

/* Best times in seconds of a job: ours and theirs. */
static void best(enum job job, int rounds, double time[2])
{
    time[0] = time[1] = 1e9;
    for (int r = 0; r <= rounds; r++) {
        int64_t ours, theirs;
        double a = once(&badge_calls, job, &ours), b = once(&reference_calls, job, &theirs);
        if (ours != theirs) {
            printf("different answers: %s\n", names[job]);
            exit(1);
        }
        if (r > 0) {
            time[0] = a < time[0] ? a : time[0];
            time[1] = b < time[1] ? b : time[1];
        }
    }
}

static void compare_key(const char *name, const uint32_t record[6], int rounds)
{
    double time[JOBS][2];
    prepare(record);
    printf("%s key (%u, %u, %u, %u, %u, %u)%*s ours, ms      C, ms   ratio\n", name, record[0], record[1], record[2], record[3], record[4],
           record[5], record[0] > 65537 ? 1 : 7, "");
    for (int j = 0; j < JOBS; j++) {
        best((enum job)j, rounds, time[j]);
        printf("  %-44s %10.3f %10.3f   %5.2f\n", names[j], 1e3 * time[j][0], 1e3 * time[j][1], time[j][0] / time[j][1]);
    }
    printf("  our pair over two of our verdicts: %.2f\n\n", time[PAIR][0] / (2 * time[JUDGE][0]));
}

/* Time of ours for a middle key with one number doubled once and twice. */
static void growth(void)
{
    static const uint32_t base[6] = {2147483647, 8, 32, 8, 8, 4};
    static const int fields[3] = {2, 3, 4}; /* m, N, M */
    double time[JOBS][7];
    for (int column = 0; column < 7; column++) {
        uint32_t record[6];
        memcpy(record, base, sizeof base);
        if (column > 0)
            record[fields[(column - 1) / 2]] *= column % 2 ? 2 : 4;
        record[5] = record[4] / 2;
        prepare(record);
        for (int j = 0; j < JOBS; j++) {
            double both[2];
            best((enum job)j, 30, both);
            time[j][column] = both[0];
        }
    }
    printf("growth from m 32, N 8, M 8         ms     m x2    x4   N x2    x4   M x2    x4\n");
    for (int j = 0; j < JOBS; j++) {
        printf("  %-26s %8.3f  ", names[j], 1e3 * time[j][0]);
        for (int column = 1; column < 7; column++)
            printf(" %6.2f", time[j][column] / time[j][0]);
        printf("\n");
    }
    printf("\n");
}

/* The stack of a call: the bytes of a marked stack that a thread with this one call changed, less those of a thread without it. */

enum { STACK = 1 << 20, MARK = 0x5a };

static struct {
    enum job job;
    const struct lent *lent;
} task;

static void *run_task(void *unused)
{
    if (task.job < JOBS)
        run(&badge_calls, task.job, task.lent);
    return unused;
}

static size_t changed(enum job job, const struct lent *lent)
{
    void *at;
    pthread_attr_t attributes;
    pthread_t thread;
    size_t i = 0;
    if (posix_memalign(&at, 4096, STACK) != 0)
        exit(1);
    memset(at, MARK, STACK);
    pthread_attr_init(&attributes);
    pthread_attr_setstack(&attributes, at, STACK);
    task.job = job;
    task.lent = lent;
    if (pthread_create(&thread, &attributes, run_task, NULL) != 0)
        exit(1);
    pthread_join(thread, NULL);
    while (i < STACK && ((uint8_t *)at)[i] == MARK)
        i++;
    free(at);
    return STACK - i;
}

static int stacks(void)
{
    size_t none = changed(JOBS, NULL);
    int wrong = 0;
    printf("stack, bytes                   own lists   lent lists\n");
    for (int j = 0; j < JOBS; j++) {
        size_t own, lent;
        own = changed((enum job)j, NULL) - none;
        lent = changed((enum job)j, &lists) - none;
        printf("  %-26s %11zu  %11zu\n", names[j], own, lent);
        if (own > (j == PAIR ? BADGE_STACK_PAIR : BADGE_STACK) || lent > (j == PAIR ? BADGE_STACK_PAIR_LENT : BADGE_STACK_LENT)) {
            printf("  that is more than badge.h says\n");
            wrong = 1;
        }
    }
    return wrong;
}

int main(int argc, char **argv)
{
    static const uint32_t largest[6] = {2147483647, 32, 128, 32, 32, 16};
    static const uint32_t middle[6] = {65537, 16, 64, 8, 16, 8};
    if (argc < 2 || strcmp(argv[1], "stack") != 0) {
        compare_key("middle", middle, 40);
        compare_key("largest", largest, 15);
        growth();
    }
    prepare(largest);
    return stacks();
}
