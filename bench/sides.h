/*
 * What the benches in C share: sides that run over the same inputs. A bench prints a line for each set of inputs, with the set's name, the
 * bytes of its first input, how many inputs it has, and a number for each side:
 *
 *     BENCH           nanoseconds of a call: the best round over all inputs, the sides in turn
 *     BENCH count     0 for each side; each runs once over all inputs in a call of counted_round, whose instructions callgrind counts
 */
#ifndef SIDES_H
#define SIDES_H

#include <stdbool.h>
#include <stdint.h>
#include <stdio.h>
#include <string.h>
#include <time.h>

/* How long the rounds of a set go on, in nanoseconds, how many there are at least, and at most. */
#define ROUNDS_TIME 4e8
enum { LEAST_ROUNDS = 10, MOST_ROUNDS = 1000, MOST_SIDES = 3 };

/* One side of a bench: what it makes of an input of the set that was prepared last. */
struct side {
    const char *name;
    int64_t (*run)(size_t input);
};

struct bench {
    const struct side *sides;
    size_t side_count;
    size_t set_count;
    const char *(*set_name)(size_t set);
    /* Makes the inputs of a set and says how many there are; none if the sides do not agree on them. */
    size_t (*prepare)(size_t set);
    /* How long the first input is, in bytes. */
    size_t (*bytes)(void);
};

/* Numbers that look random and are the same in every run. */
static inline int below(int end)
{
    static uint64_t state = 1;
    state = state * UINT64_C(6364136223846793005) + UINT64_C(1442695040888963407);
    return (int)(state >> 33) % end;
}

/* Runs a side over all inputs. The sum keeps a compiler from leaving calls out. */
static inline int64_t run_side(const struct side *side, size_t inputs)
{
    uint64_t sum = 0;
    for (size_t i = 0; i < inputs; i++)
        sum += (uint64_t)side->run(i);
    return (int64_t)sum;
}

/* Not static, and not to be inlined, for callgrind to find it by its name. */
__attribute__((noinline)) int64_t counted_round(const struct side *side, size_t inputs);

int64_t counted_round(const struct side *side, size_t inputs)
{
    return run_side(side, inputs);
}

/* The time of a round, in nanoseconds. */
static inline double round_time(const struct side *side, size_t inputs)
{
    static volatile int64_t kept;
    struct timespec start, end;
    clock_gettime(CLOCK_MONOTONIC, &start);
    kept = run_side(side, inputs);
    clock_gettime(CLOCK_MONOTONIC, &end);
    (void)kept;
    return (double)(end.tv_sec - start.tv_sec) * 1e9 + (double)(end.tv_nsec - start.tv_nsec);
}

/* A round of each side, kept where it is the best so far. The time that all took. */
static inline double try_sides(const struct bench *bench, size_t inputs, double *best)
{
    double all = 0;
    for (size_t i = 0; i < bench->side_count; i++) {
        double time = round_time(&bench->sides[i], inputs);
        best[i] = time < best[i] ? time : best[i];
        all += time;
    }
    return all;
}

static inline void time_sides(const struct bench *bench, size_t inputs, double *best)
{
    double all = 0;
    for (size_t i = 0; i < MOST_SIDES; i++)
        best[i] = 1e18;
    for (int i = 0; i < MOST_ROUNDS && (i < LEAST_ROUNDS || all < ROUNDS_TIME); i++)
        all += try_sides(bench, inputs, best);
}

/* A round of each side that is not counted, so that what is done only once is done, and one that is. */
static inline void count_sides(const struct bench *bench, size_t inputs)
{
    for (size_t i = 0; i < bench->side_count; i++) {
        round_time(&bench->sides[i], inputs);
        counted_round(&bench->sides[i], inputs);
    }
}

static inline bool bench_set(const struct bench *bench, size_t set, bool count)
{
    double best[MOST_SIDES] = {0};
    size_t inputs = bench->prepare(set);
    if (inputs == 0) {
        printf("%s: the sides do not agree\n", bench->set_name(set));
        return false;
    }
    if (count)
        count_sides(bench, inputs);
    else
        time_sides(bench, inputs, best);
    printf("%-12s%8zu%8zu", bench->set_name(set), bench->bytes(), inputs);
    for (size_t i = 0; i < bench->side_count; i++)
        printf("%14.1f", best[i] / (double)inputs);
    putchar('\n');
    return true;
}

static inline int bench_main(const struct bench *bench, int argc, char **argv)
{
    bool count = argc == 2 && strcmp(argv[1], "count") == 0;
    if (argc != 1 && !count) {
        fprintf(stderr, "usage: %s [count]\n", argv[0]);
        return 2;
    }
    printf("%-12s%8s%8s", "set", "bytes", "inputs");
    for (size_t i = 0; i < bench->side_count; i++)
        printf("%14s", bench->sides[i].name);
    putchar('\n');
    for (size_t set = 0; set < bench->set_count; set++)
        if (!bench_set(bench, set, count))
            return 1;
    return 0;
}

#endif
