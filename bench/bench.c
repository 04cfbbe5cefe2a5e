/* Measures the library and the plain C implementation side by side, and compares their answers on the same inputs.
 *     bench times          for each N and call: nanoseconds of one call, best of several runs, both ways; `many` goes over so many
 *                          tables that no branch predictor knows them by heart, `few` over the same four again and again
 *     bench count N WHO    makes each call COUNTED times, for a program that counts instructions (WHO: library or plain)
 *     bench stack          bytes of stack that each call wrote, at N = 8
 *     bench answers        compares answers and bytes on all inputs, damaged ones too; prints how many */
#include <stddef.h>
#include <stdint.h>
#include <stdio.h>

#include "plain.h"
#include "stamps.h"

extern void *memcpy(void *restrict to, const void *restrict from, size_t length);
extern int memcmp(const void *a, const void *b, size_t length);
extern int strcmp(const char *a, const char *b);
extern int atoi(const char *text);
struct timespec {
    long seconds, nanoseconds;
};
extern int clock_gettime(int clock, struct timespec *to);

enum { MOST = STAMP_TABLE_SIZE(8), ROOM = 128 * MOST, COUNTED = 64, MONOTONIC = 1, RUNS = 10 };

/* ---- Both implementations under one shape */

enum call { CHECK, UPDATE, MEET, COMPARE, SUPERFLUOUS, CALLS };

static const char *const call_name[CALLS] = {"check", "update", "meet", "compare", "superfluous"};

struct outcome {
    uint8_t number, x, y;
};

static struct outcome library(enum call call, uint8_t *t, size_t length, size_t a, size_t b) {
    struct outcome o = {0, 0, 0};
    switch (call) {
    case CHECK: o.number = stamp_check(t, length); break;
    case UPDATE: o.number = stamp_update(t, length, a); break;
    case MEET: o.number = stamp_meet(t, length, a, b); break;
    case COMPARE: o.number = stamp_compare(t, length, a, b, &o.x); break;
    default: o.number = stamp_superfluous(t, length, &o.x, &o.y);
    }
    return o;
}

static struct outcome plain(enum call call, uint8_t *t, size_t length, size_t a, size_t b) {
    struct outcome o = {0, 0, 0};
    switch (call) {
    case CHECK: o.number = plain_check(t, length); break;
    case UPDATE: o.number = plain_update(t, length, a); break;
    case MEET: o.number = plain_meet(t, length, a, b); break;
    case COMPARE: o.number = plain_compare(t, length, a, b, &o.x); break;
    default: o.number = plain_superfluous(t, length, &o.x, &o.y);
    }
    return o;
}

typedef struct outcome way(enum call, uint8_t *, size_t, size_t, size_t);

/* ---- Inputs: tables from histories, the same in every run */

static uint8_t inputs[ROOM], tables[ROOM];
static uint64_t seed;

static size_t below(size_t bound) {
    seed = seed * 6364136223846793005u + 1442695040888963407u;
    return (size_t)(seed >> 33) % bound;
}

/* So many tables of n copies, made by this implementation. */
static void make_inputs(way *w, size_t n, size_t count) {
    seed = n;
    for (size_t i = 0; i < count; i++) {
        uint8_t *t = inputs + i * STAMP_TABLE_SIZE(n);
        stamp_make_fresh(t, STAMP_TABLE_SIZE(n), n);
        for (size_t turn = 0; turn < 20 * n; turn++) {
            size_t a = below(n), b = (a + 1 + below(n - 1)) % n;
            w(below(2) == 0 ? UPDATE : MEET, t, STAMP_TABLE_SIZE(n), a, b);
        }
    }
}

static void take_inputs(size_t n, size_t count) {
    memcpy(tables, inputs, count * STAMP_TABLE_SIZE(n));
}

/* One call on each table; the calls that write go on with what they left. */
static void round_of_calls(way *w, enum call call, size_t n, size_t count) {
    for (size_t i = 0; i < count; i++) {
        w(call, tables + i * STAMP_TABLE_SIZE(n), STAMP_TABLE_SIZE(n), i % n, (i + 1) % n);
    }
}

/* ---- Times */

static double now(void) {
    struct timespec t;
    clock_gettime(MONOTONIC, &t);
    return (double)t.seconds * 1e9 + (double)t.nanoseconds;
}

/* Nanoseconds of one call over so many rounds, from the same tables. */
static double timed(way *w, enum call call, size_t n, size_t count, size_t rounds) {
    take_inputs(n, count);
    double from = now();
    for (size_t i = 0; i < rounds; i++) {
        round_of_calls(w, call, n, count);
    }
    return (now() - from) / (double)(rounds * count);
}

static void times_over(const char *what, size_t n, size_t count, size_t rounds) {
    make_inputs(library, n, count);
    for (enum call call = CHECK; call < CALLS; call++) {
        double best[2] = {1e18, 1e18};
        for (int run = 0; run < RUNS; run++) {
            double one = timed(library, call, n, count, rounds), other = timed(plain, call, n, count, rounds);
            best[0] = one < best[0] ? one : best[0];
            best[1] = other < best[1] ? other : best[1];
        }
        printf("%s %d %s %.1f %.1f\n", what, (int)n, call_name[call], best[0], best[1]);
    }
}

static void times(void) {
    for (size_t n = 2; n <= 8; n *= 2) {
        size_t count = ROOM / STAMP_TABLE_SIZE(n);
        times_over("many", n, count, 2);
        times_over("few", n, 4, count / 4);
    }
}

/* ---- Counts */

static void count(size_t n, way *w) {
    make_inputs(w == library ? plain : library, n, COUNTED);
    for (enum call call = CHECK; call < CALLS; call++) {
        take_inputs(n, COUNTED);
        round_of_calls(w, call, n, COUNTED);
    }
}

/* ---- Stack */

enum { PAINTED = 8192 };

/* The bytes below this frame, first painted, then looked at from their far end. */
static __attribute__((noinline)) size_t painted(int paint) {
    volatile uint8_t room[PAINTED];
    size_t untouched = 0;
    if (paint) {
        for (size_t i = 0; i < PAINTED; i++) {
            room[i] = 0xA7;
        }
    }
    while (untouched < PAINTED && room[untouched] == 0xA7) {
        untouched++;
    }
    return PAINTED - untouched;
}

static void stack(void) {
    static uint8_t lengths[64], cells[512], record[STAMP_RECORD_SIZE(8)];
    size_t n = 8, x, y, length = STAMP_TABLE_SIZE(8), size = sizeof record;
    uint8_t a, b, *t = tables, *second = tables + size;
    make_inputs(plain, n, 1);
#define MEASURE(name, call)                             \
    take_inputs(n, 1);                                  \
    painted(1);                                         \
    call;                                               \
    printf("stack %s %d\n", name, (int)painted(0))
    MEASURE("stamp_make_fresh", stamp_make_fresh(t, length, n));
    MEASURE("stamp_check", stamp_check(t, length));
    MEASURE("stamp_update", stamp_update(t, length, 3));
    MEASURE("stamp_meet", stamp_meet(t, length, 3, 5));
    MEASURE("stamp_compare", stamp_compare(t, length, 3, 5, &a));
    MEASURE("stamp_lend", stamp_lend(t, length, 3, &x, &y));
    MEASURE("stamp_superfluous", stamp_superfluous(t, length, &a, &b));
    MEASURE("stamp_check_record", stamp_check_record(t, size));
    MEASURE("stamp_compare_records", stamp_compare_records(t, size, second, size, &a));
    MEASURE("stamp_meet_records", stamp_meet_records(t, size, second, size));
    MEASURE("stamp_read_rows", stamp_read_rows(t, size, &x, &y, lengths, cells));
    MEASURE("stamp_write_rows", stamp_write_rows(record, size, x, y, lengths, cells));
}

/* ---- Answers */

static long compared, different;

static void compare_ways(enum call call, const uint8_t *t, size_t length, size_t a, size_t b) {
    static uint8_t one[MOST], other[MOST];
    memcpy(one, t, length);
    memcpy(other, t, length);
    struct outcome x = library(call, one, length, a, b), y = plain(call, other, length, a, b);
    compared++;
    if (x.number != y.number || x.x != y.x || x.y != y.y || memcmp(one, other, length) != 0) {
        different++;
    }
}

static void all_calls(const uint8_t *t, size_t length, size_t n) {
    for (enum call call = CHECK; call < CALLS; call++) {
        for (size_t a = 0; a < (call == CHECK || call == SUPERFLUOUS ? 1 : n + 1); a++) {
            for (size_t b = 0; b < (call == MEET || call == COMPARE ? n + 1 : 1); b++) {
                compare_ways(call, t, length, a, b);
            }
        }
    }
}

static void answers(void) {
    static uint8_t damaged[MOST];
    for (size_t n = 2; n <= 8; n++) {
        size_t size = STAMP_TABLE_SIZE(n), count = 24;
        make_inputs(library, n, count);
        for (size_t i = 0; i < count; i++) {
            all_calls(inputs + i * size, size, n);
            for (int turn = 0; turn < 500; turn++) {
                memcpy(damaged, inputs + i * size, size);
                damaged[below(size)] = (uint8_t)below(below(2) ? 256 : n * n);
                compare_ways((enum call)(turn % CALLS), damaged, size - (turn % 50 == 0), below(n), below(n));
            }
        }
    }
    printf("answers %ld compared, %ld different\n", compared, different);
}

int main(int words, char **word) {
    if (words == 2 && strcmp(word[1], "times") == 0) {
        times();
    } else if (words == 2 && strcmp(word[1], "stack") == 0) {
        stack();
    } else if (words == 2 && strcmp(word[1], "answers") == 0) {
        answers();
        return different != 0;
    } else if (words == 4 && strcmp(word[1], "count") == 0) {
        count((size_t)atoi(word[2]), strcmp(word[3], "library") == 0 ? library : plain);
    } else {
        printf("usage: bench times | stack | answers | count N library|plain\n");
        return 2;
    }
    return 0;
}
