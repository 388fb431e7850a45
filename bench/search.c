/*
 * Times the searches in the SAT, each in two ways: bit by bit ("before") and by the library's own way ("after"). First both have to give the
 * same answers on many tables. With a number as its argument, it then ends with 1 unless every search on the nearly full volume is that
 * many times quicker.
 */
#define _POSIX_C_SOURCE 199309L
#include <stdint.h>
#include <stdio.h>
#include <stdlib.h>
#include <string.h>
#include <time.h>

/* The functions of crates/bench/src/timed.rt. A slice there is a pointer and a length here. */
size_t bench_plain_free_count(const uint8_t *sat, size_t bytes, size_t t);
size_t bench_free_count(const uint8_t *sat, size_t bytes, size_t t);
size_t bench_plain_next_free(const uint8_t *sat, size_t bytes, size_t t, size_t from);
size_t bench_next_free(const uint8_t *sat, size_t bytes, size_t t, size_t from);
size_t bench_plain_lowest_run(const uint8_t *sat, size_t bytes, size_t t, size_t n);
size_t bench_lowest_run(const uint8_t *sat, size_t bytes, size_t t, size_t n);
size_t bench_plain_lowest_free(const uint8_t *sat, size_t bytes, size_t t, size_t n, uint16_t *out, size_t room);
size_t bench_lowest_free(const uint8_t *sat, size_t bytes, size_t t, size_t n, uint16_t *out, size_t room);

enum { SAT_BYTES = 256, SECTORS = 2048, ROOM = 64 };

/* What a search is asked: of the first t sectors of a table; n is how many sectors are wanted, or from which one on. */
struct question {
    uint8_t sat[SAT_BYTES];
    size_t bytes, t, n;
    uint16_t out[ROOM];
    size_t room;
};
typedef size_t way(struct question *q);

static size_t plain_next(struct question *q) { return bench_plain_next_free(q->sat, q->bytes, q->t, q->n); }
static size_t own_next(struct question *q) { return bench_next_free(q->sat, q->bytes, q->t, q->n); }
static size_t plain_run(struct question *q) { return bench_plain_lowest_run(q->sat, q->bytes, q->t, q->n); }
static size_t own_run(struct question *q) { return bench_lowest_run(q->sat, q->bytes, q->t, q->n); }
static size_t plain_lowest(struct question *q) { return bench_plain_lowest_free(q->sat, q->bytes, q->t, q->n, q->out, q->room); }
static size_t own_lowest(struct question *q) { return bench_lowest_free(q->sat, q->bytes, q->t, q->n, q->out, q->room); }
static size_t plain_count(struct question *q) { return bench_plain_free_count(q->sat, q->bytes, q->t); }
static size_t own_count(struct question *q) { return bench_free_count(q->sat, q->bytes, q->t); }

/* NEXT is from n on; LOWEST counts the free sectors first, as a write does. */
enum { NEXT, RUN, LOWEST, COUNT, SEARCHES };
static const struct {
    const char *text;
    way *before, *after;
} search[SEARCHES] = {
    {"lowest free sector from %zu", plain_next, own_next},
    {"lowest run of %zu", plain_run, own_run},
    {"count, then %zu lowest free", plain_lowest, own_lowest},
    {"free sectors counted", plain_count, own_count},
};

/* ---- tables */

static void mark(uint8_t *sat, size_t s)
{
    sat[s / 8] |= (uint8_t)(0x80 >> s % 8);
}

static void release(uint8_t *sat, size_t s)
{
    sat[s / 8] &= (uint8_t)~(0x80 >> s % 8);
}

static int is_free(const uint8_t *sat, size_t s)
{
    return (sat[s / 8] & 0x80 >> s % 8) == 0;
}

/* Every other `width` sectors are marked, beginning with the first; `shift` moves that down. */
static void stripe(uint8_t *sat, size_t width, size_t shift)
{
    size_t s;
    memset(sat, 0, SAT_BYTES);
    for (s = 0; s < SECTORS; s++)
        if ((s + shift) / width % 2 == 0)
            mark(sat, s);
}

static size_t longest_run(const uint8_t *sat)
{
    size_t s, run = 0, longest = 0;
    for (s = 0; s < SECTORS; s++) {
        run = is_free(sat, s) ? run + 1 : 0;
        longest = run > longest ? run : longest;
    }
    return longest;
}

/* ---- do both ways answer alike? */

/* The same numbers in each run, so that a difference comes again. */
static size_t below(size_t limit)
{
    static uint64_t state = 0x9E3779B97F4A7C15u;
    state ^= state << 13;
    state ^= state >> 7;
    state ^= state << 17;
    return (size_t)(state >> 16) % limit;
}

enum { FULL, EMPTY, STRIPED, ANY, NEARLY_FULL, NEARLY_EMPTY, MAKES };
static const char *const make_text[MAKES] = {"full", "empty", "striped", "any bytes", "nearly full", "nearly empty"};

/* Some sectors in a row, anywhere: one, or up to 128. */
static void change(void (*each)(uint8_t *, size_t), uint8_t *sat)
{
    size_t s = below(SECTORS), left = 1 + below((size_t)1 << below(8));
    for (; left > 0 && s < SECTORS; left--)
        each(sat, s++);
}

static void make(uint8_t *sat, size_t how)
{
    size_t k, few = 1 + below(20);
    if (how == STRIPED)
        stripe(sat, 1 + below(300), below(600));
    else
        memset(sat, how == FULL || how == NEARLY_FULL ? 0xFF : 0, SAT_BYTES);
    if (how == ANY)
        for (k = 0; k < SAT_BYTES; k++)
            sat[k] = (uint8_t)below(256);
    if (how == NEARLY_FULL || how == NEARLY_EMPTY)
        for (k = 0; k < few; k++)
            change(how == NEARLY_FULL ? release : mark, sat);
}

/* Small numbers, any up to a little more than a volume has, those about the ends of words, and the highest there are. */
static size_t number(void)
{
    switch (below(4)) {
    case 0: return below(20);
    case 1: return below(SECTORS + 50);
    case 2: return 64 * below(SECTORS / 64 + 1) + below(3);
    default: return SIZE_MAX - below(3);
    }
}

static void differ(size_t table, size_t how, size_t which, const struct question *q, size_t before, size_t after)
{
    char name[40];
    snprintf(name, sizeof name, search[which].text, q->n);
    printf("bench: table %zu (%s), %zu bytes, %zu sectors, room %zu: %s: before %zu, after %zu, or what they stored differs\n", table,
           make_text[how], q->bytes, q->t, q->room, name, before, after);
    exit(1);
}

/* Nothing is timed unless this returns. */
static void compare(size_t tables)
{
    size_t table, which;
    for (table = 0; table < tables; table++) {
        struct question first, second;
        size_t how = below(MAKES);
        make(first.sat, how);
        first.bytes = below(50) ? SAT_BYTES : below(SAT_BYTES); /* at times what is no table: 0 is answered */
        first.t = below(4) ? below(SECTORS + 2) : SECTORS;
        for (which = 0; which < SEARCHES; which++) {
            size_t before, after;
            first.n = which == LOWEST ? below(ROOM + 2) : number();
            first.room = below(4) ? ROOM : below(ROOM);
            memset(first.out, 0xEE, sizeof first.out);
            memcpy(&second, &first, sizeof first);
            before = search[which].before(&first);
            after = search[which].after(&second);
            if (before != after || memcmp(&first, &second, sizeof first) != 0)
                differ(table, how, which, &first, before, after);
        }
    }
    printf("bench: both ways gave the same answers to %zu questions on %zu tables\n", tables * SEARCHES, tables);
}

/* ---- times */

enum { ROUNDS = 2000, BATCH_NS = 20000 };
static volatile size_t sink; /* so that no call can be left out */

static double nanoseconds(void)
{
    struct timespec t;
    clock_gettime(CLOCK_MONOTONIC, &t);
    return 1e9 * (double)t.tv_sec + (double)t.tv_nsec;
}

static double batch(way *ask, struct question *q, size_t calls)
{
    double began = nanoseconds();
    size_t k;
    for (k = 0; k < calls; k++)
        sink = ask(q);
    return nanoseconds() - began;
}

/* So many calls that the clock's own steps do not count. */
static size_t calls_for(way *ask, struct question *q)
{
    size_t calls = 1;
    while (batch(ask, q, calls) < BATCH_NS)
        calls *= 2;
    return calls;
}

/* One call's time both ways, the best of many rounds. The two take turns, so that both see the same machine. */
static void take(size_t which, struct question *q, double *before, double *after)
{
    size_t calls_before = calls_for(search[which].before, q), calls_after = calls_for(search[which].after, q);
    int round;
    *before = *after = 1e18;
    for (round = 0; round < ROUNDS; round++) {
        double b = batch(search[which].before, q, calls_before) / (double)calls_before;
        double a = batch(search[which].after, q, calls_after) / (double)calls_after;
        *before = b < *before ? b : *before;
        *after = a < *after ? a : *after;
    }
}

/* Prints a line of the table, and returns how many times quicker the search is. */
static double line(const char *volume, size_t which, size_t n, struct question *q)
{
    double before, after;
    char name[40], answer[24];
    size_t found;
    q->n = n;
    found = search[which].after(q);
    take(which, q, &before, &after);
    snprintf(name, sizeof name, search[which].text, n);
    if (which == RUN && found == SECTORS)
        snprintf(answer, sizeof answer, "none");
    else
        snprintf(answer, sizeof answer, "%zu", found);
    printf("%-21s  %-26s  %6s  %9.1f  %9.1f  %6.1f\n", volume, name, answer, before, after, before / after);
    fflush(stdout);
    return before / after;
}

/* Times every search on one volume; the last run is longer than any there is. Returns the ratio of the least gain. */
static double volume(const char *name, const uint8_t *sat)
{
    const struct {
        size_t which, n;
    } asked[] = {{NEXT, 0}, {RUN, 1}, {RUN, 4}, {RUN, 16}, {RUN, 100}, {RUN, longest_run(sat) + 1}, {LOWEST, 17}, {COUNT, 0}};
    struct question q = {.bytes = SAT_BYTES, .t = SECTORS, .room = ROOM};
    double least = 1e18;
    size_t k;
    memcpy(q.sat, sat, SAT_BYTES);
    for (k = 0; k < sizeof asked / sizeof asked[0]; k++) {
        double ratio = line(name, asked[k].which, asked[k].n, &q);
        least = ratio < least ? ratio : least;
    }
    return least;
}

/* Each volume has the first three sectors marked, and the last one: its own. */
static double owned(const char *name, uint8_t *sat)
{
    mark(sat, 0), mark(sat, 1), mark(sat, 2), mark(sat, SECTORS - 1);
    return volume(name, sat);
}

static double times(void)
{
    static const size_t width[] = {1, 4, 8, 64};
    uint8_t sat[SAT_BYTES];
    char name[40];
    double nearly_full;
    size_t k;
    printf("\n%-21s  %-26s  %6s  %9s  %9s  %6s\n", "volume, 2048 sectors", "search", "answer", "before ns", "after ns", "ratio");
    memset(sat, 0xFF, SAT_BYTES);
    for (k = SECTORS - 21; k < SECTORS - 1; k++)
        release(sat, k);
    nearly_full = owned("full but for the end", sat);
    for (k = 0; k < sizeof width / sizeof width[0]; k++) {
        stripe(sat, width[k], 0);
        snprintf(name, sizeof name, "stripes of %zu", width[k]);
        owned(name, sat);
    }
    memset(sat, 0, SAT_BYTES);
    owned("empty", sat);
    return nearly_full;
}

int main(int count, char **word)
{
    double wanted = count > 1 ? strtod(word[1], NULL) : 0, least;
    compare(50000);
    least = times();
    printf("\nbench: on the volume that is full but for the end every search is at least %.1f times quicker\n", least);
    if (least < wanted) {
        printf("bench: that is less than %g times\n", wanted);
        return 1;
    }
    return 0;
}
