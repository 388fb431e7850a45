/*
 * Times compaction: a scattered volume closed up in one call, by the library's functions for C. The worst case is timed: as many data sectors as
 * a volume has room to move, in files of up to 62 segments of one sector each. Beside it stands check alone, since every call judges the volume
 * first. Nothing is timed unless every record reads the same before and after, and every sector that has to be moved was moved.
 */
#define _POSIX_C_SOURCE 199309L
#include <string.h>
#include "calls.h"

enum { SECTOR = TWYNARVEL_SECTOR_BYTES, MOST_SECTORS = 2048, MOST_FILES = 64, MOST_SEGMENTS = 62, USER = 5 };
enum { VARIABLE = 0, RECORD = SECTOR }; /* records that fill a sector each: 254 bytes after their count word, or 256 */

/* A volume, its desk, and what was made of it. */
static uint8_t image[SECTOR * MOST_SECTORS], kept[SECTOR * MOST_SECTORS], desk[TWYNARVEL_DESK_BYTES], report[TWYNARVEL_REPORT_BYTES];
static size_t bytes;

/* ---- volumes, by the library's calls */

/* The file of a number: F00, F01 and so on; LOW is a name of its own. */
static const uint8_t *name_of(unsigned file)
{
    static uint8_t name[TWYNARVEL_DESCRIPTOR_BYTES + 1];
    char text[TWYNARVEL_DESCRIPTOR_BYTES - 1];
    snprintf(text, sizeof text, file < MOST_FILES ? "        F%02u     DA" : "        LOW     DA", file);
    name[0] = 0;
    name[1] = USER;
    memcpy(name + 2, text, TWYNARVEL_DESCRIPTOR_BYTES - 2);
    return name;
}

static void allocate(unsigned file, uint32_t kind, uint32_t size, uint32_t record)
{
    done("allocate", twynarvel_allocate(image, bytes, desk, sizeof desk, USER, name_of(file), TWYNARVEL_DESCRIPTOR_BYTES, kind, size, record, 0));
}

/* A file on LUN 0. */
static void assign(unsigned file, uint32_t at_end)
{
    done("assign", twynarvel_assign(image, bytes, desk, sizeof desk, USER, 0, name_of(file), TWYNARVEL_DESCRIPTOR_BYTES, TWYNARVEL_PRPW, at_end,
                                    0));
}

static void release(void)
{
    done("close", twynarvel_close(image, bytes, desk, sizeof desk, USER, 0));
}

static void transfer(unsigned function, unsigned options, unsigned record, uint8_t *data, size_t length)
{
    uint8_t block[TWYNARVEL_BLOCK_BYTES] = {0};
    block[TWYNARVEL_BLOCK_FUNCTION] = (uint8_t)function;
    block[TWYNARVEL_BLOCK_OPTIONS] = (uint8_t)((options | TWYNARVEL_IMAGE) / 256);
    block[TWYNARVEL_BLOCK_OPTIONS + 1] = (uint8_t)(options | TWYNARVEL_IMAGE);
    block[TWYNARVEL_BLOCK_RECORD + 2] = (uint8_t)(record / 256);
    block[TWYNARVEL_BLOCK_RECORD + 3] = (uint8_t)record;
    block[TWYNARVEL_BLOCK_END + 2] = (uint8_t)((length - 1) / 256);
    block[TWYNARVEL_BLOCK_END + 3] = (uint8_t)(length - 1);
    done(function == TWYNARVEL_READ ? "read" : "write", twynarvel_iocb(block, sizeof block, image, bytes, desk, sizeof desk, data, length, NULL, 0, USER));
}

/* Record i of a file: bytes that no other record has. */
static size_t record_of(unsigned file, unsigned i, uint32_t length, uint8_t *data)
{
    size_t k, n = length == VARIABLE ? SECTOR - 2 : RECORD;
    for (k = 0; k < n; k++)
        data[k] = (uint8_t)(k % 4 == 0 ? file : k % 4 == 1 ? i : k + i * 7);
    return n;
}

/* What a volume has room for: `files` access blocks, and as many data sectors as there will be free ones below them. */
struct plan {
    unsigned sectors, dirs, files, data, low;
};

static struct plan plan_for(unsigned sectors)
{
    struct plan p = {.sectors = sectors};
    for (p.files = 2;; p.files++) {
        unsigned room;
        p.dirs = (p.files + 1 + 7) / 8;
        room = sectors - 3 - p.dirs - p.files;
        p.data = room / 2;
        p.low = room - p.data;
        if (p.data <= MOST_SEGMENTS * p.files)
            return p;
    }
}

/* How many records a file has: they are written in turn. */
static unsigned records_of(const struct plan *p, unsigned file)
{
    return p->data / p->files + (file < p->data % p->files);
}

/* Access blocks first, then one large contiguous file; the records go above it, a sector each in turn; then that file is deleted. */
static void scatter(const struct plan *p, uint32_t length)
{
    uint8_t data[RECORD];
    unsigned k;
    bytes = (size_t)SECTOR * p->sectors;
    done("format", twynarvel_format(image, bytes, desk, sizeof desk, (const uint8_t *)"BNCH", TWYNARVEL_ID_BYTES, p->dirs));
    for (k = 0; k < p->files; k++)
        allocate(k, TWYNARVEL_SEQUENTIAL, 0, length);
    allocate(MOST_FILES, TWYNARVEL_CONTIGUOUS, p->low, 0);
    for (k = 0; k < p->data; k++) {
        assign(k % p->files, TWYNARVEL_AT_END);
        transfer(TWYNARVEL_WRITE, TWYNARVEL_NEXT, 0, data, record_of(k % p->files, k / p->files, length, data));
        release();
    }
    done("delete", twynarvel_delete(image, bytes, desk, sizeof desk, USER, name_of(MOST_FILES), TWYNARVEL_DESCRIPTOR_BYTES));
    memcpy(kept, image, bytes);
}

/* Every record, as it was written. */
static void read_all(const struct plan *p, uint32_t length)
{
    uint8_t data[RECORD], wanted[RECORD];
    unsigned file, i;
    for (file = 0; file < p->files; file++) {
        assign(file, TWYNARVEL_AT_START);
        for (i = 0; i < records_of(p, file); i++) {
            size_t n = record_of(file, i, length, wanted);
            transfer(TWYNARVEL_READ, TWYNARVEL_RANDOM, i, data, n);
            if (memcmp(data, wanted, n) != 0)
                fail("a record reads otherwise", i);
        }
        release();
    }
}

/* The segments of all files. The directory begins at sector 2, and access blocks follow it directly. */
static unsigned segments(const struct plan *p)
{
    unsigned k, sum = 0;
    for (k = 0; k < p->files; k++) {
        const uint8_t *block = image + SECTOR * (size_t)(2 + p->dirs + k);
        sum += 256u * block[0] + block[1];
    }
    return sum;
}

/* ---- times */

enum { LEAST_ROUNDS = 20, MOST_ROUNDS = 5000 };
static const double enough = 1e9; /* nanoseconds in one line of the table */

/* Each returns a call's time, on a copy of the volume. */
static double checked(void)
{
    double began = nanoseconds();
    sink = twynarvel_check(image, bytes);
    return nanoseconds() - began;
}

static double compacted(uint32_t quota)
{
    double began = nanoseconds();
    sink = twynarvel_compact(image, bytes, desk, sizeof desk, quota, report, sizeof report);
    return nanoseconds() - began;
}

static unsigned moved(void)
{
    return 256u * report[TWYNARVEL_REPORT_MOVED] + report[TWYNARVEL_REPORT_MOVED + 1];
}

static void closed_up(unsigned steps)
{
    if (sink != TWYNARVEL_DONE || report[TWYNARVEL_REPORT_ENDING] != TWYNARVEL_SETTLED || moved() != steps)
        fail("not closed up", moved());
}

/*
 * The best of many rounds: check, compact of the scattered volume, compact of the volume when it is settled. They take turns, so that all see
 * the same machine.
 */
static void line(const struct plan *p, const char *records, uint32_t length)
{
    double check = 1e18, all = 1e18, none = 1e18, began;
    unsigned before, after, round;
    uint32_t sound;
    scatter(p, length);
    before = segments(p);
    sound = twynarvel_check(image, bytes);
    if (sound < TWYNARVEL_SOUND)
        fail("not sound", sound);
    read_all(p, length);
    compacted(TWYNARVEL_MOST_QUOTA);
    closed_up(p->data);
    after = segments(p);
    if (twynarvel_check(image, bytes) != sound)
        fail("other sectors are free", sink);
    read_all(p, length);

    began = nanoseconds();
    for (round = 0; round < MOST_ROUNDS && (round < LEAST_ROUNDS || nanoseconds() - began < enough); round++) {
        double took;
        memcpy(image, kept, bytes);
        took = checked();
        check = took < check ? took : check;
        took = compacted(TWYNARVEL_MOST_QUOTA);
        closed_up(p->data);
        all = took < all ? took : all;
        took = compacted(TWYNARVEL_MOST_QUOTA);
        closed_up(0);
        none = took < none ? took : none;
    }
    printf("%7u  %-8s  %5u  %5u  %6u  %5u  %9.1f  %10.1f  %12.1f  %9.1f\n", p->sectors, records, p->files, p->data, before, after, check / 1e3,
           none / 1e3, all / 1e3, (all - none) / p->data);
    fflush(stdout);
}

int main(void)
{
    static const unsigned sectors[] = {256, 512, 1024, 2048};
    size_t k;
    printf("bench: scattered volumes closed up in one call; microseconds a call, nanoseconds a step\n\n");
    printf("%7s  %-8s  %5s  %5s  %6s  %5s  %9s  %10s  %12s  %9s\n", "sectors", "records", "files", "steps", "before", "after", "check us",
           "settled us", "closed up us", "ns a step");
    for (k = 0; k < sizeof sectors / sizeof sectors[0]; k++) {
        struct plan p = plan_for(sectors[k]);
        line(&p, "fixed", RECORD);
        line(&p, "variable", VARIABLE);
    }
    printf("\nbefore and after are the segments of all files; settled is compact of a volume that is closed up already; a step is the difference\n");
    return 0;
}
