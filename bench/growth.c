/*
 * Times every call on volumes of which an eighth, a quarter, a half and all is in use, by the library's functions for C: a table, and a plot of it.
 * All volumes have 2,048 sectors. One file is contiguous, of 16 sectors; the others have variable records of 1 to 20 bytes on 31 sectors each, in up
 * to seven segments. Nothing is timed unless the call is carried out, and unless check finds the volume sound before and after.
 */
#define _POSIX_C_SOURCE 199309L
#include <string.h>
#include "calls.h"

enum { SECTOR = TWYNARVEL_SECTOR_BYTES, SECTORS = 2048, BYTES = SECTOR * SECTORS, DIRS = 8, DIRECTORY = 2 * SECTOR, ENTRY = 32, USER = 5 };
enum { RUN = 16, SHARE = 31, STRIPE = 5, LONGEST = 20, SIZES = 4, TRIES = 40 };

/* A volume and its desk, as they are now and as they are to be before a call. LUN 0 has the last variable file, LUN 1 the contiguous one. */
static uint8_t image[BYTES], kept[BYTES], desk[TWYNARVEL_DESK_BYTES], kept_desk[TWYNARVEL_DESK_BYTES];
static uint8_t block[TWYNARVEL_BLOCK_BYTES], lent[RUN * SECTOR], report[TWYNARVEL_REPORT_BYTES];
static unsigned files, last, records[64], ends[64];

/* The file of a number: F00, the contiguous one, F01 and so on. */
static const uint8_t *name_of(unsigned file)
{
    static uint8_t name[TWYNARVEL_DESCRIPTOR_BYTES + 1];
    char text[TWYNARVEL_DESCRIPTOR_BYTES - 1];
    snprintf(text, sizeof text, "        F%02u     DA", file % 100);
    name[0] = 0;
    name[1] = USER;
    memcpy(name + 2, text, TWYNARVEL_DESCRIPTOR_BYTES - 2);
    return name;
}

static void ask(unsigned function, unsigned selector, unsigned lun, unsigned record, size_t length)
{
    memset(block, 0, sizeof block);
    block[TWYNARVEL_BLOCK_FUNCTION] = (uint8_t)function;
    block[TWYNARVEL_BLOCK_OPTIONS] = (uint8_t)((selector | TWYNARVEL_IMAGE) / 256);
    block[TWYNARVEL_BLOCK_OPTIONS + 1] = (uint8_t)(selector | TWYNARVEL_IMAGE);
    block[TWYNARVEL_BLOCK_LUN] = (uint8_t)lun;
    block[TWYNARVEL_BLOCK_RECORD + 2] = (uint8_t)(record / 256);
    block[TWYNARVEL_BLOCK_RECORD + 3] = (uint8_t)record;
    block[TWYNARVEL_BLOCK_END + 2] = (uint8_t)((length - 1) / 256);
    block[TWYNARVEL_BLOCK_END + 3] = (uint8_t)(length - 1);
}

/* ---- the calls */

static uint32_t transfer(void)
{
    return twynarvel_iocb(block, sizeof block, image, sizeof image, desk, sizeof desk, lent, sizeof lent, NULL, 0, USER);
}

static uint32_t format(void)
{
    return twynarvel_format(image, sizeof image, desk, sizeof desk, (const uint8_t *)"BNCH", TWYNARVEL_ID_BYTES, DIRS);
}

static uint32_t check(void)
{
    return twynarvel_check(image, sizeof image) >= TWYNARVEL_SOUND ? TWYNARVEL_DONE : TWYNARVEL_NOT_SOUND;
}

static uint32_t bring_up(void)
{
    return twynarvel_bring_up(image, sizeof image);
}

static uint32_t compact(void)
{
    uint32_t status = twynarvel_compact(image, sizeof image, desk, sizeof desk, TWYNARVEL_MOST_QUOTA, report, sizeof report);
    if (report[TWYNARVEL_REPORT_ENDING] != TWYNARVEL_SETTLED || report[TWYNARVEL_REPORT_MOVED] + report[TWYNARVEL_REPORT_MOVED + 1] != 0)
        fail("a settled volume was closed up", report[TWYNARVEL_REPORT_ENDING]);
    return status;
}

static uint32_t allocate(unsigned file, uint32_t kind, uint32_t size)
{
    return twynarvel_allocate(image, sizeof image, desk, sizeof desk, USER, name_of(file), TWYNARVEL_DESCRIPTOR_BYTES, kind, size, 0, 0);
}

static uint32_t assign(unsigned file, uint32_t lun)
{
    return twynarvel_assign(image, sizeof image, desk, sizeof desk, USER, lun, name_of(file), TWYNARVEL_DESCRIPTOR_BYTES, TWYNARVEL_PRPW,
                            TWYNARVEL_AT_END, 0);
}

static uint32_t release(uint32_t lun)
{
    return twynarvel_close(image, sizeof image, desk, sizeof desk, USER, lun);
}

static uint32_t allocate_run(void) { return allocate(0, TWYNARVEL_CONTIGUOUS, RUN); }
static uint32_t assign_one(void) { return assign(1, 2); }
static uint32_t close_one(void) { return release(1); }
static uint32_t delete_run(void) { return twynarvel_delete(image, sizeof image, desk, sizeof desk, USER, name_of(0), TWYNARVEL_DESCRIPTOR_BYTES); }

/* ---- what each needs before it, beyond the volume as it was made */

static void nothing(void) {}

static void no_counts(void) /* as before there were record counts */
{
    unsigned slot;
    for (slot = 1; slot < files; slot++)
        memset(image + DIRECTORY + ENTRY * slot + 28, 0, 4);
}

static void run_closed(void) { done("close", close_one()); }

static void no_run(void)
{
    run_closed();
    done("delete", delete_run());
}

static void sector_read(void) { ask(TWYNARVEL_READ, TWYNARVEL_RANDOM, 1, 0, RUN * SECTOR); }
static void sector_write(void) { ask(TWYNARVEL_WRITE, TWYNARVEL_RANDOM, 1, 0, RUN * SECTOR); }
static void record_read(void) { ask(TWYNARVEL_READ, TWYNARVEL_RANDOM, 0, records[last] - 1, LONGEST); }
static void record_append(void) { ask(TWYNARVEL_WRITE, TWYNARVEL_NEXT, 0, 0, LONGEST); }
static void record_update(void) { ask(TWYNARVEL_UPDATE, TWYNARVEL_RANDOM, 0, records[last] - 1, LONGEST); }

static void file_rewind(void) /* a command has no options, and no part */
{
    memset(block, 0, sizeof block);
    block[TWYNARVEL_BLOCK_CODE] = TWYNARVEL_COMMAND;
    block[TWYNARVEL_BLOCK_FUNCTION] = TWYNARVEL_REWIND;
}

static const struct {
    const char *name;
    void (*before)(void);
    uint32_t (*call)(void);
} calls[] = {
    {"format", nothing, format},
    {"check", nothing, check},
    {"bring-up", no_counts, bring_up},
    {"compact, settled", nothing, compact},
    {"allocate, 16 sectors", no_run, allocate_run},
    {"delete, 16 sectors", run_closed, delete_run},
    {"assign", nothing, assign_one},
    {"close", nothing, close_one},
    {"rewind", file_rewind, transfer},
    {"read, 16 sectors", sector_read, transfer},
    {"write, 16 sectors", sector_write, transfer},
    {"read, a file's last record", record_read, transfer},
    {"append, 20 bytes", record_append, transfer},
    {"update, a file's last record", record_update, transfer},
};
enum { CALLS = sizeof calls / sizeof calls[0] };

/* ---- volumes */

static unsigned drawn(unsigned below) /* the same numbers on every machine */
{
    static uint32_t state = 1;
    state = state * 1664525u + 1013904223u;
    return (state >> 16) % below;
}

/* Records at the end of a file until its stream has no room for the next in so many sectors. */
static void fill(unsigned file, unsigned sectors)
{
    unsigned length = 1 + drawn(LONGEST);
    done("assign", assign(file, 0));
    while (ends[file] + 2 + length + length % 2 <= SECTOR * sectors) {
        ask(TWYNARVEL_WRITE, TWYNARVEL_NEXT, 0, 0, length);
        done("append", transfer());
        ends[file] += 2 + length + length % 2;
        records[file]++;
        length = 1 + drawn(LONGEST);
    }
    done("close", release(0));
}

/* So many files: the contiguous one, and others that are filled in turn, a few sectors at a time. The last of them gets a record of LONGEST bytes more. */
static void make(unsigned number)
{
    unsigned file, sectors;
    size_t k;
    files = number;
    last = number - 1;
    for (k = 0; k < sizeof lent; k++)
        lent[k] = (uint8_t)drawn(256);
    memset(records, 0, sizeof records);
    memset(ends, 0, sizeof ends);
    done("format", format());
    done("allocate", allocate_run());
    for (file = 1; file < number; file++)
        done("allocate", allocate(file, TWYNARVEL_SEQUENTIAL, 0));
    for (sectors = 0; sectors < SHARE; ) {
        sectors = sectors + STRIPE < SHARE ? sectors + STRIPE : SHARE;
        for (file = 1; file < number; file++)
            fill(file, sectors);
    }
    done("assign", assign(last, 0));
    ask(TWYNARVEL_WRITE, TWYNARVEL_NEXT, 0, 0, LONGEST);
    done("append", transfer());
    records[last]++;
    done("assign", assign(0, 1));
    memcpy(kept, image, sizeof image);
    memcpy(kept_desk, desk, sizeof desk);
}

/* ---- times */

/* The best of some tries, in microseconds. */
static double time_of(unsigned c)
{
    double best = 1e18;
    int try;
    for (try = 0; try < TRIES; try++) {
        double began, took;
        uint32_t status;
        memcpy(image, kept, sizeof image);
        memcpy(desk, kept_desk, sizeof desk);
        done("check before", check());
        calls[c].before();
        began = nanoseconds();
        status = calls[c].call();
        took = nanoseconds() - began;
        done(calls[c].name, status);
        done("check after", check());
        best = took < best ? took : best;
    }
    return best / 1e3;
}

int main(void)
{
    static const char *const parts[SIZES] = {"1/8", "1/4", "1/2", "1"};
    static double times[CALLS][SIZES];
    unsigned c, k, file, total;
    double most = 0;
    printf("bench: every call on volumes of 2,048 sectors, by how much of a full volume is in use; microseconds a call, best of %d\n", TRIES);
    printf("\n");
    for (k = 0; k < SIZES; k++) {
        make(8u << k);
        for (total = 0, file = 1; file < files; file++)
            total += records[file];
        printf("%3s: %2u files, %5u records, %4lu sectors in use\n", parts[k], files, total,
               (unsigned long)(SECTORS + TWYNARVEL_SOUND) - twynarvel_check(image, sizeof image));
        fflush(stdout);
        for (c = 0; c < CALLS; c++)
            times[c][k] = time_of(c);
    }
    printf("\n%-28s", "call");
    for (k = 0; k < SIZES; k++)
        printf("  %8s", parts[k]);
    printf("\n");
    for (c = 0; c < CALLS; c++) {
        printf("%-28s", calls[c].name);
        for (k = 0; k < SIZES; k++) {
            printf("  %8.1f", times[c][k]);
            most = times[c][k] > most ? times[c][k] : most;
        }
        printf("\n");
    }
    printf("\nThe same, one # for each %.1f microseconds begun:\n\n", most / 60);
    for (c = 0; c < CALLS; c++)
        for (k = 0; k < SIZES; k++) {
            int bars = (int)(60 * times[c][k] / most) + 1;
            printf("%-28s  %3s  %.*s\n", k == 0 ? calls[c].name : "", parts[k], bars > 60 ? 60 : bars,
                   "############################################################");
        }
    return 0;
}
