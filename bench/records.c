/*
 * Times transfers of one record, from short ones to the longest, by the library's functions for C, and shows how deep the stack gets in them: an
 * append, a read and an update, each of data and of text. The volume is small and has one file of two records, so that little besides the transfer
 * is in the figures. Nothing is timed unless the transfer is done and the record reads as it has to.
 */
#define _XOPEN_SOURCE 700
#include <string.h>
#include <ucontext.h>
#include "calls.h"

enum { SECTOR = TWYNARVEL_SECTOR_BYTES, BYTES = 64 * SECTOR, USER = 5, MOST = TWYNARVEL_RECORD_BYTES };

static uint8_t image[BYTES], kept[BYTES], desk[TWYNARVEL_DESK_BYTES], kept_desk[TWYNARVEL_DESK_BYTES];
static uint8_t block[TWYNARVEL_BLOCK_BYTES], old[MOST], new[MOST], lent[MOST];
static size_t length; /* of the record that is timed */

/* ---- one transfer: record 1 is read and updated, record 2 is appended */

static void ask(unsigned function, unsigned options, unsigned record)
{
    memset(block, 0, sizeof block);
    block[TWYNARVEL_BLOCK_FUNCTION] = (uint8_t)function;
    options |= function == TWYNARVEL_WRITE ? TWYNARVEL_NEXT : TWYNARVEL_RANDOM;
    block[TWYNARVEL_BLOCK_OPTIONS] = (uint8_t)(options / 256);
    block[TWYNARVEL_BLOCK_OPTIONS + 1] = (uint8_t)options;
    block[TWYNARVEL_BLOCK_RECORD + 3] = (uint8_t)record;
    block[TWYNARVEL_BLOCK_END + 2] = (uint8_t)((length - 1) / 256);
    block[TWYNARVEL_BLOCK_END + 3] = (uint8_t)(length - 1);
}

static void transfer(void)
{
    sink = twynarvel_iocb(block, sizeof block, image, sizeof image, desk, sizeof desk, lent, length, NULL, 0, USER);
}

/* The volume as it is before every transfer. */
static void restore(void)
{
    memcpy(image, kept, sizeof image);
    memcpy(desk, kept_desk, sizeof desk);
}

/* A variable file with two records of the length, and a LUN at the second. */
static void prepare(void)
{
    static const uint8_t name[] = "\0\5        RECORDS DA";
    size_t k;
    for (k = 0; k < length; k++) {
        old[k] = (uint8_t)(k % 16 == 15 ? 0x20 : 'A' + k % 26); /* single spaces: a text that is stored in its own length */
        new[k] = (uint8_t)(k % 16 == 15 ? 0x20 : 'a' + k % 26);
    }
    memcpy(lent, old, length);
    done("format", twynarvel_format(image, sizeof image, desk, sizeof desk, (const uint8_t *)"BNCH", TWYNARVEL_ID_BYTES, 1));
    done("allocate", twynarvel_allocate(image, sizeof image, desk, sizeof desk, USER, name, TWYNARVEL_DESCRIPTOR_BYTES, TWYNARVEL_SEQUENTIAL, 0, 0, 0));
    done("assign", twynarvel_assign(image, sizeof image, desk, sizeof desk, USER, 0, name, TWYNARVEL_DESCRIPTOR_BYTES, TWYNARVEL_PRPW, 0, 0));
    ask(TWYNARVEL_WRITE, TWYNARVEL_IMAGE, 0);
    transfer();
    done("write", sink);
    transfer();
    done("write", sink);
    memcpy(kept, image, sizeof image);
    memcpy(kept_desk, desk, sizeof desk);
}

static void moved(void)
{
    done("transfer", sink);
    if (256u * block[TWYNARVEL_BLOCK_LENGTH + 2] + block[TWYNARVEL_BLOCK_LENGTH + 3] != length)
        fail("another length was moved", (unsigned long)length);
}

/* A read has to hand over the old bytes; what is sent are new ones, which then have to be read back. */
static void tried(unsigned function, unsigned options)
{
    const uint8_t *wanted = function == TWYNARVEL_READ ? old : new;
    restore();
    memcpy(lent, new, length);
    ask(function, options, 1);
    transfer();
    moved();
    if (function != TWYNARVEL_READ) {
        memset(lent, 0, length);
        ask(TWYNARVEL_READ, TWYNARVEL_IMAGE, function == TWYNARVEL_WRITE ? 2 : 1);
        transfer();
        moved();
    }
    if (memcmp(lent, wanted, length) != 0)
        fail("a record reads otherwise", (unsigned long)length);
    memcpy(lent, new, length);
    ask(function, options, 1);
    restore();
}

/* ---- the stack: a transfer is run on one that was painted, and what is painted no more was used */

static uint8_t stack[1 << 18];
static ucontext_t here, there;

static size_t depth_of(void (*run)(void))
{
    size_t k = 0;
    memset(stack, 0xA5, sizeof stack);
    getcontext(&there);
    there.uc_stack.ss_sp = stack;
    there.uc_stack.ss_size = sizeof stack;
    there.uc_link = &here;
    makecontext(&there, run, 0);
    swapcontext(&here, &there);
    while (k < sizeof stack && stack[k] == 0xA5)
        k++;
    return sizeof stack - k;
}

static void nothing(void) {}

/* ---- times */

enum { ROUNDS = 2000, TRIES = 60 };

/* The best of many tries: restoring and transferring, less restoring alone. */
static double time_of(void)
{
    double both = 1e18, alone = 1e18;
    int try, round;
    for (try = 0; try < TRIES; try++) {
        double began = nanoseconds(), took;
        for (round = 0; round < ROUNDS; round++) {
            restore();
            transfer();
        }
        took = nanoseconds() - began;
        both = took < both ? took : both;
        began = nanoseconds();
        for (round = 0; round < ROUNDS; round++) {
            restore();
            sink = image[round % BYTES];
        }
        took = nanoseconds() - began;
        alone = took < alone ? took : alone;
    }
    return (both - alone) / ROUNDS;
}

int main(void)
{
    static const size_t lengths[] = {10, 100, 1000, 1024, MOST};
    static const struct {
        const char *name;
        unsigned function, options;
    } calls[] = {{"append", TWYNARVEL_WRITE, TWYNARVEL_IMAGE}, {"append of text", TWYNARVEL_WRITE, 0},   {"read", TWYNARVEL_READ, TWYNARVEL_IMAGE},
                 {"read of text", TWYNARVEL_READ, 0},          {"update", TWYNARVEL_UPDATE, TWYNARVEL_IMAGE}, {"update of text", TWYNARVEL_UPDATE, 0}};
    size_t k, c;
    printf("bench: one transfer of a record; nanoseconds a call, and bytes of the stack\n\n%-14s  %6s  %9s  %6s\n", "transfer", "length", "ns", "stack");
    for (c = 0; c < sizeof calls / sizeof calls[0]; c++)
        for (k = 0; k < sizeof lengths / sizeof lengths[0]; k++) {
            length = lengths[k];
            prepare();
            tried(calls[c].function, calls[c].options);
            printf("%-14s  %6lu  %9.0f  %6lu\n", calls[c].name, (unsigned long)length, time_of(),
                   (unsigned long)(restore(), depth_of(transfer) - depth_of(nothing)));
            fflush(stdout);
        }
    return 0;
}
