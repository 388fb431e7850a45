/* Lengths and forms: of the block and of the desk bytes; and null pointers. */
#include "check.h"

/* Front's order, first: "a block of another length than 28 is $84 and is not written". Also before bad desk bytes ($6F). */
void block_lengths(void)
{
    size_t len;
    house(8, 8);
    rule("block of another length");
    for (len = 0; len <= 40; len++) {
        of((unsigned)len, 0);
        lend(BLOCK, len, 0);
        if (len > 5) {
            poke(BLOCK, 0, TWYNARVEL_COMMAND); /* a rewind of LUN 1, which is Fresh: accepted, and nothing to change */
            poke(BLOCK, 1, TWYNARVEL_REWIND);
            poke(BLOCK, 4, 0x55);
            poke(BLOCK, 5, 1);
        }
        iocb(len == 28 ? 0x00 : 0x84, 0, 5);
    }
    rule("block of another length, bad desk bytes");
    lend(DESK, 191, 0);
    for (len = 0; len <= 40; len++) {
        of((unsigned)len, 1);
        lend(BLOCK, len, 0xFF);
        iocb(len == 28 ? 0x6F : 0x84, 0, 5);
    }
}

/* "Bad bytes, $6F: another length". Format takes any 192 bytes; another length is $6F before $60. */
void desk_lengths(void)
{
    size_t len;
    house(8, 8);
    rule("desk bytes of another length");
    for (len = 0; len <= 200; len++) {
        /* 192 zeros are a desk with no LUN held, which fits: then the caller 65,534, or a LUN that is free, is $03 */
        uint32_t status = len == 192 ? 0x03 : 0x6F;
        lend(DESK, len, 0);
        of((unsigned)len, 0);
        rewind_of(1);
        iocb(status, 0, 5);
        of((unsigned)len, 1);
        transfer(TWYNARVEL_READ, TWYNARVEL_NEXT, 0, 0, 8);
        iocb(status, 0, 5);
        of((unsigned)len, 2);
        allocate(status, 65534, 1, 0, 0, 0);
        assign(status, 65534, 0, 0, 0, 0);
        release(status, 5, 0);
        erase(status, 65534);
        compact(len == 192 ? 0x00 : 0x6F, TWYNARVEL_SETTLED, 0, 1);
        compact(len == 192 ? 0x60 : 0x6F, 0, 0, 2049);
    }
    rule("format: desk bytes of another length");
    for (len = 0; len <= 200; len++) {
        of((unsigned)len, 0);
        lend(DESK, len, 0xFF); /* not of the form: format does not judge it */
        lend(NAME, 4, 0x20);   /* four spaces are no ID: $60 */
        format(len == 192 ? 0x60 : 0x6F, 1);
        if (len != 192) {
            put(NAME, 0, "564F4C31");
            format(0x6F, 1);
        }
    }
}

/* With an unsupported code, desk bytes of the form are $82 and others $6F, whether or not the desk fits the volume. */
static void judged(size_t lun, unsigned byte, unsigned value, int good)
{
    unsigned old = area[DESK].at[12 * lun + byte];
    of((unsigned)(100 * lun + byte), value);
    poke(DESK, 12 * lun + byte, value);
    request(0xFF, 0, 0, 0, 0, 0, 0);
    iocb(good ? 0x82 : 0x6F, 0, 5);
    poke(DESK, 12 * lun + byte, old);
}

static int one_of_few(unsigned v)
{
    return v <= 2 || v == 7 || v == 8 || v == 0x10 || v == 0x7F || v == 0x80 || v == 0xFF;
}

/* One byte of one LUN takes every value (LUN 0 and 15) or a few (the others). */
static void each_byte(size_t lun, const char *twelve, int (*good)(unsigned byte, unsigned value))
{
    unsigned byte, value;
    put(DESK, 12 * lun, twelve);
    for (byte = 0; byte < 12; byte++)
        for (value = 0; value < 256; value++)
            if (lun == 0 || lun == 15 || one_of_few(value))
                judged(lun, byte, value, good(byte, value));
    put(DESK, 12 * lun, "00 00 0000 00 00 0000 00000000");
}

/* A free LUN: twelve zeros. With byte 0 = 1 it is held: PR, user 0, slot 0, Fresh. Any other stray byte is bad. */
static int of_free(unsigned byte, unsigned value)
{
    return value == 0 || (byte == 0 && value == 1);
}

/* Held and Fresh: n zero, so i is zero. n from 1 on with i = 0 is At 0. Byte 6, the code offered, may be anything. */
static int of_fresh(unsigned byte, unsigned value)
{
    switch (byte) {
    case 0: return value == 1;
    case 1: return value < 8;
    case 2: case 3: case 4: case 5: case 6: return 1;
    default: return value == 0;
    }
}

/* Held, At 65,536: any i will do while n is not zero; n zero with i not zero is bad. */
static int of_at(unsigned byte, unsigned value)
{
    switch (byte) {
    case 0: return value == 1;
    case 1: return value < 8;
    case 5: return value != 0;
    case 7: return value == 0;
    default: return 1;
    }
}

static void bad_form(unsigned which, size_t lun, const char *twelve)
{
    house(8, 8);
    put(DESK, 12 * lun, twelve);
    of(which, (unsigned)lun);
    rewind_of(1);
    iocb(0x6F, 0, 5);
    transfer(TWYNARVEL_WRITE, TWYNARVEL_NEXT, 0, 0, 8);
    iocb(0x6F, 0, 5);
    allocate(0x6F, 5, 1, 0, 0, 0);
    name(FILE_X);
    assign(0x6F, 5, 9, 0, 0, 0);
    release(0x6F, 5, 1);
    compact(0x6F, 0, 0, 0);
    compact(0x6F, 0, 0, 2049);
    put(DESK, 12, "00 00 0000 00 00 0000 00000000");
    erase(0x6F, 5);
}

void desk_forms(void)
{
    size_t lun;
    house(8, 8);
    lend(DESK, TWYNARVEL_DESK_BYTES, 0);
    rule("form of desk bytes (LUN and byte, value)");
    for (lun = 0; lun < 16; lun++) {
        each_byte(lun, "00 00 0000 00 00 0000 00000000", of_free);
        each_byte(lun, "01 04 0005 01 00 0000 00000000", of_fresh);
        each_byte(lun, "01 07 FFFF FF FF FF00 00010000", of_at);
    }
    rule("bad desk bytes (form, LUN): each call, which would else be accepted");
    for (lun = 5; lun < 16; lun += 10) {
        bad_form(1, lun, "02 00 0005 01 00 0000 00000000"); /* byte 0 is 2 */
        bad_form(2, lun, "00 00 0005 00 00 0000 00000000"); /* free with a user */
        bad_form(3, lun, "00 00 0000 00 00 0000 00000001"); /* free with a place */
        bad_form(4, lun, "01 08 0005 01 00 0000 00000000"); /* mode 8 */
        bad_form(5, lun, "01 80 0005 01 00 0000 00000000"); /* mode 128 */
        bad_form(6, lun, "00 00 0000 00 00 0100 00000000"); /* free with a code */
        bad_form(7, lun, "01 00 0005 01 00 0001 00000000"); /* byte 7 */
        bad_form(8, lun, "01 00 0005 01 00 FF80 00000000");
        bad_form(9, lun, "01 00 0005 01 00 0000 00000001"); /* n zero, i not */
        bad_form(10, lun, "01 00 0005 01 00 0000 01000000");
    }
    /* The same LUN in the form PR of user 5 on Y fits, whatever code is in byte 6: then the calls are accepted. */
    rule("good desk bytes");
    house(8, 8);
    put(DESK, 180, "01 00 0005 01 01 0100 00000004");
    rewind_of(15);
    want(DESK, 180, "01 00 0005 01 00 0100 00000000");
    iocb(0x00, 0, 5);
    want(DESK, 180, "00 00 0000 00 00 0000 00000000");
    release(0x00, 5, 15);
}

/* "A null pointer only with length 0": every area of every function. */
void null_pointers(void)
{
    rule("null pointers");
    house(8, 8);
    lend_null(TASK);
    lend_null(SHARED);
    lend_null(NAME);
    iocb(0x00, 0, 5); /* a rewind looks at neither area */
    check(TWYNARVEL_SOUND + 5);
    transfer(TWYNARVEL_READ, TWYNARVEL_NEXT, 0, 0, 1);
    iocb(0x84, 0, 5); /* an area of length 0 has no part */
    format(0x60, 1);  /* an ID of length 0 */
    allocate(0x64, 5, 1, 0, 0, 0);
    assign(0x64, 5, 9, 0, 0, 0);
    erase(0x64, 5);
    lend_null(REPORT); /* of another length than four: not written */
    compact(0x00, TWYNARVEL_SETTLED, 0, 1);
    compact(0x60, 0, 0, 2049);
    lend_null(IMAGE); /* no bytes are no volume */
    check(0);
    bring_up(0x6F);
    format(0x60, 1);
    rewind_of(1);
    iocb(0x6F, 0, 5);
    allocate(0x6F, 5, 1, 0, 0, 0);
    assign(0x6F, 5, 9, 0, 0, 0);
    release(0x6F, 5, 0);
    erase(0x6F, 5);
    compact(0x6F, 0, 0, 0);
    lend_null(DESK);
    rewind_of(1);
    iocb(0x6F, 0, 5);
    format(0x6F, 1);
    allocate(0x6F, 5, 1, 0, 0, 0);
    assign(0x6F, 5, 9, 0, 0, 0);
    release(0x6F, 5, 0);
    erase(0x6F, 5);
    compact(0x6F, 0, 0, 0);
    lend_null(BLOCK);
    iocb(0x84, 0, 5);
    /* one area null, the other used */
    house(8, 3);
    lend_null(TASK);
    request(0, TWYNARVEL_READ, TWYNARVEL_RANDOM | TWYNARVEL_IMAGE, 0, 0, TWYNARVEL_SHARED, TWYNARVEL_SHARED + 2);
    want(SHARED, 0, "414243");
    want(DESK, 8, "00000000");
    iocb(0x00, 3, 5);
    house(3, 0);
    lend_null(SHARED);
    transfer(TWYNARVEL_READ, TWYNARVEL_RANDOM | TWYNARVEL_IMAGE, 0, 0, 3);
    want(TASK, 0, "414243");
    want(DESK, 8, "00000000");
    iocb(0x00, 3, 5);
}
