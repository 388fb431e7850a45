/*
 * Orders of refusals. Each function begins with every fault at once; then the faults are taken away one by one, from the first in its order.
 * So each number is seen while all later reasons that can hold with it hold too.
 */
#include "check.h"

static const char no_lun[] = "00 00 0000 00 00 0000 00000000";

/* A byte of the trailer that has to be zero, and a stray byte in a free LUN. */
static void spoil_image(int yes)
{
    poke(IMAGE, 0xF08, yes ? 1 : 0);
}

static void spoil_desk(int yes)
{
    poke(DESK, 180 + 7, yes ? 1 : 0);
}

/* Table of modes: which of 0 to 7 each is compatible with (docs/RULES.md, "Modes"; step 9: PR and EW are, PR and ER are not). */
void modes(void)
{
    static const char *const beside[8] = {"02345", "23", "01246", "01", "024", "0", "2", ""};
    unsigned a, b;
    rule("modes side by side");
    house(0, 0);
    name(FILE_Y);
    for (a = 0; a < 8; a++)
        for (b = 0; b < 8; b++) {
            const char *p = beside[a];
            int good;
            while (*p && *p != (char)('0' + b))
                p++;
            good = *p != 0;
            lend(DESK, 192, 0);
            put(DESK, 0, "01 00 0005 01 00 0000 00000000");
            poke(DESK, 1, a);
            of(a, b);
            if (good) {
                want(DESK, 12, "01 00 0005 01 00 0000 00000000");
                want_fill(DESK, 13, 1, (int)b);
            }
            assign(good ? 0x00 : 0x0B, 5, 1, b, 0, 0);
            put(DESK, 12, "01 00 0005 01 00 0000 00000000"); /* a desk that has both fits only then */
            poke(DESK, 13, b);
            rewind_of(0);
            iocb(good ? 0x00 : 0x6F, 0, 5);
        }
    rule("who may assign a mode");
    for (a = 0; a < 8; a++) {
        lend(DESK, 192, 0);
        of(a, 6);
        if (a < 2) {
            want(DESK, 0, "01 00 0006 01 00 0000 00000000");
            want_fill(DESK, 1, 1, (int)a);
        }
        assign(a < 2 ? 0x00 : 0x0B, 6, 0, a, 0, 0);
    }
}

/* Desk bytes of the form, of a desk that does not fit the volume, in which Z has code 9: $6F, after the code of the block and the area. */
static void no_fit(unsigned which, const char *twelve)
{
    of(which, 0);
    house(8, 0);
    poke(IMAGE, 0x257, 9);
    put(DESK, 180, twelve);
    rewind_of(1);
    iocb(0x6F, 0, 5);
    transfer(TWYNARVEL_READ, TWYNARVEL_NEXT, 0, 0, 9);
    iocb(0x84, 0, 5); /* the area is judged before */
    transfer(TWYNARVEL_READ, 0x8000, 0, 0, 9);
    iocb(0x82, 0, 5); /* and so is the code of the block */
    transfer(TWYNARVEL_READ, TWYNARVEL_NEXT, 0, 0, 8);
    iocb(0x6F, 0, 5);
    allocate(0x6F, 5, 1, 0, 0, 0);
    name(FILE_X);
    assign(0x6F, 5, 9, 0, 0, 0);
    release(0x6F, 5, 15);
    erase(0x6F, 65534);
    compact(0x6F, 0, 0, 0);
    compact(0x6F, 0, 0, 2049);
}

void fitting(void)
{
    rule("desks that do not fit");
    no_fit(1, "01 00 FFFE 01 00 0000 00000000");  /* user 65,534 */
    no_fit(2, "01 00 0005 03 00 0000 00000000");  /* an unused entry */
    no_fit(3, "01 00 0005 08 00 0000 00000000");  /* past the last entry */
    no_fit(4, "01 00 0005 FF 00 0000 00000000");
    no_fit(5, "01 02 0006 01 00 0000 00000000");  /* a writer without the right */
    no_fit(6, "01 01 0005 01 00 0000 00000000");  /* ER beside PRPW */
    no_fit(7, "01 00 0005 01 01 0000 00000005");  /* Y has five records */
    no_fit(8, "01 00 0005 01 02 0000 00000000");  /* two records at once */
    no_fit(9, "01 00 0005 01 01 0000 FFFFFFFF");
    no_fit(10, "01 00 0005 00 01 0000 00000003"); /* X has three sectors */
    no_fit(11, "01 00 0005 00 04 0000 00000000");
    no_fit(12, "01 00 0005 00 02 0000 00000002");
    no_fit(13, "01 00 0005 00 11 0000 00000000"); /* 17 sectors at once */
    no_fit(14, "01 00 0006 02 00 0000 00000000"); /* a reader without the right, by the code that the LUN keeps */
    no_fit(15, "01 00 0006 02 01 0800 00000001");
}

/* Format: $6F for the length of the desk bytes, then $60. */
void order_of_format(void)
{
    rule("order: format");
    house(0, 0);
    lend(IMAGE, 4095, 0xA5);
    lend(DESK, 193, 0);
    lend(NAME, 5, 0x41);
    format(0x6F, 0);
    lend(DESK, 192, 0xFF);
    format(0x60, 0);
    lend(IMAGE, 4096, 0xA5);
    format(0x60, 0);
    lend(NAME, 4, 0x41);
    format(0x60, 0);
}

/* Descriptors: user to 65,533; catalog a name or eight spaces; filename and extension names; 20 bytes. */
static void bad_name(unsigned which, size_t len, const char *hex)
{
    of(which, (unsigned)len);
    lend(NAME, len, 0);
    put(NAME, 0, hex);
    allocate(0x64, 5, 2, 0, 0, 0);
    assign(0x64, 5, 9, 7, 0, 0);
    erase(0x64, 5);
}

static void bad_names(void)
{
    rule("bad descriptors");
    bad_name(1, 0, "");
    bad_name(2, 19, "0005 2020202020202020 5820202020202020 44");
    bad_name(3, 21, FILE_X "20");
    bad_name(4, 20, "FFFE 2020202020202020 5820202020202020 4441");
    bad_name(5, 20, "FFFF 2020202020202020 5820202020202020 4441");
    bad_name(6, 20, "0005 2041202020202020 5820202020202020 4441"); /* the catalog starts with a space */
    bad_name(7, 20, "0005 3141202020202020 5820202020202020 4441");
    bad_name(8, 20, "0005 2020202020202020 2020202020202020 4441"); /* no filename */
    bad_name(9, 20, "0005 2020202020202020 7820202020202020 4441"); /* a small letter */
    bad_name(10, 20, "0005 2020202020202020 5820202020202058 4441");
    bad_name(11, 20, "0005 2020202020202020 5820202020202020 2020"); /* no extension */
    bad_name(12, 20, "0005 2020202020202020 5820202020202020 3141");
    bad_name(13, 20, "0005 2020202020202020 2658202020202020 4441"); /* a temporary name */
    bad_name(14, 20, "0005 0000000000000000 5820202020202020 4441");
}

#define FILE_A5 "0000 2020202020202020 4135202020202020 4441" /* of user 0 */

/* Allocate: $6F (bytes), $6F, $03, $64, $02, $60, $0B, $66, $67, $63. A file of user 0 with a code other than 0 is $60. */
void order_of_allocate(void)
{
    house(0, 0);
    bad_names();
    rule("order: allocate");
    put(IMAGE, 0x260, "01 00 0005 2020202020202020 4131202020202020 4441 0000 0000 000A 0001 0000");
    put(IMAGE, 0x280, "01 00 0005 2020202020202020 4132202020202020 4441 0000 0000 000B 0001 0000");
    put(IMAGE, 0x2A0, "01 00 0005 2020202020202020 4133202020202020 4441 0000 0000 000C 0001 0000");
    put(IMAGE, 0x2C0, "01 00 0005 2020202020202020 4134202020202020 4441 0000 0000 000D 0001 0000");
    put(IMAGE, 0x2E0, "01 00" FILE_A5 "0000 0000 000E 0001 0000");
    put(IMAGE, 0x101, "FF");
    check(TWYNARVEL_SOUND);
    spoil_desk(1);
    spoil_image(1);
    lend(NAME, 19, 0);
    allocate(0x6F, 65534, 2, 3000, TWYNARVEL_RECORD_BYTES + 1, 1);
    spoil_desk(0);
    allocate(0x6F, 65534, 2, 3000, TWYNARVEL_RECORD_BYTES + 1, 1);
    spoil_image(0);
    allocate(0x03, 65534, 2, 3000, TWYNARVEL_RECORD_BYTES + 1, 1);
    allocate(0x64, 6, 2, 3000, TWYNARVEL_RECORD_BYTES + 1, 1);
    name(FILE_A5);
    allocate(0x02, 6, 2, 3000, TWYNARVEL_RECORD_BYTES + 1, 1);
    allocate(0x60, 6, 0, 2048, 0, 1); /* a file of user 0 with a code */
    allocate(0x60, 6, 1, 0, TWYNARVEL_RECORD_BYTES, 255);
    allocate(0x60, 0, 0, 2048, 0, 1);
    allocate(0x60, 6, 0, 2049, 0, 0);
    allocate(0x0B, 6, 0, 2048, 0, 0);
    allocate(0x66, 0, 0, 2048, 0, 0);
    name(FILE_NEW);
    poke(NAME, 1, 0); /* of user 0, a name that is not taken */
    allocate(0x60, 0, 0, 2048, 0, 1);
    allocate(0x67, 0, 0, 2048, 0, 0);
    name(FILE_Y);
    allocate(0x02, 6, 2, 3000, TWYNARVEL_RECORD_BYTES + 1, 1);
    allocate(0x60, 6, 0, 3000, 0, 1);
    allocate(0x60, 6, 0, 0, 0, 1);
    allocate(0x60, 6, 0, 2048, 1, 1);
    allocate(0x60, 6, 1, 1, 0, 1);
    allocate(0x60, 6, 1, 0, TWYNARVEL_RECORD_BYTES + 1, 1);
    allocate(0x0B, 6, 0, 2048, 0, 1);
    allocate(0x0B, 6, 1, 0, TWYNARVEL_RECORD_BYTES, 1);
    allocate(0x66, 5, 0, 2048, 0, 1);
    name(FILE_NEW);
    allocate(0x67, 5, 0, 2048, 0, 1);
    allocate(0x67, 5, 1, 0, 0, 1);
    put(IMAGE, 0x2C0, "01 00 0005 2020202020202020 4134202020202020 4441 0000 0000 000D 0002 0000");
    want_fill(IMAGE, 0x2E0, 32, 0); /* slot 7 is unused, and no sector is free */
    put(IMAGE, 0x2E0, "00");
    poke(NAME, 1, 0); /* of user 0 */
    allocate(0x60, 0, 0, 1, 0, 1);
    allocate(0x63, 0, 0, 1, 0, 0);
    name(FILE_NEW);
    allocate(0x63, 5, 0, 1, 0, 1);
    allocate(0x63, 5, 1, 0, 0, 1);
    put(IMAGE, 0x2C0, "01 00 0005 2020202020202020 4134202020202020 4441 0000 0000 000D 0001 0000");
    put(IMAGE, 0x101, "FD"); /* one is */
    allocate(0x63, 5, 0, 2, 0, 1);
    want(IMAGE, 0x2E0, "01 00" FILE_NEW "0001 0000 000E 0001 0000");
    want(IMAGE, 0x101, "FF");
    allocate(0x00, 5, 0, 1, 0, 1);
}

/* Assign: $6F (bytes), $6F, $03, $02, $64, $17, $07, $0B. Y has code 9, which LUN 4 keeps. */
void order_of_assign(void)
{
    rule("order: assign");
    house(0, 0);
    poke(IMAGE, 0x237, 9);
    poke(DESK, 48 + 6, 9);
    spoil_desk(1);
    spoil_image(1);
    lend(NAME, 21, 0);
    assign(0x6F, 65534, 16, 8, 0, 8);
    spoil_desk(0);
    assign(0x6F, 65534, 16, 8, 0, 8);
    spoil_image(0);
    assign(0x03, 65534, 9, 8, 0, 8); /* caller */
    assign(0x03, 6, 16, 8, 0, 8);    /* LUN above 15 */
    assign(0x03, 6, 0, 8, 0, 8);     /* held by another */
    assign(0x03, 6, 4, 8, 0, 8);     /* held by the caller */
    assign(0x02, 6, 9, 8, 0, 8);
    name(FILE_Y); /* also of a file that is there */
    assign(0x03, 6, 4, 8, 0, 8);
    assign(0x02, 6, 9, 8, 0, 8);
    lend(NAME, 21, 0);
    assign(0x64, 6, 9, 7, 0, 8);
    name(FILE_NEW);
    assign(0x17, 6, 9, 7, 0, 8);
    name(FILE_Y);
    assign(0x07, 6, 9, 7, 0, 8); /* another code; no right; EREW stands beside nothing */
    assign(0x0B, 6, 9, 7, 0, 9); /* no right */
    assign(0x07, 6, 9, 1, 0, 8); /* another code; ER clashes with LUN 0 and LUN 4 */
    assign(0x0B, 6, 9, 1, 0, 9);
    assign(0x0B, 6, 9, 2, 0, 8); /* no right; PW reads nothing, and no code is asked for */
    assign(0x0B, 6, 9, 3, 0, 8);
    assign(0x0B, 5, 9, 7, 0, 8); /* the owner needs no code; EREW stands beside nothing */
    assign(0x0B, 0, 9, 7, 0, 8);
    want(DESK, 108, "01 00 0005 01 00 0800 00000000");
    assign(0x00, 5, 9, 0, 0, 8);
}

/* Close: $6F (bytes), $6F, $03. User 0 may use no other user's LUN. */
void order_of_close(void)
{
    rule("order: close");
    house(0, 0);
    spoil_desk(1);
    spoil_image(1);
    release(0x6F, 65534, 16);
    spoil_desk(0);
    release(0x6F, 65534, 16);
    spoil_image(0);
    release(0x03, 65534, 0);
    release(0x03, 5, 16);
    release(0x03, 5, 9);
    release(0x03, 6, 0);
    release(0x03, 0, 0);
    want(DESK, 48, no_lun);
    release(0x00, 6, 4);
}

/* Delete: $6F (bytes), $6F, $03, $64, $17, $0B, $0D. */
void order_of_delete(void)
{
    rule("order: delete");
    house(0, 0);
    spoil_desk(1);
    spoil_image(1);
    lend(NAME, 19, 0x41);
    erase(0x6F, 65534);
    spoil_desk(0);
    erase(0x6F, 65534);
    spoil_image(0);
    erase(0x03, 65534);
    erase(0x64, 6);
    name(FILE_NEW);
    erase(0x17, 6);
    name(FILE_Z);
    erase(0x0B, 6);
    erase(0x0D, 5);
    erase(0x0D, 0);
    put(DESK, 24, no_lun);
    want_fill(IMAGE, 0x240, 32, 0);
    want(IMAGE, 0x101, "01"); /* access block 8 and sector 9 are free; their bytes stay */
    erase(0x00, 0);
}

/* Rewind: $84 (block), $6F (bytes), $82, then $6F, $03. Its area is not judged: start 1, end 0. */
void order_of_rewind(void)
{
    rule("order: rewind");
    house(8, 8);
    spoil_desk(1);
    spoil_image(1);
    lend(BLOCK, 29, 0x01);
    iocb(0x84, 0, 65534);
    request(1, 2, 1, 16, 0, 1, 0);
    iocb(0x6F, 0, 65534);
    spoil_desk(0);
    iocb(0x82, 0, 65534);
    request(1, 2, 0, 16, 0, 1, 0);
    iocb(0x6F, 0, 65534);
    spoil_image(0);
    iocb(0x03, 0, 65534);
    iocb(0x03, 0, 5);
    request(1, 2, 0, 9, 0, 1, 0);
    iocb(0x03, 0, 5); /* free */
    request(1, 2, 0x0104, 0, 0, 1, 0);
    iocb(0x03, 0, 6); /* another user's */
    iocb(0x03, 0, 0);
    want(DESK, 0, "01 04 0005 01 00 0000 00000000");
    iocb(0x00, 0, 5);
}

/* What every transfer begins with: $84 (block), $6F (bytes), $82 (code), $84 (area), $6F, $03. */
static void opening(unsigned function)
{
    of(function, 0);
    house(4352, 5);
    spoil_desk(1);
    spoil_image(1);
    lend(BLOCK, 27, 0xFF);
    iocb(0x84, 0, 65534);
    request(0, function, 0x8000, 16, 99, 1, 0);
    iocb(0x6F, 0, 65534);
    spoil_desk(0);
    iocb(0x82, 0, 65534);
    request(0, function, TWYNARVEL_CURRENT, 16, 99, 1, 0);
    iocb(0x84, 0, 65534);
    request(0, function, TWYNARVEL_CURRENT, 16, 99, 0, 4351);
    iocb(0x6F, 0, 65534);
    spoil_image(0);
    iocb(0x03, 0, 65534);
    iocb(0x03, 0, 5);
    request(0, function, TWYNARVEL_CURRENT, 9, 99, 0, 4351);
    iocb(0x03, 0, 5); /* free */
    request(0, function, TWYNARVEL_CURRENT, 1, 99, 0, 4351);
    iocb(0x03, 0, 6); /* another user's */
    iocb(0x03, 0, 0);
    iocb(0x82, 0, 5); /* Current when Fresh, and 4,352 bytes */
}

/* Read, then: $82, $84 (contiguous), $C2, $84 (sequential). */
void order_of_read(void)
{
    rule("order: read");
    opening(TWYNARVEL_READ);
    poke(DESK, 13, TWYNARVEL_PW);
    transfer(TWYNARVEL_READ, TWYNARVEL_RANDOM, 1, 99, 255);
    iocb(0x82, 0, 5); /* PW does not read */
    poke(DESK, 13, TWYNARVEL_EW);
    iocb(0x82, 0, 5);
    poke(DESK, 13, TWYNARVEL_PR);
    iocb(0x84, 0, 5);
    transfer(TWYNARVEL_READ, TWYNARVEL_RANDOM, 1, 99, 256);
    iocb(0xC2, 0, 5);
    transfer(TWYNARVEL_READ, TWYNARVEL_RANDOM, 3, 0, 2);
    iocb(0x82, 0, 5); /* PW, and two bytes are shorter than the record */
    transfer(TWYNARVEL_READ, TWYNARVEL_RANDOM, 0, 99, 1);
    iocb(0xC2, 0, 5);
    transfer(TWYNARVEL_READ, TWYNARVEL_RANDOM, 0, 0, 2);
    iocb(0x84, 0, 5);
    transfer(TWYNARVEL_READ, TWYNARVEL_RANDOM, 0, 0, 3);
    want(TASK, 0, "414243");
    want(DESK, 8, "00000000");
    iocb(0x00, 3, 5);
}

/* Write, then: $82, $84, $C2; sequential: $62, $63. No sector is free here: NEW has the last five. */
void order_of_write(void)
{
    rule("order: write");
    opening(TWYNARVEL_WRITE);
    put(IMAGE, 0x260, "01 00" FILE_NEW "0000 0000 000A 0005 0000");
    put(IMAGE, 0x101, "FF");
    put(DESK, 60, "01 00 0006 00 00 0000 00000000"); /* LUN 5: X of user 6, PR */
    check(TWYNARVEL_SOUND);
    transfer(TWYNARVEL_WRITE, TWYNARVEL_RANDOM, 5, 99, 255);
    iocb(0x82, 0, 6);
    transfer(TWYNARVEL_WRITE, TWYNARVEL_RANDOM, 1, 99, 255);
    iocb(0x84, 0, 5);
    transfer(TWYNARVEL_WRITE, TWYNARVEL_RANDOM, 1, 99, 256);
    iocb(0xC2, 0, 5);
    transfer(TWYNARVEL_WRITE, TWYNARVEL_RANDOM, 1, 0, 1024);
    iocb(0xC2, 0, 5);
    transfer(TWYNARVEL_WRITE, TWYNARVEL_RANDOM | TWYNARVEL_IMAGE, 4, 99, TWYNARVEL_RECORD_BYTES + 1);
    iocb(0x82, 0, 6);
    transfer(TWYNARVEL_WRITE, TWYNARVEL_RANDOM | TWYNARVEL_IMAGE, 0, 99, TWYNARVEL_RECORD_BYTES + 1);
    iocb(0x84, 0, 5);
    transfer(TWYNARVEL_WRITE, TWYNARVEL_RANDOM | TWYNARVEL_IMAGE, 0, 0, TWYNARVEL_RECORD_BYTES + 1);
    iocb(0x84, 0, 5);
    transfer(TWYNARVEL_WRITE, TWYNARVEL_RANDOM, 0, 99, TWYNARVEL_RECORD_BYTES);
    iocb(0x84, 0, 5); /* EE is no byte of a text */
    transfer(TWYNARVEL_WRITE, TWYNARVEL_RANDOM, 0, 0, TWYNARVEL_RECORD_BYTES);
    iocb(0x84, 0, 5);
    transfer(TWYNARVEL_WRITE, TWYNARVEL_RANDOM, 2, 99, 3);
    iocb(0x84, 0, 5); /* not the fixed length */
    transfer(TWYNARVEL_WRITE, TWYNARVEL_RANDOM | TWYNARVEL_IMAGE, 0, 6, TWYNARVEL_RECORD_BYTES);
    iocb(0xC2, 0, 5);
    transfer(TWYNARVEL_WRITE, TWYNARVEL_RANDOM | TWYNARVEL_IMAGE, 0, 4, TWYNARVEL_RECORD_BYTES);
    iocb(0x62, 0, 5);
    transfer(TWYNARVEL_WRITE, TWYNARVEL_RANDOM | TWYNARVEL_IMAGE, 0, 5, TWYNARVEL_RECORD_BYTES);
    iocb(0x63, 0, 5);
    transfer(TWYNARVEL_WRITE, TWYNARVEL_RANDOM | TWYNARVEL_IMAGE, 0, 5, 233);
    iocb(0x63, 0, 5); /* 22 + 2 + 233 + 1 = 258 bytes: one sector more */
    transfer(TWYNARVEL_WRITE, TWYNARVEL_RANDOM | TWYNARVEL_IMAGE, 0, 5, 232);
    want(IMAGE, 0x604, "00000100"); /* 256 bytes: the tail is filled, and no sector is needed */
    want(IMAGE, 0x23C, "00000006");
    want(IMAGE, 0x716, "00E8");
    want_fill(IMAGE, 0x718, 232, 0xEE);
    want(DESK, 8, "00000005");
    iocb(0x00, 232, 5);
}

/* Update, then: $82, $82 (contiguous), $84, $C2, $61. */
void order_of_update(void)
{
    rule("order: update");
    opening(TWYNARVEL_UPDATE);
    transfer(TWYNARVEL_UPDATE, TWYNARVEL_RANDOM | TWYNARVEL_IMAGE, 4, 99, TWYNARVEL_RECORD_BYTES + 1);
    iocb(0x82, 0, 6); /* PR does not write */
    transfer(TWYNARVEL_UPDATE, TWYNARVEL_RANDOM | TWYNARVEL_IMAGE, 1, 99, TWYNARVEL_RECORD_BYTES + 1);
    iocb(0x82, 0, 5); /* contiguous */
    transfer(TWYNARVEL_UPDATE, TWYNARVEL_RANDOM | TWYNARVEL_IMAGE, 0, 99, TWYNARVEL_RECORD_BYTES + 1);
    iocb(0x84, 0, 5);
    transfer(TWYNARVEL_UPDATE, TWYNARVEL_RANDOM | TWYNARVEL_IMAGE, 0, 0, TWYNARVEL_RECORD_BYTES + 1);
    iocb(0x84, 0, 5);
    transfer(TWYNARVEL_UPDATE, TWYNARVEL_RANDOM, 0, 99, 4);
    iocb(0x84, 0, 5); /* EE is no byte of a text */
    transfer(TWYNARVEL_UPDATE, TWYNARVEL_RANDOM, 0, 0, 4);
    iocb(0x84, 0, 5);
    transfer(TWYNARVEL_UPDATE, TWYNARVEL_RANDOM, 2, 0, 3);
    iocb(0x84, 0, 5); /* not the fixed length */
    transfer(TWYNARVEL_UPDATE, TWYNARVEL_RANDOM | TWYNARVEL_IMAGE, 0, 5, 4);
    iocb(0xC2, 0, 5);
    transfer(TWYNARVEL_UPDATE, TWYNARVEL_RANDOM | TWYNARVEL_IMAGE, 0, 0, 4);
    iocb(0x61, 0, 5);
    transfer(TWYNARVEL_UPDATE, TWYNARVEL_RANDOM | TWYNARVEL_IMAGE, 0, 3, 1);
    iocb(0x61, 0, 5); /* the empty record */
    transfer(TWYNARVEL_UPDATE, TWYNARVEL_RANDOM | TWYNARVEL_IMAGE, 0, 0, 3);
    want(IMAGE, 0x702, "EEEEEE");
    want(DESK, 8, "00000000");
    iocb(0x00, 3, 5);
}

/* Record k of LUN `lun`, whose file has the slot of that number, takes sector s, in segment g of its access block, then `len` sectors long. */
static void append(unsigned lun, unsigned k, unsigned s, unsigned g, unsigned len)
{
    size_t block = 256u * (3 + lun);
    of(lun, k);
    transfer(TWYNARVEL_WRITE, TWYNARVEL_NEXT | TWYNARVEL_IMAGE, lun, 0, 254);
    area[IMAGE].want[256 + s / 8] |= (uint8_t)(128 >> s % 8);
    want_word(block, g + 1);
    want_word(block + 2, k + 1);
    want_word(block + 4, (k + 1) / 256);
    want_word(block + 6, (k + 1) % 256 * 256);
    want_word(block + 8 + 4 * g, s + 1 - len);
    want_word(block + 10 + 4 * g, len);
    want_word(0x21E + 32 * lun, k + 1); /* the record count */
    want_word(256 * s, 254);
    memcpy(area[IMAGE].want + 256 * s + 2, area[TASK].at, 254);
    area[DESK].want[12 * lun + 5] = 1;
    area[DESK].want[12 * lun + 11] = (uint8_t)k;
    iocb(0x00, 254, 5);
}

/* Write of a 63rd segment: $63, then $65. Two files of 62 segments, side by side, each record filling a sector; T = 132, so two sectors are left. */
void order_of_segments(void)
{
    unsigned k;
    rule("order: write, segments");
    lend(IMAGE, 132 * 256, 0);
    put(IMAGE, 0, "564F4C31");
    want_fill(IMAGE, 0x100, 256, 0xFF);
    want_fill(IMAGE, 0x101, 15, 0);
    put(IMAGE, 0x100, "F8"); /* system 0 to 2, access blocks 3 and 4 */
    put(IMAGE, 0x110, "1F"); /* 131 and on */
    put(IMAGE, 0x200, "01 01" FILE_X "0000 0000 0003 00000000");
    put(IMAGE, 0x220, "01 01" FILE_Y "0000 0000 0004 00000000");
    put(IMAGE, 131 * 256, "0084 0082 0081 0001");
    lend(DESK, 192, 0);
    put(DESK, 0, "01 04 0005 00 00 0000 00000000");
    put(DESK, 12, "01 04 0005 01 00 0000 00000000");
    lend(TASK, TWYNARVEL_RECORD_BYTES, 0x5A);
    lend(SHARED, 0, 0);
    check(TWYNARVEL_SOUND + 126);
    for (k = 0; k < 62; k++) {
        append(0, k, 5 + 2 * k, k, 1);
        append(1, k, 6 + 2 * k, k, 1);
    }
    check(TWYNARVEL_SOUND + 2);
    transfer(TWYNARVEL_WRITE, TWYNARVEL_NEXT | TWYNARVEL_IMAGE, 0, 0, TWYNARVEL_RECORD_BYTES);
    iocb(0x63, 0, 5); /* 4,098 bytes are seventeen sectors */
    transfer(TWYNARVEL_WRITE, TWYNARVEL_NEXT | TWYNARVEL_IMAGE, 0, 0, 254);
    iocb(0x65, 0, 5);
    append(1, 62, 129, 61, 2); /* 129 follows the other file's last segment */
    transfer(TWYNARVEL_WRITE, TWYNARVEL_NEXT | TWYNARVEL_IMAGE, 0, 0, 254);
    iocb(0x65, 0, 5);
    append(1, 63, 130, 61, 3);
    transfer(TWYNARVEL_WRITE, TWYNARVEL_NEXT | TWYNARVEL_IMAGE, 0, 0, 254);
    iocb(0x63, 0, 5);
    check(TWYNARVEL_SOUND);
}
