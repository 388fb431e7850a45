/* The small volume, followed through; texts; contiguous and fixed files; places; format's limits; soundness. */
#include "check.h"

static void check_free(uint32_t sectors)
{
    check(TWYNARVEL_SOUND + sectors);
}

/* Document 01, "A small volume, followed through", and docs/RULES.md, "Worked example". Marked (D) there: what the images must hold. */
void story(void)
{
    unsigned k;
    rule("story: 1, format");
    lend(IMAGE, 4096, 0xA5);
    lend(DESK, 192, 0xFF);
    lend(TASK, 250, 0);
    lend(SHARED, 0, 0);
    lend(NAME, 4, 0);
    put(NAME, 0, "564F4C31");
    want_fill(IMAGE, 0, 4096, 0);
    want(IMAGE, 0x000, "564F4C31");
    want_fill(IMAGE, 0x100, 256, 0xFF);
    want(IMAGE, 0x100, "E0 01");
    want(IMAGE, 0xF00, "00 10 00 0E 00 0D 00 01");
    want_fill(DESK, 0, 192, 0);
    format(0x00, 1);
    check_free(12);

    rule("story: 2, allocate 3 contiguous sectors");
    name(FILE_X);
    want(IMAGE, 0x200, "01 00" FILE_X "0000 0000 0003 0003 0000");
    want(IMAGE, 0x100, "FC");
    allocate(0x00, 5, TWYNARVEL_CONTIGUOUS, 3, 0, 0);
    check_free(9);

    rule("story: 3, allocate a variable sequential file");
    name(FILE_Y);
    want(IMAGE, 0x220, "01 01" FILE_Y "0000 0000 0006 00000000");
    want(IMAGE, 0x100, "FE");
    allocate(0x00, 5, TWYNARVEL_SEQUENTIAL, 0, 0, 0);
    check_free(8);

    rule("story: 4, append ABC");
    want(DESK, 0, "01 04 0005 01 00 0000 00000000");
    assign(0x00, 5, 0, TWYNARVEL_PRPW, TWYNARVEL_AT_START, 0);
    put(TASK, 0, "414243");
    transfer(TWYNARVEL_WRITE, TWYNARVEL_NEXT, 0, 0, 3);
    want(IMAGE, 0x600, "0001 0001 00000006 0007 0001");
    want(IMAGE, 0x23C, "00000001"); /* the record count */
    want(IMAGE, 0x700, "0003 414243 00");
    want(IMAGE, 0x100, "FF");
    want(DESK, 0, "01 04 0005 01 01 0000 00000000");
    iocb(0x00, 3, 5);
    check_free(7);

    rule("story: 5, delete the contiguous file");
    name(FILE_X);
    want_fill(IMAGE, 0x200, 32, 0);
    want(IMAGE, 0x100, "E3");
    erase(0x00, 5);
    check_free(10);

    rule("story: 6, append 250 data bytes");
    for (k = 0; k < 250; k++)
        poke(TASK, k, 1 + k % 31); /* below the space, so that a text is stored as it is */
    transfer(TWYNARVEL_WRITE, TWYNARVEL_NEXT, 0, 0, 250);
    want(IMAGE, 0x600, "0002 0002 00000102 0007 0001 0003 0001");
    want(IMAGE, 0x23C, "00000002"); /* "After step 6 of the small volume the long word is 2" */
    want(IMAGE, 0x706, "00FA");
    memcpy(area[IMAGE].want + 0x708, area[TASK].at, 248);
    want_fill(IMAGE, 0x300, 256, 0); /* a new sector holds zeros but for the record's bytes: the last two */
    memcpy(area[IMAGE].want + 0x300, area[TASK].at + 248, 2);
    want(IMAGE, 0x100, "F3");
    want(DESK, 0, "01 04 0005 01 01 0000 00000001");
    iocb(0x00, 250, 5);
    check_free(9);
    mark(0);

    rule("story: 7, runs of 7 and 8 sectors");
    name(FILE_NEW);
    want(IMAGE, 0x200, "01 00" FILE_NEW "0000 0000 0008 0007 0000");
    want(IMAGE, 0x100, "F3 FF");
    allocate(0x00, 5, TWYNARVEL_CONTIGUOUS, 7, 0, 0);
    check_free(2);
    mark(1);
    back(0);
    allocate(0x63, 5, TWYNARVEL_CONTIGUOUS, 8, 0, 0);
    check_free(9);

    rule("story: 8, record 3, record 1, four bytes over three");
    transfer(TWYNARVEL_WRITE, TWYNARVEL_RANDOM, 0, 3, 4);
    iocb(0xC2, 0, 5);
    transfer(TWYNARVEL_WRITE, TWYNARVEL_RANDOM, 0, 1, 4);
    iocb(0x62, 0, 5);
    transfer(TWYNARVEL_UPDATE, TWYNARVEL_RANDOM, 0, 0, 4);
    iocb(0x61, 0, 5);

    rule("story: read back");
    lend(TASK, 250, 0xEE);
    rewind_of(0);
    want(DESK, 0, "01 04 0005 01 00 0000 00000000");
    iocb(0x00, 0, 5);
    transfer(TWYNARVEL_READ, TWYNARVEL_CURRENT, 0, 0, 250);
    iocb(0x82, 0, 5); /* Current when Fresh */
    transfer(TWYNARVEL_READ, TWYNARVEL_PRIOR, 0, 0, 250);
    iocb(0x82, 0, 5); /* Prior when Fresh */
    transfer(TWYNARVEL_READ, TWYNARVEL_NEXT, 0, 0, 250);
    want(TASK, 0, "414243");
    want(DESK, 0, "01 04 0005 01 01 0000 00000000");
    iocb(0x00, 3, 5);
    transfer(TWYNARVEL_READ, TWYNARVEL_PRIOR, 0, 0, 250);
    iocb(0x82, 0, 5); /* Prior at record 0 */
    transfer(TWYNARVEL_READ, TWYNARVEL_NEXT, 0, 0, 250);
    for (k = 0; k < 250; k++)
        area[TASK].want[k] = (uint8_t)(1 + k % 31);
    want(DESK, 0, "01 04 0005 01 01 0000 00000001");
    iocb(0x00, 250, 5);
    transfer(TWYNARVEL_READ, TWYNARVEL_NEXT, 0, 0, 250);
    iocb(0xC2, 0, 5); /* the end; the place stays */
    transfer(TWYNARVEL_READ, TWYNARVEL_CURRENT, 0, 0, 250);
    iocb(0x00, 250, 5);
    transfer(TWYNARVEL_READ, TWYNARVEL_CURRENT, 0, 0, 249);
    iocb(0x84, 0, 5); /* one byte shorter than the record */
    transfer(TWYNARVEL_READ, TWYNARVEL_PRIOR, 0, 0, 3);
    want(TASK, 0, "414243");
    want(DESK, 0, "01 04 0005 01 01 0000 00000000");
    iocb(0x00, 3, 5);
    transfer(TWYNARVEL_READ, TWYNARVEL_RANDOM, 0, 1, 250);
    want(TASK, 0, "010203");
    want(DESK, 0, "01 04 0005 01 01 0000 00000001");
    iocb(0x00, 250, 5);
    transfer(TWYNARVEL_READ, TWYNARVEL_RANDOM, 0, 2, 250);
    iocb(0xC2, 0, 5);

    rule("story: 11, 129 spaces");
    back(1);
    lend(TASK, 129, 0x20);
    transfer(TWYNARVEL_WRITE, TWYNARVEL_NEXT, 0, 0, 129);
    want(IMAGE, 0x604, "00000106");
    want(IMAGE, 0x23C, "00000003");
    want(IMAGE, 0x302, "0002 FF82");
    want(DESK, 0, "01 04 0005 01 01 0000 00000002");
    iocb(0x00, 129, 5);
    check_free(2);
    transfer(TWYNARVEL_READ, TWYNARVEL_CURRENT, 0, 0, 128);
    iocb(0x84, 0, 5);
    transfer(TWYNARVEL_UPDATE, TWYNARVEL_CURRENT, 0, 0, 128);
    want(IMAGE, 0x304, "FF20");
    iocb(0x00, 128, 5);
    lend(TASK, 128, 0xEE);
    transfer(TWYNARVEL_READ, TWYNARVEL_CURRENT, 0, 0, 128);
    want_fill(TASK, 0, 128, 0x20);
    iocb(0x00, 128, 5);
    transfer(TWYNARVEL_UPDATE, TWYNARVEL_CURRENT, 0, 0, 2);
    iocb(0x61, 0, 5); /* stored as 82: one byte, and the record has two */

    rule("story: close");
    want_fill(DESK, 0, 12, 0);
    release(0x00, 5, 0);
}

/* Appends to the small volume's Y, whose last record is number 4, and reads it back: as text, and unformatted. */
static void text(unsigned spaces, const char *packed, size_t stored)
{
    size_t k;
    of(spaces, 0);
    house(spaces, 0);
    put(DESK, 8, "00000004");
    memset(area[TASK].at, 0x20, spaces);
    memset(area[TASK].want, 0x20, spaces);
    transfer(TWYNARVEL_WRITE, TWYNARVEL_NEXT, 0, 0, spaces);
    area[IMAGE].want[0x607] = (uint8_t)(0x16 + 2 + stored + stored % 2);
    want(IMAGE, 0x23C, "00000006");
    area[IMAGE].want[0x717] = (uint8_t)stored;
    want(IMAGE, 0x718, packed);
    want(DESK, 8, "00000005");
    iocb(0x00, spaces, 5);
    memset(area[TASK].at, 0xEE, spaces);
    transfer(TWYNARVEL_READ, TWYNARVEL_CURRENT, 0, 0, spaces);
    iocb(0x00, spaces, 5);
    for (k = 0; k < spaces; k++) /* unformatted: the stored bytes, in the first of them */
        poke(TASK, k, 0xEE);
    want(TASK, 0, packed);
    transfer(TWYNARVEL_READ, TWYNARVEL_CURRENT | TWYNARVEL_IMAGE, 0, 0, spaces);
    iocb(0x00, (uint32_t)stored, 5);
    if (spaces > 1) { /* a text one longer than the part */
        transfer(TWYNARVEL_READ, TWYNARVEL_CURRENT, 0, 0, spaces - 1);
        iocb(0x84, 0, 5);
    }
}

/* Request 1: "a run of spaces goes out as $FF (127) while more than 127 remain; a rest of 2 to 127 becomes one byte, a rest of 1 stays $20". */
void texts(void)
{
    rule("texts: spaces, packed");
    text(1, "20", 1);
    text(2, "82", 1);
    text(3, "83", 1);
    text(126, "FE", 1);
    text(127, "FF", 1);
    text(128, "FF20", 2);
    text(129, "FF82", 2);
    text(254, "FFFF", 2);
    text(255, "FFFF20", 3);
    text(256, "FFFF82", 3);
    text(1024, "FFFFFFFFFFFFFFFF 88", 9);
    text(TWYNARVEL_RECORD_BYTES, "FFFFFFFFFFFFFFFF FFFFFFFFFFFFFFFF FFFFFFFFFFFFFFFF FFFFFFFFFFFFFFFF A0", 33); /* 32 times 127, and 32 */

    rule("texts: letters between spaces");
    house(7, 0);
    put(DESK, 8, "00000004");
    put(TASK, 0, "41 20 42 2020 7F 20");
    transfer(TWYNARVEL_WRITE, TWYNARVEL_NEXT, 0, 0, 7);
    want(IMAGE, 0x604, "0000001E");
    want(IMAGE, 0x23C, "00000006");
    want(IMAGE, 0x716, "0006 41 20 42 82 7F 20");
    want(DESK, 8, "00000005");
    iocb(0x00, 7, 5);

    rule("texts: a byte of $80 or more is $84, of a text alone");
    house(3, 0);
    put(DESK, 8, "00000004");
    put(TASK, 0, "41 80 42");
    transfer(TWYNARVEL_WRITE, TWYNARVEL_NEXT, 0, 0, 3);
    iocb(0x84, 0, 5);
    transfer(TWYNARVEL_UPDATE, TWYNARVEL_CURRENT, 0, 0, 3);
    iocb(0x84, 0, 5);
    put(TASK, 0, "41 42 FF");
    transfer(TWYNARVEL_UPDATE, TWYNARVEL_CURRENT | TWYNARVEL_BINARY, 0, 0, 3);
    want(IMAGE, 0x712, "4142FF");
    iocb(0x00, 3, 5);
    transfer(TWYNARVEL_WRITE, TWYNARVEL_NEXT | TWYNARVEL_IMAGE, 0, 0, 3);
    want(IMAGE, 0x604, "0000001C");
    want(IMAGE, 0x23C, "00000006");
    want(IMAGE, 0x716, "0003 4142FF 00");
    want(DESK, 8, "00000005");
    iocb(0x00, 3, 5);
}

/* Contiguous transfers: 1 to 16 whole sectors; a read takes what there is; a write all or nothing; the text option is ignored. */
void sectors(void)
{
    unsigned k;
    rule("contiguous: reads");
    house(1024, 0);
    transfer(TWYNARVEL_READ, TWYNARVEL_NEXT, 1, 0, 256);
    want_fill(TASK, 0, 256, 0x33);
    want(DESK, 12, "01 04 0005 00 01 0000 00000000");
    iocb(0x00, 256, 5);
    transfer(TWYNARVEL_READ, TWYNARVEL_NEXT, 1, 0, 1024); /* room for four, and two are left */
    want_fill(TASK, 0, 256, 0x44);
    want_fill(TASK, 256, 256, 0x55);
    want(DESK, 12, "01 04 0005 00 02 0000 00000001");
    iocb(0x00, 512, 5);
    transfer(TWYNARVEL_READ, TWYNARVEL_NEXT, 1, 0, 256);
    iocb(0xC2, 0, 5);
    transfer(TWYNARVEL_READ, TWYNARVEL_RANDOM, 1, 3, 256);
    iocb(0xC2, 0, 5);
    transfer(TWYNARVEL_READ, TWYNARVEL_PRIOR, 1, 0, 768);
    want_fill(TASK, 0, 256, 0x33);
    want_fill(TASK, 256, 256, 0x44);
    want_fill(TASK, 512, 256, 0x55);
    want(DESK, 12, "01 04 0005 00 03 0000 00000000");
    iocb(0x00, 768, 5);

    rule("contiguous: lengths");
    house(4352, 0);
    transfer(TWYNARVEL_READ, TWYNARVEL_NEXT, 1, 0, 1);
    iocb(0x84, 0, 5);
    transfer(TWYNARVEL_READ, TWYNARVEL_NEXT, 1, 0, 255);
    iocb(0x84, 0, 5);
    transfer(TWYNARVEL_READ, TWYNARVEL_NEXT, 1, 0, 257);
    iocb(0x84, 0, 5);
    transfer(TWYNARVEL_READ, TWYNARVEL_NEXT, 1, 0, 4352);
    iocb(0x84, 0, 5);
    transfer(TWYNARVEL_WRITE, TWYNARVEL_NEXT, 1, 0, 4352);
    iocb(0x84, 0, 5);
    transfer(TWYNARVEL_READ, TWYNARVEL_NEXT, 1, 0, 4096);
    want_fill(TASK, 0, 256, 0x33);
    want_fill(TASK, 256, 256, 0x44);
    want_fill(TASK, 512, 256, 0x55);
    want(DESK, 12, "01 04 0005 00 03 0000 00000000");
    iocb(0x00, 768, 5);

    rule("contiguous: sixteen sectors at once, of twenty");
    lend(IMAGE, 40 * 256, 0);
    put(IMAGE, 0, "564F4C31");
    want_fill(IMAGE, 0x100, 256, 0xFF);
    put(IMAGE, 0x100, "FFFFFE 00 01"); /* 0 to 22; 39 and on */
    put(IMAGE, 0x200, "01 00" FILE_X "0000 0000 0003 0014 0000");
    for (k = 0; k < 20; k++)
        want_fill(IMAGE, 256u * (3 + k), 256, (int)(0x80 + k));
    put(IMAGE, 39 * 256, "0028 0026 0025 0001");
    check_free(16);
    lend(DESK, 192, 0);
    put(DESK, 12, "01 04 0005 00 00 0000 00000000");
    lend(TASK, 4096, 0xEE);
    transfer(TWYNARVEL_READ, TWYNARVEL_NEXT, 1, 0, 4096);
    for (k = 0; k < 16; k++)
        want_fill(TASK, 256u * k, 256, (int)(0x80 + k));
    want(DESK, 12, "01 04 0005 00 10 0000 00000000");
    iocb(0x00, 4096, 5);
    transfer(TWYNARVEL_READ, TWYNARVEL_NEXT, 1, 0, 4096);
    for (k = 0; k < 4; k++)
        want_fill(TASK, 256u * k, 256, (int)(0x90 + k));
    want(DESK, 12, "01 04 0005 00 04 0000 00000010");
    iocb(0x00, 1024, 5);
    transfer(TWYNARVEL_WRITE, TWYNARVEL_RANDOM, 1, 4, 4096);
    for (k = 0; k < 4; k++)
        want_fill(IMAGE, 256u * (7 + k), 256, (int)(0x90 + k));
    for (k = 4; k < 16; k++)
        want_fill(IMAGE, 256u * (7 + k), 256, (int)(0x80 + k));
    want(DESK, 12, "01 04 0005 00 10 0000 00000004");
    iocb(0x00, 4096, 5);
    transfer(TWYNARVEL_WRITE, TWYNARVEL_RANDOM, 1, 5, 4096);
    iocb(0xC2, 0, 5);

    rule("contiguous: writes");
    house(0, 1024);
    request(0, TWYNARVEL_WRITE, TWYNARVEL_RANDOM, 1, 1, 0x80000000, 0x800002FF);
    iocb(0xC2, 0, 5); /* three sectors from 1 on would cross the end */
    request(0, TWYNARVEL_WRITE, TWYNARVEL_RANDOM, 1, 3, 0x80000000, 0x800000FF);
    iocb(0xC2, 0, 5);
    request(0, TWYNARVEL_WRITE, TWYNARVEL_RANDOM, 1, 1, 0x80000100, 0x800002FF);
    want_fill(IMAGE, 0x400, 512, 0xDD); /* DD is no text: the option does not count */
    want(DESK, 12, "01 04 0005 00 02 0000 00000001");
    iocb(0x00, 512, 5);
    request(0, TWYNARVEL_UPDATE, TWYNARVEL_RANDOM, 1, 0, 0x80000000, 0x800000FF);
    iocb(0x82, 0, 5); /* update of a contiguous file */
}

/* A fixed file takes its record length alone, and no text. */
void fixed(void)
{
    rule("fixed records");
    house(5, 0);
    put(TASK, 0, "20 20 80 FF 20");
    transfer(TWYNARVEL_READ, TWYNARVEL_NEXT, 2, 0, 3);
    iocb(0x84, 0, 5);
    transfer(TWYNARVEL_WRITE, TWYNARVEL_RANDOM, 2, 2, 3);
    iocb(0x84, 0, 5);
    transfer(TWYNARVEL_WRITE, TWYNARVEL_RANDOM, 2, 2, 5);
    iocb(0x84, 0, 5);
    transfer(TWYNARVEL_WRITE, TWYNARVEL_RANDOM, 2, 2, 4);
    want(IMAGE, 0x804, "0000000C");
    want(IMAGE, 0x25C, "00000003");
    want(IMAGE, 0x908, "2020 80FF");
    want(DESK, 24, "01 04 0005 02 01 0000 00000002");
    iocb(0x00, 4, 5);
    transfer(TWYNARVEL_UPDATE, TWYNARVEL_PRIOR, 2, 0, 4);
    want(IMAGE, 0x904, "2020 80FF");
    want(DESK, 24, "01 04 0005 02 01 0000 00000001");
    iocb(0x00, 4, 5);
    transfer(TWYNARVEL_READ, TWYNARVEL_PRIOR, 2, 0, 5);
    want(TASK, 0, "57 58 59 5A 20");
    want(DESK, 24, "01 04 0005 02 01 0000 00000000");
    iocb(0x00, 4, 5);
}

/* "Assign gives Fresh, or with position-at-end and a writing mode At the last record or sector, n = 1 (Fresh if there is none)." */
void places(void)
{
    static const uint32_t ends[4] = {1, 2, 0x100, 0x80000000};
    unsigned k;
    for (k = 0; k < 4; k++) {
        rule("at the end: any number but 0");
        of(ends[k], 0);
        house(8, 0);
        name(FILE_Y);
        want(DESK, 60, "01 04 0005 01 01 0000 00000004");
        assign(0x00, 5, 5, TWYNARVEL_PRPW, ends[k], 0);
        name(FILE_X);
        want(DESK, 72, "01 02 0000 00 01 0000 00000002");
        assign(0x00, 0, 6, TWYNARVEL_PW, ends[k], 0); /* user 0 has the right to every file */
        name(FILE_Z);
        want(DESK, 180, "01 00 FFFD 02 00 0000 00000000");
        assign(0x00, 65533, 15, TWYNARVEL_PR, ends[k], 0); /* a mode that does not write: Fresh */
    }
    rule("places above 255");
    house(1, 0);
    put(IMAGE, 0x259, "01"); /* Z of 512 records of one byte, in sectors 9 and 10 */
    put(IMAGE, 0x800, "0001 0002 00000200 0009 0002");
    put(IMAGE, 0x25C, "00000200");
    put(IMAGE, 0x101, "E1");
    put(IMAGE, 0xA2C, "77");
    transfer(TWYNARVEL_READ, TWYNARVEL_RANDOM, 2, 0x12C, 1);
    want(TASK, 0, "77");
    want(DESK, 24, "01 04 0005 02 01 0000 0000012C");
    iocb(0x00, 1, 5);
    name(FILE_Z);
    want(DESK, 180, "01 04 0005 02 01 0000 000001FF");
    assign(0x00, 5, 15, TWYNARVEL_PRPW, TWYNARVEL_AT_END, 0);
    transfer(TWYNARVEL_READ, TWYNARVEL_NEXT, 15, 0, 1);
    iocb(0xC2, 0, 5);
    rule("at the start");
    house(8, 0);
    name(FILE_Y);
    want(DESK, 60, "01 04 0005 01 00 0000 00000000");
    assign(0x00, 5, 5, TWYNARVEL_PRPW, TWYNARVEL_AT_START, 0);
    rule("at the end of a file with no record");
    house(8, 0);
    want(IMAGE, 0x260, "01 01" FILE_NEW "0000 0000 000A 00000000"); /* access block 10 */
    want_word(0x278, TWYNARVEL_RECORD_BYTES);
    want(IMAGE, 0x101, "E1");
    allocate(0x00, 0, TWYNARVEL_SEQUENTIAL, 0, TWYNARVEL_RECORD_BYTES, 0);
    want(DESK, 60, "01 07 0005 03 00 0000 00000000");
    assign(0x00, 5, 5, TWYNARVEL_EREW, TWYNARVEL_AT_END, 0);
    rule("numbers are not cut to fewer bits");
    house(8, 0);
    name(FILE_X);
    assign(0x03, 5, 16, 0, 0, 0);
    assign(0x03, 5, 256 + 9, 0, 0, 0);
    assign(0x03, 65536 + 5, 9, 0, 0, 0);
    assign(0x02, 5, 9, 8, 0, 0);
    assign(0x02, 5, 9, 256, 0, 0);
    release(0x03, 5, 256);
    release(0x03, 65536 + 5, 0);
    erase(0x03, 65536 + 5);
    name(FILE_NEW);
    allocate(0x02, 5, 2, 1, 0, 0);
    allocate(0x02, 5, 256, 1, 0, 0);
    allocate(0x60, 5, 0, 65536 + 1, 0, 0);
    allocate(0x60, 5, 0, 1, 65536, 0);
    allocate(0x60, 5, 1, 65536, 0, 0);
    allocate(0x60, 5, 1, 0, 65536, 0);
    allocate(0x60, 5, 1, 0, TWYNARVEL_RECORD_BYTES + 1, 0);
    allocate(0x60, 5, 0, 2049, 0, 0);
    allocate(0x63, 5, 0, 2048, 0, 0);
    rewind_of(16);
    iocb(0x03, 0, 5);
    rewind_of(255);
    iocb(0x03, 0, 5);
    rewind_of(1);
    iocb(0x03, 0, 65536 + 5);
    iocb(0x03, 0, 0xFFFFFFFF);
}

static void format_of(size_t bytes, uint32_t dirs, const char *id, size_t id_len, uint32_t status)
{
    of((unsigned)bytes, dirs);
    lend(IMAGE, bytes, 0xA5);
    lend(DESK, 192, 0x77);
    lend(NAME, id_len, 0);
    put(NAME, 0, id);
    if (status == 0x00) { /* VID; SAT in sector 1, directory from 2; the trailer's words T, T-2, T-3, D */
        unsigned t = (unsigned)(bytes / 256), s;
        uint8_t *image = area[IMAGE].want, *trailer = image + bytes - 256;
        want_fill(IMAGE, 0, bytes, 0);
        memcpy(image, area[NAME].at, 4);
        for (s = 0; s < 2048; s++)
            if (s < 2 + dirs || s + 1 >= t)
                image[256 + s / 8] |= (uint8_t)(128 >> s % 8);
        trailer[0] = (uint8_t)(t / 256), trailer[1] = (uint8_t)t;
        trailer[2] = (uint8_t)((t - 2) / 256), trailer[3] = (uint8_t)(t - 2);
        trailer[4] = (uint8_t)((t - 3) / 256), trailer[5] = (uint8_t)(t - 3);
        trailer[7] = (uint8_t)dirs;
        want_fill(DESK, 0, 192, 0);
    }
    format(status, dirs);
    if (status == 0x00)
        check_free((uint32_t)(bytes / 256 - 3 - dirs));
}

/* Step 10: "T=15 and T=2,049: $60". D is 1 to 8, an ID is a letter, then letters and digits, then spaces, in four bytes. */
void formats(void)
{
    uint32_t d;
    lend(TASK, 0, 0);
    lend(SHARED, 0, 0);
    rule("format: directory sectors");
    for (d = 0; d < 12; d++)
        format_of(4096, d, "564F4C31", 4, d >= 1 && d <= 8 ? 0x00 : 0x60);
    format_of(4096, 257, "564F4C31", 4, 0x60);
    format_of(4096, 0x80000001, "564F4C31", 4, 0x60);
    rule("format: lengths of the image");
    format_of(0, 1, "564F4C31", 4, 0x60);
    format_of(15 * 256, 1, "564F4C31", 4, 0x60);
    format_of(4095, 1, "564F4C31", 4, 0x60);
    format_of(4097, 1, "564F4C31", 4, 0x60);
    format_of(4096 + 255, 1, "564F4C31", 4, 0x60);
    format_of(17 * 256, 8, "564F4C31", 4, 0x00);
    format_of(2048 * 256, 8, "564F4C31", 4, 0x00);
    format_of(2048 * 256 + 1, 8, "564F4C31", 4, 0x60);
    format_of(2049 * 256, 8, "564F4C31", 4, 0x60);
    rule("format: IDs");
    format_of(4096, 1, "41202020", 4, 0x00);
    format_of(4096, 1, "5A393020", 4, 0x00);
    format_of(4096, 1, "31414141", 4, 0x60); /* a digit first */
    format_of(4096, 1, "61414141", 4, 0x60); /* a small letter */
    format_of(4096, 1, "20202020", 4, 0x60);
    format_of(4096, 1, "41204120", 4, 0x60); /* a letter after a space */
    format_of(4096, 1, "41414140", 4, 0x60);
    format_of(4096, 1, "4141415B", 4, 0x60);
    format_of(4096, 1, "4141413A", 4, 0x60);
    format_of(4096, 1, "4141412F", 4, 0x60);
    format_of(4096, 1, "C1414141", 4, 0x60);
    format_of(4096, 1, "414141", 3, 0x60);
    format_of(4096, 1, "4141414141", 5, 0x60);
    format_of(4096, 1, "", 0, 0x60);
}

/* Byte by byte of Y's entry and access block in the small volume: with which values the volume is still sound. */
int entry_byte(unsigned byte, unsigned v)
{
    int letter = v >= 'A' && v <= 'Z', digit = v >= '0' && v <= '9', space = v == ' ';
    switch (byte) {
    case 0: case 1: return v == 1;
    case 2: case 3: return 1; /* users 5 to 65,285 and 0 to 255 */
    case 4: return letter || space; /* a catalog of one letter, or of none */
    case 12: return letter && v != 'X' && v != 'Z'; /* those two names are taken */
    case 13: case 21: return letter || digit || space;
    case 20: return letter;
    case 23: return 1; /* the read-protect code of a file of user 5 */
    case 27: return v == 6;
    case 31: return v == 5; /* the record count */
    default: return byte < 20 ? space : v == 0; /* catalog and filename after a space; bytes that are zero; no fixed length has 5 records */
    }
}

int block_byte(unsigned byte, unsigned v)
{
    switch (byte) {
    case 1: case 3: case 11: return v == 1; /* segments, total, the segment's length */
    case 7: return v == 22; /* E: zeros after the last record are empty records, and not of the count */
    case 9: return v == 7;
    default: return v == 0;
    }
}

int trailer_byte(unsigned byte, unsigned v)
{
    static const uint8_t only[8] = {0x00, 0x10, 0x00, 0x0E, 0x00, 0x0D, 0x00, 0x01};
    return v == (byte < 8 ? only[byte] : 0);
}

static void each_value(const char *text, size_t from, unsigned bytes, int (*good)(unsigned byte, unsigned v))
{
    unsigned byte, v;
    rule(text);
    house(0, 0);
    for (byte = 0; byte < bytes; byte++) {
        unsigned old = area[IMAGE].at[from + byte];
        for (v = 0; v < 256; v++) {
            if (byte >= 32 && v > 1 && v < 0xFF)
                continue; /* bytes that have to be zero: a few values will do */
            of(byte, v);
            poke(IMAGE, from + byte, v);
            check(good(byte, v) ? TWYNARVEL_SOUND + 5 : 0);
        }
        poke(IMAGE, from + byte, old);
    }
}

/* Y with another record length or another E, and with each record count: 22 bytes are fixed records of 1, 2, 11 or 22 bytes. */
static void other_counts(void)
{
    unsigned e, n;
    rule("check: a record count (length or E, count)");
    house(0, 0);
    for (e = 0; e < 256; e++) {
        poke(IMAGE, 0x239, e);
        for (n = 0; n < 24; n++) {
            of(e, n);
            poke(IMAGE, 0x23F, n);
            check((e == 0 && n == 5) || (e != 0 && e * n == 22) ? TWYNARVEL_SOUND + 5 : 0);
        }
    }
    poke(IMAGE, 0x239, 0);
    for (e = 0; e < 256; e++) {
        poke(IMAGE, 0x607, e);
        for (n = (unsigned)after_fence; n < 256; n += 2) { /* half of them in each round: they are many */
            of(e, n);
            poke(IMAGE, 0x23F, n);
            check(n >= 5 && e == 22 + 2 * (n - 5) ? TWYNARVEL_SOUND + 5 : 0);
        }
    }
}

/* The small volume in another length: 256 times T is 4,096. */
static void other_lengths(void)
{
    size_t len;
    rule("an image of another length");
    house(8, 8);
    mark(0);
    name(FILE_X);
    for (len = 3800; len <= 4400; len++) {
        if (len == 4096)
            continue;
        of((unsigned)len, 0);
        back_as(0, len);
        check(0);
        rewind_of(1);
        iocb(0x6F, 0, 5);
        transfer(TWYNARVEL_WRITE, TWYNARVEL_NEXT, 0, 0, 8);
        iocb(0x6F, 0, 5);
        allocate(0x6F, 65534, 1, 0, 0, 0);
        assign(0x6F, 65534, 9, 0, 0, 0);
        release(0x6F, 65534, 0);
        erase(0x6F, 65534);
    }
}

/* Check, of an empty volume in which one byte is another: only sector 0's text and free sectors may hold anything. */
void soundness(void)
{
    unsigned at, s;
    rule("check: one byte inverted");
    lend(TASK, 0, 0);
    lend(SHARED, 0, 0);
    format_of(4096, 1, "564F4C31", 4, 0x00);
    for (at = 0; at < 4096; at++) {
        unsigned byte = area[IMAGE].at[at], sector = at / 256;
        of(at, 0);
        poke(IMAGE, at, byte ^ 0xFF);
        check((sector == 0 && at >= 4) || (sector >= 3 && sector <= 14) ? TWYNARVEL_SOUND + 12 : 0);
        poke(IMAGE, at, byte);
    }
    rule("check: one bit of the SAT inverted");
    for (s = 0; s < 2048; s++) {
        of(s, 0);
        poke(IMAGE, 256 + s / 8, area[IMAGE].at[256 + s / 8] ^ 128u >> s % 8);
        check(0);
        poke(IMAGE, 256 + s / 8, area[IMAGE].at[256 + s / 8] ^ 128u >> s % 8);
    }
    each_value("check: the trailer (byte, value)", 0xF00, 256, trailer_byte);
    each_value("check: an entry (byte, value)", 0x220, 32, entry_byte);
    each_value("check: an access block (byte, value)", 0x600, 256, block_byte);
    other_counts();
    rule("check: a stream");
    house(0, 0);
    poke(IMAGE, 0x71F, 1); /* the tail of Y's last sector is not zero */
    check(0);
    house(0, 0);
    poke(IMAGE, 0x705, 1); /* the byte after data of odd length is not zero */
    check(0);
    house(0, 0);
    poke(IMAGE, 0x700, (TWYNARVEL_RECORD_BYTES + 1) / 256); /* a count above the limit, and past E */
    poke(IMAGE, 0x701, (TWYNARVEL_RECORD_BYTES + 1) % 256);
    check(0);
    other_lengths();
}
