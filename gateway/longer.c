/*
 * Longer records. Request 7 of document 02 says: "Raise the record limit from 1,024 to 4,096 for both kinds of sequential file, in soundness,
 * allocate and transfers; the packed text limit rises too. One append may then need as many as 17 new sectors, where 5 was the most"; "Every
 * refusal at 1,025 moves to 4,097". Each limit is met here from both sides. The small volume of the other sections has no room for such a
 * record: the volumes here have 64 and 132 sectors, and what has to become of them is written out by docs/RULES.md.
 */
#include "check.h"

enum { SECTOR = TWYNARVEL_SECTOR_BYTES, LIMIT = TWYNARVEL_RECORD_BYTES, LONGEST_TEXT = 127 * LIMIT, SETTLED = 1 };

/* ---- volumes */

/* The sector's bit in the SAT, which is sector 1 here. */
static void set_free(unsigned s, int is_free)
{
    uint8_t *byte = area[IMAGE].want + SECTOR + s / 8;
    unsigned bit = 128u >> s % 8;
    *byte = (uint8_t)(is_free ? *byte & ~bit : *byte | bit);
}

/* What is sent: no space and no byte of $80 or more is among it, so that a text of it is stored as it is. */
static unsigned sent(size_t k)
{
    return 0x21 + (unsigned)(k % 89);
}

static void send(size_t len, size_t from)
{
    size_t k;
    lend(TASK, len, 0);
    for (k = 0; k < len; k++)
        poke(TASK, k, sent(from + k));
}

/*
 * What both volumes have: SAT in sector 1, directory in sector 2, Y (slot 0, variable) with access block 3 and Z (slot 1, fixed of 4,096
 * bytes) with access block 4, neither of them with a record; LUN 0 holds Y and LUN 1 Z for user 5, PRPW, Fresh. The other sectors hold A5,
 * and none is free yet.
 */
static void ground(unsigned t)
{
    size_t trailer = SECTOR * (size_t)(t - 1);
    lend(IMAGE, SECTOR * (size_t)t, 0xA5);
    want_fill(IMAGE, 0, 5 * SECTOR, 0);
    want(IMAGE, 0x000, "564F4C31");
    want_fill(IMAGE, 0x100, SECTOR, 0xFF);
    want(IMAGE, 0x200, "01 01" FILE_Y "0000 0000 0003 00000000");
    want(IMAGE, 0x220, "01 01" FILE_Z "0000 0000 0004 00000000");
    want_word(0x238, LIMIT);
    want_fill(IMAGE, trailer, SECTOR, 0);
    want_word(trailer, t);
    want_word(trailer + 2, t - 2);
    want_word(trailer + 4, t - 3);
    want_word(trailer + 6, 1);
    lend(DESK, TWYNARVEL_DESK_BYTES, 0);
    put(DESK, 0, "01 04 0005 00 00 0000 00000000");
    put(DESK, 12, "01 04 0005 01 00 0000 00000000");
    lend(SHARED, 0, 0);
    lend(REPORT, TWYNARVEL_REPORT_BYTES, 0xBB);
    name(FILE_NEW);
}

/* 64 sectors. The first so many from 5 on are free, 57 at most; X (slot 2, contiguous) has the others up to the trailer, which is 63. */
static void hall(unsigned free_sectors, size_t len)
{
    unsigned s;
    ground(64);
    for (s = 5; s < 5 + free_sectors; s++)
        set_free(s, 1);
    want(IMAGE, 0x240, "01 00" FILE_X "0000 0000 0000 0000 0000");
    want_word(0x25A, 5 + free_sectors);
    want_word(0x25C, 58 - free_sectors);
    put(IMAGE, 0, "");
    send(len, 0);
}

/* An access block with one segment, from sector 5 on, or with none. */
static void one_segment(size_t block, unsigned sectors, unsigned e)
{
    want_word(block, sectors ? 1 : 0);
    want_word(block + 2, sectors);
    want_word(block + 6, e);
    want_word(block + 8, sectors ? 5 : 0);
    want_word(block + 10, sectors);
}

/* ---- records of 4,096 bytes */

/* Y's first record is one of 4,096 bytes: 4,098 with the count word, in 17 sectors, 5 to 21. The last has two of them, and zeros. */
static void first_long(const char *sat, const uint8_t *data)
{
    want(IMAGE, 0x100, sat);
    want(IMAGE, 0x21C, "00000001");
    want(IMAGE, 0x300, "0001 0011 00001002 0005 0011");
    want(IMAGE, 0x500, "1000");
    memcpy(area[IMAGE].want + 0x502, data, LIMIT);
    want_fill(IMAGE, 0x1502, 254, 0);
    want(DESK, 0, "01 04 0005 00 01 0000 00000000");
    iocb(0x00, 4096, 5);
}

/* Such a record, sent as bytes or as a text, by these options. */
static void seat_plan(unsigned form)
{
    rule("records: 4,096 bytes are taken, 4,097 are $84 (options)");
    of(form, 0);
    hall(20, LIMIT + 1);
    check(TWYNARVEL_SOUND + 20);
    transfer(TWYNARVEL_WRITE, TWYNARVEL_NEXT | form, 0, 0, LIMIT + 1);
    iocb(0x84, 0, 5);
    transfer(TWYNARVEL_WRITE, TWYNARVEL_NEXT | form, 0, 0, LIMIT);
    first_long("FF FF FC 7F", area[TASK].at); /* it was F8 00 00 7F: 5 to 24 were free */
    check(TWYNARVEL_SOUND + 3);

    rule("records of 4,096 bytes: read (options)");
    of(form, 0);
    lend(TASK, LIMIT + 1, 0xEE);
    transfer(TWYNARVEL_READ, TWYNARVEL_CURRENT | form, 0, 0, LIMIT - 1);
    iocb(0x84, 0, 5);
    transfer(TWYNARVEL_READ, TWYNARVEL_CURRENT | form, 0, 0, LIMIT + 1);
    memcpy(area[TASK].want, area[IMAGE].at + 0x502, LIMIT);
    iocb(0x00, 4096, 5);
    transfer(TWYNARVEL_READ, TWYNARVEL_CURRENT | form, 0, 0, LIMIT);
    iocb(0x00, 4096, 5);

    rule("records of 4,096 bytes: updated (options)");
    of(form, 0);
    send(LIMIT + 1, 7);
    transfer(TWYNARVEL_UPDATE, TWYNARVEL_CURRENT | form, 0, 0, LIMIT + 1);
    iocb(0x84, 0, 5);
    transfer(TWYNARVEL_UPDATE, TWYNARVEL_RANDOM | form, 0, 1, LIMIT + 1);
    iocb(0x84, 0, 5); /* also of a record that is not there */
    transfer(TWYNARVEL_UPDATE, TWYNARVEL_RANDOM | form, 0, 1, LIMIT);
    iocb(0xC2, 0, 5);
    transfer(TWYNARVEL_UPDATE, TWYNARVEL_CURRENT | form, 0, 0, LIMIT - 1);
    iocb(0x61, 0, 5);
    transfer(TWYNARVEL_UPDATE, TWYNARVEL_CURRENT | form, 0, 0, LIMIT);
    memcpy(area[IMAGE].want + 0x502, area[TASK].at, LIMIT);
    iocb(0x00, 4096, 5);

    rule("records of 4,096 bytes: a further one (options)");
    of(form, 0);
    transfer(TWYNARVEL_WRITE, TWYNARVEL_NEXT | form, 0, 0, LIMIT + 1);
    iocb(0x84, 0, 5);
    transfer(TWYNARVEL_WRITE, TWYNARVEL_RANDOM | form, 0, 2, LIMIT);
    iocb(0xC2, 0, 5);
    transfer(TWYNARVEL_WRITE, TWYNARVEL_RANDOM | form, 0, 0, LIMIT);
    iocb(0x62, 0, 5);
    transfer(TWYNARVEL_WRITE, TWYNARVEL_NEXT | form, 0, 0, LIMIT);
    iocb(0x63, 0, 5); /* it would need 16 */
    check(TWYNARVEL_SOUND + 3);

    rule("README: reading the longest record");
    name(FILE_Y);
    lend(TASK, LIMIT, 0xEE);
    memcpy(area[TASK].want, area[IMAGE].at + 0x502, LIMIT);
    compare("first_record", 4096, (uint32_t)first_record(LENT(IMAGE), area[NAME].at, 0, area[TASK].at, 5));
}

void long_records(void)
{
    seat_plan(0);
    seat_plan(TWYNARVEL_IMAGE);
    seat_plan(TWYNARVEL_BINARY);

    rule("records: 4,096 bytes of the shared segment");
    hall(17, 1);
    lend(SHARED, LIMIT + 1, 0xDD);
    poke(SHARED, LIMIT, 0xDE);
    request(0, TWYNARVEL_WRITE, TWYNARVEL_NEXT | TWYNARVEL_IMAGE, 0, 0, 0x80000000, 0x80000000 + LIMIT);
    iocb(0x84, 0, 5);
    request(0, TWYNARVEL_WRITE, TWYNARVEL_NEXT | TWYNARVEL_IMAGE, 0, 0, 0x80000001, 0x80000000 + LIMIT);
    first_long("FF FF FF", area[SHARED].at + 1); /* the third was 03: X has 22 and on */
    check(TWYNARVEL_SOUND);

    rule("records: lengths above the limit");
    {
        static const unsigned more[] = {LIMIT + 1, LIMIT + 2, LIMIT + 255, LIMIT + 256, 2 * LIMIT, 65535, 65536, 65536 + LIMIT, 131072};
        unsigned k;
        hall(57, 131072);
        for (k = 0; k < sizeof more / sizeof more[0]; k++) {
            of(more[k], 0);
            transfer(TWYNARVEL_WRITE, TWYNARVEL_NEXT | TWYNARVEL_IMAGE, 0, 0, more[k]);
            iocb(0x84, 0, 5);
            transfer(TWYNARVEL_WRITE, TWYNARVEL_NEXT, 0, 0, more[k]);
            iocb(0x84, 0, 5);
            transfer(TWYNARVEL_WRITE, TWYNARVEL_NEXT | TWYNARVEL_IMAGE, 1, 0, more[k]);
            iocb(0x84, 0, 5); /* of the fixed file too */
        }
    }
}

/* A fixed file of 4,096 bytes a record takes that length alone, whatever the bytes: no transfer of it is one of text. */
void long_fixed(void)
{
    static const unsigned other[] = {1, 1024, 1025, LIMIT - 1, LIMIT + 1};
    unsigned k;
    rule("fixed records of 4,096 bytes: other lengths");
    hall(33, LIMIT + 1);
    for (k = 0; k <= LIMIT; k++)
        poke(TASK, k, k % 251);
    for (k = 0; k < 5; k++) {
        of(other[k], 0);
        transfer(TWYNARVEL_WRITE, TWYNARVEL_NEXT, 1, 0, other[k]);
        iocb(0x84, 0, 5);
    }
    rule("fixed records of 4,096 bytes: two");
    transfer(TWYNARVEL_WRITE, TWYNARVEL_NEXT, 1, 0, LIMIT);
    want(IMAGE, 0x100, "FF FF F8 00 03"); /* it was F8 00 00 00 03; 16 sectors, 5 to 20 */
    want(IMAGE, 0x23C, "00000001");
    want(IMAGE, 0x400, "0001 0010 00001000 0005 0010");
    memcpy(area[IMAGE].want + 0x500, area[TASK].at, LIMIT);
    want(DESK, 12, "01 04 0005 01 01 0000 00000000");
    iocb(0x00, 4096, 5);
    check(TWYNARVEL_SOUND + 17);
    transfer(TWYNARVEL_WRITE, TWYNARVEL_NEXT | TWYNARVEL_BINARY, 1, 0, LIMIT);
    want(IMAGE, 0x100, "FF FF FF FF FB"); /* 21 to 36 */
    want(IMAGE, 0x23C, "00000002");
    want(IMAGE, 0x400, "0001 0020 00002000 0005 0020");
    memcpy(area[IMAGE].want + 0x1500, area[TASK].at, LIMIT);
    want(DESK, 12, "01 04 0005 01 01 0000 00000001");
    iocb(0x00, 4096, 5);
    check(TWYNARVEL_SOUND + 1);
    transfer(TWYNARVEL_WRITE, TWYNARVEL_NEXT, 1, 0, LIMIT);
    iocb(0x63, 0, 5);

    rule("fixed records of 4,096 bytes: updated");
    send(LIMIT + 1, 0);
    for (k = 0; k < 5; k++) {
        of(other[k], 0);
        transfer(TWYNARVEL_UPDATE, TWYNARVEL_CURRENT, 1, 0, other[k]);
        iocb(0x84, 0, 5);
    }
    transfer(TWYNARVEL_UPDATE, TWYNARVEL_PRIOR, 1, 0, LIMIT);
    memcpy(area[IMAGE].want + 0x500, area[TASK].at, LIMIT);
    want(DESK, 12, "01 04 0005 01 01 0000 00000000");
    iocb(0x00, 4096, 5);

    rule("fixed records of 4,096 bytes: read");
    lend(TASK, LIMIT + 1, 0xEE);
    transfer(TWYNARVEL_READ, TWYNARVEL_NEXT, 1, 0, LIMIT - 1);
    iocb(0x84, 0, 5);
    transfer(TWYNARVEL_READ, TWYNARVEL_NEXT, 1, 0, LIMIT + 1);
    for (k = 0; k < LIMIT; k++)
        area[TASK].want[k] = (uint8_t)(k % 251);
    want(DESK, 12, "01 04 0005 01 01 0000 00000001");
    iocb(0x00, 4096, 5);
    transfer(TWYNARVEL_READ, TWYNARVEL_PRIOR, 1, 0, LIMIT);
    for (k = 0; k < LIMIT; k++)
        area[TASK].want[k] = (uint8_t)sent(k);
    want(DESK, 12, "01 04 0005 01 01 0000 00000000");
    iocb(0x00, 4096, 5);

    rule("fixed records of 4,096 bytes: 15 sectors are free, and 16");
    hall(15, LIMIT);
    transfer(TWYNARVEL_WRITE, TWYNARVEL_NEXT, 1, 0, LIMIT);
    iocb(0x63, 0, 5);
    hall(16, LIMIT);
    transfer(TWYNARVEL_WRITE, TWYNARVEL_NEXT, 1, 0, LIMIT);
    want(IMAGE, 0x100, "FF FF FF");
    want(IMAGE, 0x23C, "00000001");
    want(IMAGE, 0x400, "0001 0010 00001000 0005 0010");
    memcpy(area[IMAGE].want + 0x500, area[TASK].at, LIMIT);
    want(DESK, 12, "01 04 0005 01 01 0000 00000000");
    iocb(0x00, 4096, 5);
    check(TWYNARVEL_SOUND);
}

/* Allocate: a record length of 4,096 is taken, one of 4,097 is $60. The new file is in slot 3, and its access block is sector 5. */
void long_allocates(void)
{
    static const uint32_t good[] = {0, 1, 1024, 1025, LIMIT - 1, LIMIT};
    static const uint32_t bad[] = {LIMIT + 1, LIMIT + 2, 2 * LIMIT, 65535, 65536, 65536 + LIMIT, 0x80000000 + LIMIT, 0xFFFFFFFF};
    unsigned k;
    rule("allocate: record lengths above the limit");
    hall(20, LIMIT + 1);
    for (k = 0; k < sizeof bad / sizeof bad[0]; k++) {
        of(bad[k], 0);
        allocate(0x60, 5, TWYNARVEL_SEQUENTIAL, 0, bad[k], 0);
    }
    rule("allocate: record lengths up to the limit");
    for (k = 0; k < sizeof good / sizeof good[0]; k++) {
        of(good[k], 0);
        hall(20, LIMIT + 1);
        want(IMAGE, 0x260, "01 01" FILE_NEW "0000 0000 0005 00000000");
        want_word(0x278, good[k]);
        want_fill(IMAGE, 0x500, SECTOR, 0);
        want(IMAGE, 0x100, "FC");
        allocate(0x00, 5, TWYNARVEL_SEQUENTIAL, 0, good[k], 0);
        check(TWYNARVEL_SOUND + 19);
    }
    rule("allocate: a file of 4,096 bytes a record, and its first record");
    want(DESK, 24, "01 04 0005 03 00 0000 00000000");
    assign(0x00, 5, 2, TWYNARVEL_PRPW, TWYNARVEL_AT_END, 0);
    transfer(TWYNARVEL_WRITE, TWYNARVEL_NEXT, 2, 0, LIMIT + 1);
    iocb(0x84, 0, 5);
    transfer(TWYNARVEL_WRITE, TWYNARVEL_NEXT, 2, 0, LIMIT - 1);
    iocb(0x84, 0, 5);
    transfer(TWYNARVEL_WRITE, TWYNARVEL_NEXT, 2, 0, LIMIT);
    want(IMAGE, 0x100, "FF FF FC"); /* 6 to 21 */
    want(IMAGE, 0x27C, "00000001");
    want(IMAGE, 0x500, "0001 0010 00001000 0006 0010");
    memcpy(area[IMAGE].want + 0x600, area[TASK].at, LIMIT);
    want(DESK, 24, "01 04 0005 03 01 0000 00000000");
    iocb(0x00, 4096, 5);
    check(TWYNARVEL_SOUND + 3);
}

/* ---- soundness */

/* Every call, of a volume that is sound or not. What it meets next is not the volume's: a caller above 65,533, a quota above 2,048. */
static void every_call(int good, uint32_t free_sectors)
{
    check(good ? TWYNARVEL_SOUND + free_sectors : 0);
    rewind_of(0);
    iocb(good ? 0x00 : 0x6F, 0, 5);
    transfer(TWYNARVEL_READ, TWYNARVEL_NEXT, 0, 0, 1);
    iocb(good ? 0x03 : 0x6F, 0, 65534);
    transfer(TWYNARVEL_WRITE, TWYNARVEL_NEXT, 0, 0, 1);
    iocb(good ? 0x03 : 0x6F, 0, 65534);
    transfer(TWYNARVEL_UPDATE, TWYNARVEL_NEXT, 0, 0, 1);
    iocb(good ? 0x03 : 0x6F, 0, 65534);
    allocate(good ? 0x03 : 0x6F, 65534, TWYNARVEL_SEQUENTIAL, 0, 0, 0);
    assign(good ? 0x03 : 0x6F, 65534, 9, TWYNARVEL_PR, TWYNARVEL_AT_START, 0);
    release(good ? 0x03 : 0x6F, 65534, 0);
    erase(good ? 0x03 : 0x6F, 65534);
    compact(good ? 0x60 : 0x6F, 0, 0, 2049);
}

/* The same volume before there were record counts: with zeros in place of a slot's count. Bring-up judges by the same limit. */
static void brought_up(int good, unsigned slot, unsigned records)
{
    put(IMAGE, 0x21C + 32 * (size_t)slot, "00000000");
    check(0);
    if (good)
        want_word(0x21E + 32 * (size_t)slot, records);
    bring_up(good ? 0x00 : 0x6F);
}

/* Y with two whole records, of a and of b data bytes, from sector 5 on. Its numbers are true: only the limit can make the volume unsound. */
static void two_records(unsigned a, unsigned b)
{
    unsigned second = 2 + a + a % 2, e = second + 2 + b + b % 2, n = (e + SECTOR - 1) / SECTOR, s;
    int good = a <= LIMIT && b <= LIMIT;
    of(a, b);
    hall(n + 3, 1);
    for (s = 5; s < 5 + n; s++)
        set_free(s, 0);
    want(IMAGE, 0x21C, "00000002");
    one_segment(0x300, n, e);
    want_fill(IMAGE, 0x500, SECTOR * (size_t)n, 0);
    want_word(0x500, a);
    want_fill(IMAGE, 0x502, a, 0x41);
    want_word(0x500 + second, b);
    want_fill(IMAGE, 0x502 + second, b, 0x42);
    put(IMAGE, 0, "");
    every_call(good, 3);
    brought_up(good, 0, 2);
}

void count_words(void)
{
    static const unsigned count[] = {0, 1, 1023, 1024, 1025, 1026, LIMIT - 2, LIMIT - 1, LIMIT, LIMIT + 1, LIMIT + 2, LIMIT + 3, LIMIT + 256,
                                     2 * LIMIT - 1, 2 * LIMIT, 2 * LIMIT + 1};
    unsigned k;
    rule("check: count words up to the limit and above (of two records)");
    for (k = 0; k < sizeof count / sizeof count[0]; k++) {
        two_records(count[k], 0);
        two_records(0, count[k]);
        two_records(3, count[k]);
        two_records(count[k], LIMIT);
        two_records(LIMIT, count[k]);
        two_records(LIMIT + 1, count[k]);
    }
}

/* Z with each record length: the entry is valid up to 4,096. First with no record, then with one of that length. */
void record_lengths(void)
{
    static const unsigned length[] = {1, 1023, 1024, 1025, LIMIT - 1, LIMIT, LIMIT + 1, LIMIT + 2, LIMIT + 256, 2 * LIMIT, 3 * LIMIT};
    unsigned k, s;
    rule("check: record lengths, no record");
    hall(3, 1);
    for (k = (unsigned)after_fence; k < 65536; k += 2) { /* half of them in each round: they are many */
        of(k, 0);
        poke(IMAGE, 0x238, k / 256);
        poke(IMAGE, 0x239, k % 256);
        check(k <= LIMIT ? TWYNARVEL_SOUND + 3 : 0);
    }
    rule("check: record lengths, no record, at the limit");
    for (k = LIMIT - 1; k <= LIMIT + 1; k++) {
        of(k, 0);
        hall(3, 1);
        poke(IMAGE, 0x238, k / 256);
        poke(IMAGE, 0x239, k % 256);
        every_call(k <= LIMIT, 3);
        bring_up(k <= LIMIT ? 0x00 : 0x6F);
    }
    rule("check: record lengths, one record");
    for (k = 0; k < sizeof length / sizeof length[0]; k++) {
        unsigned l = length[k], n = (l + SECTOR - 1) / SECTOR;
        of(l, 1);
        hall(n + 3, 1);
        for (s = 5; s < 5 + n; s++)
            set_free(s, 0);
        want_word(0x238, l);
        want(IMAGE, 0x23C, "00000001");
        one_segment(0x400, n, l);
        want_fill(IMAGE, 0x500, SECTOR * (size_t)n, 0);
        want_fill(IMAGE, 0x500, l, 0x5A);
        put(IMAGE, 0, "");
        every_call(l <= LIMIT, 3);
        brought_up(l <= LIMIT, 1, 1);
    }
}

/* ---- texts */

/* 4,096 spaces are 32 times 127, and 32: `FF` 32 times, then `A0`. One more is `A1` at the end, and as long: the limit is about the text. */
void long_texts(void)
{
    rule("texts: 4,096 spaces are taken, 4,097 are $84");
    hall(20, 1);
    lend(TASK, LIMIT + 1, 0x20);
    transfer(TWYNARVEL_WRITE, TWYNARVEL_NEXT, 0, 0, LIMIT + 1);
    iocb(0x84, 0, 5);
    transfer(TWYNARVEL_WRITE, TWYNARVEL_NEXT, 0, 0, LIMIT);
    want(IMAGE, 0x100, "FC");
    want(IMAGE, 0x21C, "00000001");
    want(IMAGE, 0x300, "0001 0001 00000024 0005 0001");
    want_fill(IMAGE, 0x500, SECTOR, 0);
    want(IMAGE, 0x500, "0021");
    want_fill(IMAGE, 0x502, 32, 0xFF);
    want(IMAGE, 0x522, "A0");
    want(DESK, 0, "01 04 0005 00 01 0000 00000000");
    iocb(0x00, 4096, 5);
    transfer(TWYNARVEL_UPDATE, TWYNARVEL_CURRENT, 0, 0, LIMIT + 1);
    iocb(0x84, 0, 5);
    transfer(TWYNARVEL_UPDATE, TWYNARVEL_CURRENT, 0, 0, LIMIT - 1);
    want(IMAGE, 0x522, "9F");
    iocb(0x00, 4095, 5);
    transfer(TWYNARVEL_UPDATE, TWYNARVEL_CURRENT, 0, 0, LIMIT);
    want(IMAGE, 0x522, "A0");
    iocb(0x00, 4096, 5);
    lend(TASK, LIMIT + 1, 0xEE);
    transfer(TWYNARVEL_READ, TWYNARVEL_CURRENT, 0, 0, LIMIT - 1);
    iocb(0x84, 0, 5);
    transfer(TWYNARVEL_READ, TWYNARVEL_CURRENT, 0, 0, LIMIT);
    want_fill(TASK, 0, LIMIT, 0x20);
    iocb(0x00, 4096, 5);

    rule("texts: 4,097 spaces by way of a record that was written unformatted");
    lend(TASK, 33, 0xFF);
    put(TASK, 32, "A1");
    transfer(TWYNARVEL_UPDATE, TWYNARVEL_CURRENT | TWYNARVEL_IMAGE, 0, 0, 33);
    want(IMAGE, 0x522, "A1");
    iocb(0x00, 33, 5);
    lend(TASK, LIMIT + 1, 0xEE);
    transfer(TWYNARVEL_READ, TWYNARVEL_CURRENT, 0, 0, LIMIT);
    iocb(0x84, 0, 5);
    transfer(TWYNARVEL_READ, TWYNARVEL_CURRENT, 0, 0, LIMIT + 1);
    want_fill(TASK, 0, LIMIT + 1, 0x20);
    iocb(0x00, 4097, 5); /* the limit is about what is sent, and not about what is read */

    rule("texts: the last of 4,096 bytes");
    hall(20, LIMIT);
    poke(TASK, LIMIT - 1, 0x80);
    transfer(TWYNARVEL_WRITE, TWYNARVEL_NEXT, 0, 0, LIMIT);
    iocb(0x84, 0, 5);
    poke(TASK, LIMIT - 1, 0x20); /* one space stays as it is */
    transfer(TWYNARVEL_WRITE, TWYNARVEL_NEXT, 0, 0, LIMIT);
    first_long("FF FF FC", area[TASK].at);

    rule("texts: two spaces among 4,096 bytes are stored as one byte");
    poke(TASK, 0, 0x20);
    poke(TASK, 1, 0x20);
    transfer(TWYNARVEL_UPDATE, TWYNARVEL_CURRENT, 0, 0, LIMIT);
    iocb(0x61, 0, 5); /* 4,095 bytes */
    transfer(TWYNARVEL_WRITE, TWYNARVEL_NEXT, 0, 0, LIMIT);
    iocb(0x63, 0, 5);

    rule("texts: the longest, 4,096 times 127 spaces");
    lend(TASK, LIMIT, 0xFF);
    transfer(TWYNARVEL_UPDATE, TWYNARVEL_CURRENT | TWYNARVEL_IMAGE, 0, 0, LIMIT);
    want_fill(IMAGE, 0x502, LIMIT, 0xFF);
    iocb(0x00, 4096, 5);
    lend(TASK, LONGEST_TEXT + 1, 0xEE);
    transfer(TWYNARVEL_READ, TWYNARVEL_CURRENT, 0, 0, LONGEST_TEXT - 1);
    iocb(0x84, 0, 5);
    transfer(TWYNARVEL_READ, TWYNARVEL_CURRENT, 0, 0, LONGEST_TEXT + 1);
    want_fill(TASK, 0, LONGEST_TEXT, 0x20);
    iocb(0x00, 520192, 5);
    lend(TASK, LONGEST_TEXT, 0xEE);
    transfer(TWYNARVEL_READ, TWYNARVEL_CURRENT, 0, 0, LONGEST_TEXT);
    want_fill(TASK, 0, LONGEST_TEXT, 0x20);
    iocb(0x00, 520192, 5);
    lend_null(TASK);
    lend(SHARED, LONGEST_TEXT, 0xDD);
    request(0, TWYNARVEL_READ, TWYNARVEL_CURRENT, 0, 0, 0x80000001, 0x80000000 + LONGEST_TEXT - 1);
    iocb(0x84, 0, 5);
    request(0, TWYNARVEL_READ, TWYNARVEL_CURRENT, 0, 0, 0x80000000, 0x80000000 + LONGEST_TEXT - 1);
    want_fill(SHARED, 0, LONGEST_TEXT, 0x20);
    iocb(0x00, 520192, 5);
}

/* ---- new sectors */

/*
 * Y's stream has r bytes, one record that lies in sector 5, or none. A record of c bytes is appended, for which so many sectors are needed:
 * $63 with one fewer, and with so many none is left.
 */
static void grow(unsigned r, unsigned c, unsigned needed)
{
    unsigned old = r ? 1 : 0, all = old + needed, last, s;
    for (last = 0; last < 2; last++) {
        of(r, c);
        hall(all + last - 1, c);
        if (r) {
            set_free(5, 0);
            want_word(0x21E, 1);
            one_segment(0x300, 1, r);
            want_fill(IMAGE, 0x500, SECTOR, 0);
            want_word(0x500, r - 2);
            want_fill(IMAGE, 0x502, r - 2, 0x42);
            put(IMAGE, 0, "");
            poke(DESK, 5, 1); /* at record 0 */
        }
        check(TWYNARVEL_SOUND + needed + last - 1);
        transfer(TWYNARVEL_WRITE, TWYNARVEL_NEXT | TWYNARVEL_IMAGE, 0, 0, c);
        if (last) {
            for (s = 5; s < 5 + all; s++)
                set_free(s, 0);
            want_word(0x21E, old + 1);
            one_segment(0x300, all, r + 2 + c + c % 2);
            want_fill(IMAGE, 0x500 + SECTOR * (size_t)old, SECTOR * (size_t)needed, 0);
            want_word(0x500 + r, c);
            memcpy(area[IMAGE].want + 0x502 + r, area[TASK].at, c);
            want(DESK, 5, "01");
            want_fill(DESK, 11, 1, (int)old);
        }
        iocb(last ? 0x00 : 0x63, last ? c : 0, 5);
        check(TWYNARVEL_SOUND + (last ? 0 : needed - 1));
    }
}

/*
 * From a sector's start on, 4,095 and 4,096 bytes take 4,098 with count word and zero byte: 16 sectors, and two bytes of one more. With any
 * tail, two bytes at least as E is even, the last sector is the file's own, and 16 are new. A tail of two takes the count word alone.
 */
void new_sectors(void)
{
    unsigned r;
    rule("new sectors: 17 from a sector's start on (stream before, data bytes)");
    grow(0, LIMIT, 17);
    grow(0, LIMIT - 1, 17);
    grow(0, LIMIT - 2, 16);
    grow(0, LIMIT - 3, 16);
    grow(256, LIMIT, 17);
    grow(256, LIMIT - 1, 17);
    grow(256, LIMIT - 2, 16);
    rule("new sectors: 16 with a tail (stream before, data bytes)");
    for (r = 2; r <= 254; r += 2)
        grow(r, LIMIT, 16);
    rule("new sectors: 15 and 16 with a tail of two (stream before, data bytes)");
    grow(254, 3838, 15);
    grow(254, 3840, 15); /* 15 whole sectors */
    grow(254, 3841, 16); /* 3,842 bytes with the zero byte */
    rule("new sectors: where the limit was (stream before, data bytes)");
    grow(0, 1024, 5);
    grow(0, 1025, 5);
    grow(0, 1278, 5); /* 1,280 bytes */
    grow(0, 1279, 6);
}

/* ---- segments */

/* Y's sectors here are 5, 7, 9 and so on, up to 127; then 128. */
static uint8_t *byte_of(unsigned b)
{
    unsigned i = b / SECTOR;
    return area[IMAGE].want + SECTOR * (i < 62 ? 5 + 2 * i : 128) + b % SECTOR;
}

/* The record that starts at byte b of Y's stream. Returns where the next one starts. */
static unsigned lay(unsigned b, unsigned c, size_t from)
{
    unsigned k;
    *byte_of(b) = (uint8_t)(c / 256);
    *byte_of(b + 1) = (uint8_t)c;
    for (k = 0; k < c; k++)
        *byte_of(b + 2 + k) = (uint8_t)sent(from + k);
    if (c % 2)
        *byte_of(b + 2 + c) = 0;
    return b + 2 + c + c % 2;
}

/*
 * 132 sectors, of which Y has the first so many of 5, 7, 9 up to 127, and Z, whose records fill a sector each here, of 6, 8, 10 up to 128:
 * each is a segment. Y's are filled by records of 4,096, 4,096 and the bytes that are left, and LUN 0 is at the last; or Y has none.
 */
static void street(unsigned of_y, unsigned of_z)
{
    unsigned s, i;
    of(of_y, of_z);
    ground(132);
    for (s = 5; s < 131; s++)
        set_free(s, 1);
    for (i = 0; i < of_y; i++) {
        set_free(5 + 2 * i, 0);
        want_word(0x308 + 4 * (size_t)i, 5 + 2 * i);
        want_word(0x30A + 4 * (size_t)i, 1);
    }
    for (i = 0; i < of_z; i++) {
        set_free(6 + 2 * i, 0);
        want_word(0x408 + 4 * (size_t)i, 6 + 2 * i);
        want_word(0x40A + 4 * (size_t)i, 1);
    }
    want_word(0x300, of_y);
    want_word(0x302, of_y);
    want_word(0x306, SECTOR * of_y);
    want_word(0x238, SECTOR);
    want_word(0x23E, of_z);
    want_word(0x400, of_z);
    want_word(0x402, of_z);
    want_word(0x406, SECTOR * of_z);
    if (of_y) {
        lay(lay(lay(0, LIMIT, 100), LIMIT, 200), SECTOR * of_y - 2 * (LIMIT + 2) - 2, 300);
        want_word(0x21E, 3);
        put(DESK, 5, "01 0000 00000002");
    }
    put(IMAGE, 0, "");
    send(LIMIT, 400);
    check(TWYNARVEL_SOUND + 126 - of_y - of_z);
}

/* Record 3 of Y is appended. Then Y has 62 segments, of one sector but for the last, which is at 127; Z and what was free above 128 stay. */
static void full(unsigned of_y, unsigned c, const char *numbers, const char *last_pair)
{
    unsigned i;
    transfer(TWYNARVEL_WRITE, TWYNARVEL_NEXT | TWYNARVEL_IMAGE, 0, 0, c);
    want_fill(IMAGE, 0x100, 16, 0xFF);
    want_word(0x21E, 4);
    want(IMAGE, 0x300, numbers);
    for (i = of_y; i < 61; i++) {
        want_word(0x308 + 4 * (size_t)i, 5 + 2 * i);
        want_word(0x30A + 4 * (size_t)i, 1);
    }
    want(IMAGE, 0x3FC, last_pair);
    for (i = of_y; i < 62; i++)
        want_fill(IMAGE, SECTOR * (size_t)(5 + 2 * i), SECTOR, 0);
    if (area[IMAGE].want[0x3FF] == 2) { /* 128 joins 127 */
        set_free(128, 0);
        want_fill(IMAGE, SECTOR * 128, SECTOR, 0);
    }
    lay(SECTOR * of_y, c, 400);
    want(DESK, 8, "00000003");
    iocb(0x00, c, 5);
}

/* A read of a record that lies across segments. */
static void read_back(unsigned record, size_t from)
{
    unsigned k;
    lend(TASK, LIMIT, 0xEE);
    transfer(TWYNARVEL_READ, TWYNARVEL_RANDOM | TWYNARVEL_IMAGE, 0, record, LIMIT);
    for (k = 0; k < LIMIT; k++)
        area[TASK].want[k] = (uint8_t)sent(from + k);
    want_fill(DESK, 5, 1, 1);
    want_fill(DESK, 11, 1, (int)record);
    iocb(0x00, 4096, 5);
}

void far_segments(void)
{
    unsigned k;
    rule("segments: a record in 17 of one sector");
    street(0, 17);
    transfer(TWYNARVEL_WRITE, TWYNARVEL_NEXT | TWYNARVEL_IMAGE, 0, 0, LIMIT);
    want(IMAGE, 0x100, "FF FF FF FF FE 00"); /* it was FA AA AA AA AA 00; Z has 38, and 39 is free */
    want(IMAGE, 0x21C, "00000001");
    want(IMAGE, 0x300, "0011 0011 00001002");
    want(IMAGE, 0x308, "0005 0001 0007 0001 0009 0001 000B 0001 000D 0001 000F 0001 0011 0001 0013 0001");
    want(IMAGE, 0x328, "0015 0001 0017 0001 0019 0001 001B 0001 001D 0001 001F 0001 0021 0001 0023 0001 0025 0001");
    want(IMAGE, 0x500, "1000");
    memcpy(area[IMAGE].want + 0x502, area[TASK].at, 254);
    for (k = 1; k < 16; k++)
        memcpy(area[IMAGE].want + 0x500 + 0x200 * k, area[TASK].at + 256 * k - 2, 256);
    want_fill(IMAGE, 0x2500, SECTOR, 0);
    memcpy(area[IMAGE].want + 0x2500, area[TASK].at + 4094, 2);
    want(DESK, 0, "01 04 0005 00 01 0000 00000000");
    iocb(0x00, 4096, 5);
    check(TWYNARVEL_SOUND + 92);
    read_back(0, 400);
    compact(0x00, SETTLED, 0, 2048); /* 3 to 38 are owned */

    rule("segments: the 17th new sector would open the 63rd");
    street(46, 62); /* 16 free sectors up to 127, then 129 and 130 */
    transfer(TWYNARVEL_WRITE, TWYNARVEL_NEXT | TWYNARVEL_IMAGE, 0, 0, LIMIT);
    iocb(0x65, 0, 5);
    transfer(TWYNARVEL_WRITE, TWYNARVEL_NEXT | TWYNARVEL_IMAGE, 0, 0, LIMIT - 1);
    iocb(0x65, 0, 5);
    full(46, LIMIT - 2, "003E 003E 00003E00", "007F 0001"); /* 4,096 bytes with the count word: 16 sectors, and 62 segments */
    check(TWYNARVEL_SOUND + 2);
    read_back(1, 200);

    rule("segments: the 17th new sector joins the 62nd");
    street(46, 61); /* 128 is free too */
    full(46, LIMIT, "003E 003F 00003E02", "007F 0002");
    check(TWYNARVEL_SOUND + 2);
    read_back(0, 100);
    read_back(3, 400);
    read_back(1, 200);

    rule("segments: the 17th new sector opens the 62nd");
    street(45, 62);
    full(45, LIMIT, "003E 003E 00003D02", "007F 0001");
    check(TWYNARVEL_SOUND + 2);
    read_back(3, 400);

    rule("segments: 16 sectors are free, $63; 17 are, $65");
    street(46, 62);
    put(IMAGE, 0x240, "01 00" FILE_X "0000 0000 0081 0002 0000"); /* X has 129 and 130 */
    put(IMAGE, 0x110, "FF");
    check(TWYNARVEL_SOUND + 16);
    transfer(TWYNARVEL_WRITE, TWYNARVEL_NEXT | TWYNARVEL_IMAGE, 0, 0, LIMIT);
    iocb(0x63, 0, 5);
    put(IMAGE, 0x240, "01 00" FILE_X "0000 0000 0082 0001 0000"); /* X has 130 */
    put(IMAGE, 0x110, "BF");
    check(TWYNARVEL_SOUND + 17);
    transfer(TWYNARVEL_WRITE, TWYNARVEL_NEXT | TWYNARVEL_IMAGE, 0, 0, LIMIT);
    iocb(0x65, 0, 5);
    street(47, 62); /* 15 free sectors up to 127, then 129 and 130: 17 */
    transfer(TWYNARVEL_WRITE, TWYNARVEL_NEXT | TWYNARVEL_IMAGE, 0, 0, LIMIT);
    iocb(0x65, 0, 5); /* the last but one opens the 63rd */
}
