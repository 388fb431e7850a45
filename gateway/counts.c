/*
 * Record counts. Request 5 of document 02 says: "Store the count in bytes 28-31 of a sequential entry, kept true by every operation"; "Those
 * bytes were zero, so old volumes with records are $6F until brought up by a new call, which accepts exactly the volumes sound by the old
 * rule (others $6F) and writes the counts and nothing else". An old volume is made here of one that has counts, by zeros in their place. So
 * what bring-up has to make of it is known byte by byte.
 */
#include "check.h"

/* Bytes 28 to 31 of a slot's entry, in a directory that starts at sector 2. */
static size_t count_at(unsigned slot)
{
    return 0x21C + 32 * (size_t)slot;
}

static void want_count(unsigned slot, uint32_t records)
{
    want_word(count_at(slot), records / 65536);
    want_word(count_at(slot) + 2, records % 65536);
}

static void zero_count(unsigned slot)
{
    put(IMAGE, count_at(slot), "00000000");
}

/* A call that helps to make a volume: what it leaves is taken as it is. Other sections hold such calls against the rules. */
static void taken(const char *call, uint32_t got)
{
    int which;
    for (which = 0; which < AREAS; which++)
        if (area[which].len)
            memcpy(area[which].want, area[which].at, area[which].len);
    compare(call, 0x00, got);
}

static void taken_transfer(unsigned function, unsigned lun, size_t len)
{
    transfer(function, TWYNARVEL_NEXT | TWYNARVEL_IMAGE, lun, 0, len);
    taken("iocb", twynarvel_iocb(LENT(BLOCK), LENT(IMAGE), LENT(DESK), LENT(TASK), LENT(SHARED), 5));
}

static void empty(size_t sectors, uint32_t dirs)
{
    lend(IMAGE, TWYNARVEL_SECTOR_BYTES * sectors, 0xA5);
    lend(DESK, TWYNARVEL_DESK_BYTES, 0xFF);
    lend(NAME, TWYNARVEL_ID_BYTES, 0);
    put(NAME, 0, "564F4C31");
    taken("format", twynarvel_format(LENT(IMAGE), LENT(DESK), LENT(NAME), dirs));
}

/* The file of a slot in the volumes made here: A, B, C and so on, of user 5. */
static void name_of(unsigned slot)
{
    name(FILE_X);
    poke(NAME, 10, 'A' + slot);
}

static void make(unsigned slot, uint32_t kind, uint32_t size, uint32_t record)
{
    name_of(slot);
    taken("allocate", twynarvel_allocate(LENT(IMAGE), LENT(DESK), 5, LENT(NAME), kind, size, record, 0));
}

static void seat(unsigned lun, unsigned slot, uint32_t at_end)
{
    name_of(slot);
    taken("assign", twynarvel_assign(LENT(IMAGE), LENT(DESK), 5, lun, LENT(NAME), TWYNARVEL_PRPW, at_end, 0));
}

/* A volume with no record is sound by both rules: bring-up accepts it each time, and no byte changes. */
void fresh_volumes(void)
{
    static const size_t sectors[5] = {16, 17, 64, 2047, 2048};
    unsigned k;
    uint32_t dirs;
    lend(TASK, 0, 0);
    lend(SHARED, 0, 0);
    rule("bring-up of a volume with no record (sectors, directory sectors)");
    for (k = 0; k < 5; k++)
        for (dirs = 1; dirs <= 8; dirs++) {
            of((unsigned)sectors[k], dirs);
            empty(sectors[k], dirs);
            bring_up(0x00);
            make(0, TWYNARVEL_CONTIGUOUS, 1, 0);
            make(1, TWYNARVEL_SEQUENTIAL, 0, 0);
            make(2, TWYNARVEL_SEQUENTIAL, 0, TWYNARVEL_RECORD_BYTES);
            bring_up(0x00);
            bring_up(0x00);
            check(TWYNARVEL_SOUND + (uint32_t)sectors[k] - dirs - 6);
        }
}

/*
 * A volume of 40 sectors, two of them the directory, made through the front. Of its twelve slots 0, 3, 6 and 9 are contiguous, 1, 4, 7 and 10
 * variable, the others fixed of 3 bytes; slot 6 is deleted again. LUN 2 holds slot 0, LUN 3 slot 1 at its end, LUN 5 slot 8 at record 0.
 */
enum { SLOTS = 12, FREE = 13 };
static const unsigned records[SLOTS] = {0, 3, 1, 0, 0, 0, 0, 200, 256, 0, 1, 2};

static void office(void)
{
    unsigned slot, k;
    lend(TASK, 256, 0x41);
    lend(SHARED, 0, 0);
    empty(40, 2);
    for (slot = 0; slot < SLOTS; slot++)
        make(slot, slot % 3 ? TWYNARVEL_SEQUENTIAL : TWYNARVEL_CONTIGUOUS, slot % 3 ? 0 : 1, slot % 3 == 2 ? 3 : 0);
    for (slot = 0; slot < SLOTS; slot++) {
        of(slot, 0);
        seat(0, slot, TWYNARVEL_AT_START);
        for (k = 0; k < records[slot]; k++)
            taken_transfer(TWYNARVEL_WRITE, 0, slot % 3 == 2 ? 3 : 1 + k % 3);
        taken("close", twynarvel_close(LENT(IMAGE), LENT(DESK), 5, 0));
        if (slot % 3)
            want_count(slot, records[slot]);
        else
            want(IMAGE, count_at(slot), "0001 0000"); /* one sector, and zeros */
        compare("a count", 0, 0);
    }
    name_of(6);
    taken("delete", twynarvel_delete(LENT(IMAGE), LENT(DESK), 5, LENT(NAME)));
    seat(2, 0, TWYNARVEL_AT_START);
    seat(3, 1, TWYNARVEL_AT_END);
    seat(5, 8, TWYNARVEL_AT_START);
    taken_transfer(TWYNARVEL_READ, 5, 3);
    check(TWYNARVEL_SOUND + FREE);
    mark(0);
}

/* The small volume as it was before there were counts. */
static void old_house(size_t len)
{
    house(len, 0);
    zero_count(1);
    zero_count(2);
}

void old_volume(void)
{
    unsigned slot;
    rule("old volume: made (slot)");
    office();
    for (slot = 0; slot < SLOTS; slot++)
        if (slot % 3)
            zero_count(slot);

    rule("old volume: every other call");
    check(0);
    rewind_of(2);
    iocb(0x6F, 0, 5);
    transfer(TWYNARVEL_READ, TWYNARVEL_CURRENT, 5, 0, 3);
    iocb(0x6F, 0, 5);
    transfer(TWYNARVEL_WRITE, TWYNARVEL_NEXT, 3, 0, 3);
    iocb(0x6F, 0, 5);
    transfer(TWYNARVEL_WRITE, TWYNARVEL_NEXT, 2, 0, 256); /* of a contiguous file too */
    iocb(0x6F, 0, 5);
    transfer(TWYNARVEL_UPDATE, TWYNARVEL_CURRENT, 5, 0, 3);
    iocb(0x6F, 0, 5);
    release(0x6F, 5, 3);
    name_of(10);
    assign(0x6F, 5, 9, TWYNARVEL_PR, TWYNARVEL_AT_START, 0);
    erase(0x6F, 5);
    name(FILE_NEW);
    allocate(0x6F, 5, TWYNARVEL_SEQUENTIAL, 0, 0, 0);

    rule("old volume: the counts are written, and nothing else");
    want_back(0);
    bring_up(0x00);
    check(TWYNARVEL_SOUND + FREE);
    rule("old volume: once");
    bring_up(0x6F);
    bring_up(0x6F);
    check(TWYNARVEL_SOUND + FREE);

    rule("old volume: the desk goes on");
    old_house(4);
    rewind_of(0);
    iocb(0x6F, 0, 5);
    want_count(1, 5);
    want_count(2, 2);
    bring_up(0x00);
    transfer(TWYNARVEL_READ, TWYNARVEL_NEXT | TWYNARVEL_IMAGE, 0, 0, 4); /* LUN 0 is at record 1 */
    want(TASK, 0, "FF82");
    want(DESK, 8, "00000002");
    iocb(0x00, 2, 5);
    put(TASK, 0, "51525354");
    transfer(TWYNARVEL_WRITE, TWYNARVEL_RANDOM | TWYNARVEL_IMAGE, 2, 2, 4);
    want(IMAGE, 0x804, "0000000C");
    want(IMAGE, 0x908, "51525354");
    want_count(2, 3);
    want(DESK, 24, "01 04 0005 02 01 0000 00000002");
    iocb(0x00, 4, 5);
    name(FILE_Y);
    want(DESK, 60, "01 04 0005 01 01 0000 00000004");
    assign(0x00, 5, 5, TWYNARVEL_PRPW, TWYNARVEL_AT_END, 0);
    want_fill(DESK, 12, 12, 0);
    release(0x00, 5, 1);
    check(TWYNARVEL_SOUND + 5);
    bring_up(0x6F);
}

/* Some counts are zero and some are not: neither sound nor an old volume. */
void counts_left(void)
{
    static const unsigned counted[6] = {1, 2, 7, 8, 10, 11};
    unsigned zeroed, k, byte;
    rule("a volume for counts");
    office();
    rule("some counts are zero (which, by bits)");
    for (zeroed = 0; zeroed < 64; zeroed++) {
        of(zeroed, 0);
        back(0);
        for (k = 0; k < 6; k++)
            if (zeroed >> k & 1)
                zero_count(counted[k]);
        check(zeroed == 0 ? TWYNARVEL_SOUND + FREE : 0);
        if (zeroed == 63)
            want_back(0);
        bring_up(zeroed == 63 ? 0x00 : 0x6F);
    }
    rule("one byte of a count is not zero (slot and byte)");
    for (k = 0; k < SLOTS; k++)
        for (byte = 0; byte < 4; byte++) {
            unsigned j, its = records[k] >> (24 - 8 * byte) & 0xFF;
            if (k % 3 == 0)
                continue;
            of(k, byte);
            back(0);
            for (j = 0; j < 6; j++)
                zero_count(counted[j]);
            poke(IMAGE, count_at(k) + byte, its ? its : 1);
            check(0);
            bring_up(0x6F);
        }
}

/* By the rule of before: counts are zero; L may be any length that divides E = 22, and E may take in empty records of two bytes each. */
static int old_entry_byte(unsigned byte, unsigned v)
{
    if (byte == 25)
        return v == 0 || 22 % v == 0;
    return byte >= 28 ? v == 0 : entry_byte(byte, v);
}

static int old_block_byte(unsigned byte, unsigned v)
{
    return byte == 7 ? v >= 22 && v % 2 == 0 : block_byte(byte, v);
}

/* X's sectors, and two zeros. */
static int sectors_byte(unsigned byte, unsigned v)
{
    return v == (byte == 1 ? 3u : 0u);
}

static void each_old_value(const char *text, size_t from, unsigned bytes, int (*good)(unsigned byte, unsigned v))
{
    unsigned byte, v;
    rule(text);
    old_house(0);
    mark(0);
    for (byte = 0; byte < bytes; byte++)
        for (v = 0; v < 256; v++) {
            if (byte >= 32 && v > 1 && v < 0xFF)
                continue; /* bytes that have to be zero: a few values will do */
            of(byte, v);
            back(0);
            poke(IMAGE, from + byte, v);
            if (good(byte, v)) {
                unsigned length = area[IMAGE].at[0x239], e = area[IMAGE].at[0x607];
                want_count(1, length ? e / length : 5 + (e - 22) / 2);
                want_count(2, 2);
            }
            bring_up(good(byte, v) ? 0x00 : 0x6F);
            check(good(byte, v) ? TWYNARVEL_SOUND + 5 : 0);
        }
}

/* "Accepts exactly the volumes sound by the old rule": the small volume before counts, with one byte or bit another. */
void old_bytes(void)
{
    unsigned s;
    each_old_value("bring-up: the trailer (byte, value)", 0xF00, 256, trailer_byte);
    each_old_value("bring-up: a sequential entry (byte, value)", 0x220, 32, old_entry_byte);
    each_old_value("bring-up: the sectors of a contiguous entry (byte, value)", 0x21C, 4, sectors_byte);
    each_old_value("bring-up: an access block (byte, value)", 0x600, 256, old_block_byte);
    rule("bring-up: one bit of the SAT inverted");
    old_house(0);
    for (s = 0; s < 2048; s++) {
        of(s, 0);
        poke(IMAGE, 256 + s / 8, area[IMAGE].at[256 + s / 8] ^ 128u >> s % 8);
        bring_up(0x6F);
        poke(IMAGE, 256 + s / 8, area[IMAGE].at[256 + s / 8] ^ 128u >> s % 8);
    }
    rule("bring-up: a stream");
    poke(IMAGE, 0x71F, 1); /* the tail of Y's last sector is not zero */
    bring_up(0x6F);
    old_house(0);
    poke(IMAGE, 0x705, 1); /* the byte after data of odd length is not zero */
    bring_up(0x6F);
    old_house(0);
    poke(IMAGE, 0x700, (TWYNARVEL_RECORD_BYTES + 1) / 256); /* a count word above the limit, and past E */
    poke(IMAGE, 0x701, (TWYNARVEL_RECORD_BYTES + 1) % 256);
    bring_up(0x6F);
    rule("bring-up: a file of user 0 with a code");
    old_house(0);
    put(IMAGE, 0x242, "0000");
    poke(IMAGE, 0x257, 1);
    bring_up(0x6F);
    poke(IMAGE, 0x257, 0);
    want_count(1, 5);
    want_count(2, 2);
    bring_up(0x00);
}

/* 256 times T is 4,096. */
void old_lengths(void)
{
    static const size_t far[4] = {65536, 2047 * 256, 2048 * 256, 2049 * 256};
    size_t len;
    unsigned k;
    rule("bring-up: an image of another length");
    old_house(0);
    mark(0);
    for (len = 0; len <= 4400; len++) {
        of((unsigned)len, 0);
        back_as(0, len);
        if (len == 4096) {
            want_count(1, 5);
            want_count(2, 2);
        }
        bring_up(len == 4096 ? 0x00 : 0x6F);
    }
    for (k = 0; k < 4; k++) {
        of((unsigned)far[k], 0);
        back_as(0, far[k]);
        bring_up(0x6F);
    }
    rule("bring-up: any bytes");
    for (k = 0; k < 256; k++) {
        of(k, 0);
        lend(IMAGE, 4096, (int)k);
        bring_up(0x6F);
    }
    rule("bring-up: no bytes");
    lend_null(IMAGE);
    bring_up(0x6F);
}

/* The largest volume, with all of its 2,043 data sectors in one old file Z: access block 3, sectors 4 to 2,046. */
static void long_file(const char *length, const char *stream)
{
    lend(IMAGE, 2048 * 256, 0);
    put(IMAGE, 0x000, "564F4C31");
    want_fill(IMAGE, 0x100, 256, 0xFF);
    put(IMAGE, 0x200, "01 01" FILE_Z "0000 0000 0003 00000000");
    put(IMAGE, 0x218, length);
    put(IMAGE, 0x300, "0001 07FB 00000000 0004 07FB");
    put(IMAGE, 0x304, stream);
    put(IMAGE, 2047 * 256, "0800 07FE 07FD 0001");
    lend(DESK, TWYNARVEL_DESK_BYTES, 0);
    lend(TASK, 1, 0x77);
    lend(SHARED, 0, 0);
    check(0);
}

void long_counts(void)
{
    rule("long counts: 261,503 empty records");
    long_file("0000", "0007FAFE");
    want(IMAGE, 0x21C, "0003FD7F");
    bring_up(0x00);
    check(TWYNARVEL_SOUND);
    rule("long counts: 523,007 records of one byte");
    long_file("0001", "0007FAFF");
    want(IMAGE, 0x21C, "0007FAFF");
    bring_up(0x00);
    check(TWYNARVEL_SOUND);
    rule("long counts: one more");
    name(FILE_Z);
    want(DESK, 0, "01 04 0005 00 01 0000 0007FAFE");
    assign(0x00, 5, 0, TWYNARVEL_PRPW, TWYNARVEL_AT_END, 0);
    transfer(TWYNARVEL_WRITE, TWYNARVEL_NEXT | TWYNARVEL_IMAGE, 0, 0, 1);
    want(IMAGE, 0x21C, "0007FB00");
    want(IMAGE, 0x304, "0007FB00");
    want(IMAGE, 2047 * 256 - 1, "77");
    want(DESK, 8, "0007FAFF");
    iocb(0x00, 1, 5);
    iocb(0x63, 0, 5); /* the volume is full */
    check(TWYNARVEL_SOUND);
    bring_up(0x6F);
}

/* An append that was accepted; then calls that are refused, and updates: all but for an update's byte, `at`, stays. */
static void not_counted(unsigned lun, unsigned k, size_t at)
{
    transfer(TWYNARVEL_WRITE, TWYNARVEL_RANDOM | TWYNARVEL_IMAGE, lun, k, 1);
    iocb(0x62, 0, 5);
    transfer(TWYNARVEL_WRITE, TWYNARVEL_RANDOM | TWYNARVEL_IMAGE, lun, k + 2, 1);
    iocb(0xC2, 0, 5);
    transfer(TWYNARVEL_WRITE, TWYNARVEL_NEXT | TWYNARVEL_IMAGE, lun, 0, TWYNARVEL_RECORD_BYTES + 1);
    iocb(0x84, 0, 5);
    transfer(TWYNARVEL_UPDATE, TWYNARVEL_RANDOM | TWYNARVEL_IMAGE, lun, k + 1, 1);
    iocb(0xC2, 0, 5);
    poke(TASK, 0, k ^ 0xFF);
    transfer(TWYNARVEL_UPDATE, TWYNARVEL_CURRENT | TWYNARVEL_IMAGE, lun, 0, 1);
    want_fill(IMAGE, at, 1, (int)(k ^ 0xFF));
    iocb(0x00, 1, 5);
}

/* Two files in turn, A variable and B fixed of one byte: 256 records each. Access blocks 3 and 4; A has sectors 5, 7, 8 and 9, B has 6. */
void counted_appends(void)
{
    unsigned k;
    rule("counts of appends (record)");
    lend(TASK, TWYNARVEL_RECORD_BYTES + 1, 0);
    lend(SHARED, 0, 0);
    empty(16, 1);
    make(0, TWYNARVEL_SEQUENTIAL, 0, 0);
    make(1, TWYNARVEL_SEQUENTIAL, 0, 1);
    seat(0, 0, TWYNARVEL_AT_START);
    seat(1, 1, TWYNARVEL_AT_START);
    for (k = 0; k < 256; k++) {
        int first = k < 64; /* in the first segment */
        unsigned s = first ? 5 : 6 + k / 64;
        size_t record = 256 * s + 4 * (k % 64);
        of(k, 0);
        poke(TASK, 0, k);
        transfer(TWYNARVEL_WRITE, TWYNARVEL_NEXT | TWYNARVEL_IMAGE, 0, 0, 1);
        area[IMAGE].want[256 + s / 8] |= (uint8_t)(128 >> s % 8);
        want_word(0x300, first ? 1 : 2);
        want_word(0x302, 1 + k / 64);
        want_word(0x306, 4 * (k + 1));
        want_word(first ? 0x308 : 0x30C, first ? 5 : 7);
        want_word(first ? 0x30A : 0x30E, first ? 1 : k / 64);
        want_word(record, 1);
        want_fill(IMAGE, record + 2, 1, (int)k);
        want_count(0, k + 1);
        want_fill(DESK, 5, 1, 1);
        want_fill(DESK, 11, 1, (int)k);
        iocb(0x00, 1, 5);
        not_counted(0, k, record + 2);
        transfer(TWYNARVEL_UPDATE, TWYNARVEL_CURRENT | TWYNARVEL_IMAGE, 0, 0, 2);
        iocb(0x61, 0, 5);

        of(k, 1);
        poke(TASK, 0, k);
        transfer(TWYNARVEL_WRITE, TWYNARVEL_NEXT, 1, 0, 1);
        want(IMAGE, 0x400, "0001 0001 00000000 0006 0001");
        want_word(0x406, k + 1);
        want_fill(IMAGE, 256, 1, area[IMAGE].want[256] | 128 >> 6);
        want_fill(IMAGE, 0x600 + k, 1, (int)k);
        want_count(1, k + 1);
        want_fill(DESK, 17, 1, 1);
        want_fill(DESK, 23, 1, (int)k);
        iocb(0x00, 1, 5);
        not_counted(1, k, 0x600 + k);
        check(TWYNARVEL_SOUND + 8 - k / 64);
    }

    rule("counts of appends: brought up");
    mark(0);
    zero_count(0);
    zero_count(1);
    want_back(0);
    bring_up(0x00);

    rule("counts of appends: no sector is left");
    make(2, TWYNARVEL_CONTIGUOUS, 5, 0);
    transfer(TWYNARVEL_WRITE, TWYNARVEL_NEXT, 1, 0, 1);
    iocb(0x63, 0, 5);
    check(TWYNARVEL_SOUND);

    rule("counts of appends: deleted, and made again");
    want_fill(DESK, 12, 12, 0);
    release(0x00, 5, 1);
    name_of(1);
    want_fill(IMAGE, 0x220, 32, 0);
    want_fill(IMAGE, 256, 1, 0xF5); /* 4 and 6 are free */
    erase(0x00, 5);
    taken("allocate", twynarvel_allocate(LENT(IMAGE), LENT(DESK), 5, LENT(NAME), TWYNARVEL_SEQUENTIAL, 0, 0, 0));
    want_count(1, 0);
    check(TWYNARVEL_SOUND + 1);
}
