/*
 * Compaction. Request 6 of document 02 says: "One step takes the highest-numbered data sector of any sequential file and moves its bytes to the
 * lowest free sector, if that one is lower; the file's segments are rewritten as the fewest that give the same order. A call takes a quota of
 * 0 to 2,048 and answers the sectors moved within its quota, and why it ended: settled, quota used, or a 63rd segment needed (that step isn't
 * made). Settled is named before quota, quota before segments. It refuses $6F, then $60 for a larger quota, and nothing else." The volumes
 * are written out here, byte by byte or at random. What has to become of them is written out too, or computed by those lines.
 */
#include "check.h"

enum { SECTOR = TWYNARVEL_SECTOR_BYTES, ENTRY = 32, MOST_SECTORS = 2048, MOST_SLOTS = 64, MOST_PAIRS = 62, MOST_BYTES = TWYNARVEL_RECORD_BYTES };
enum { SETTLED = 1, QUOTA = 2, SEGMENT = 3 };

/* ---- what a compaction has to make of a volume, by the lines above */

static unsigned word_at(const uint8_t *at)
{
    return 256u * at[0] + at[1];
}

static void set_word(uint8_t *at, unsigned value)
{
    at[0] = (uint8_t)(value / 256);
    at[1] = (uint8_t)value;
}

/* The trailer's words 2 and 4 are distances back from itself. */
static uint8_t *found(uint8_t *image, unsigned t, unsigned word)
{
    return image + SECTOR * (t - 1 - word_at(image + SECTOR * (t - 1) + word));
}

static unsigned slots_of(const uint8_t *image, unsigned t)
{
    return 8 * word_at(image + SECTOR * (t - 1) + 6);
}

static int is_marked(const uint8_t *sat, unsigned s)
{
    return sat[s / 8] >> (7 - s % 8) & 1;
}

static void set_mark(uint8_t *sat, unsigned s, int yes)
{
    unsigned bit = 128u >> s % 8;
    sat[s / 8] = (uint8_t)(yes ? sat[s / 8] | bit : sat[s / 8] & ~bit);
}

/* The file's sectors in their order, and how many. */
static unsigned order_in(const uint8_t *block, unsigned *order)
{
    unsigned pair, s, n = 0;
    for (pair = 0; pair < word_at(block); pair++)
        for (s = 0; s < word_at(block + 10 + 4 * pair); s++)
            order[n++] = word_at(block + 8 + 4 * pair) + s;
    return n;
}

/* How many segments give that order at least: a sector that comes right after the one before it needs none of its own. */
static unsigned least(const unsigned *order, unsigned n)
{
    unsigned k, pairs = 0;
    for (k = 0; k < n; k++)
        pairs += k == 0 || order[k] != order[k - 1] + 1;
    return pairs;
}

static void write_pairs(uint8_t *block, const unsigned *order, unsigned n)
{
    unsigned k, pairs = 0;
    memset(block + 8, 0, SECTOR - 8);
    for (k = 0; k < n; k++) {
        if (k == 0 || order[k] != order[k - 1] + 1)
            set_word(block + 8 + 4 * pairs++, order[k]);
        set_word(block + 6 + 4 * pairs, word_at(block + 6 + 4 * pairs) + 1);
    }
    set_word(block, pairs);
}

/* The access block of the file with the highest data sector, or NULL. */
static uint8_t *highest(uint8_t *image, unsigned t, unsigned *high)
{
    static unsigned order[MOST_SECTORS];
    uint8_t *its_block = NULL;
    unsigned slot, k;
    *high = 0;
    for (slot = 0; slot < slots_of(image, t); slot++) {
        const uint8_t *entry = found(image, t, 4) + ENTRY * slot;
        uint8_t *block = image + SECTOR * word_at(entry + 26);
        if (entry[0] != 1 || entry[1] != 1)
            continue;
        for (k = order_in(block, order); k-- > 0;)
            if (order[k] > *high) {
                *high = order[k];
                its_block = block;
            }
    }
    return its_block;
}

static unsigned model(uint8_t *image, unsigned t, uint32_t quota, unsigned *moved)
{
    static unsigned order[MOST_SECTORS];
    uint8_t *sat = found(image, t, 2);
    for (*moved = 0;; ++*moved) {
        unsigned high, low = 0, n, k;
        uint8_t *block = highest(image, t, &high);
        while (low < t && is_marked(sat, low))
            low++;
        if (block == NULL || low >= high)
            return SETTLED;
        if (*moved == quota)
            return QUOTA;
        n = order_in(block, order);
        for (k = 0; order[k] != high; k++)
            ;
        order[k] = low;
        if (least(order, n) > MOST_PAIRS)
            return SEGMENT;
        memcpy(image + SECTOR * low, image + SECTOR * high, SECTOR);
        set_mark(sat, low, 1);
        set_mark(sat, high, 0);
        write_pairs(block, order, n);
    }
}

/* An accepted compaction: its report as it is given here, the image as the model makes it. */
static void close_up(unsigned ending, unsigned moved, uint32_t quota)
{
    unsigned its_moved;
    model(area[IMAGE].want, (unsigned)(area[IMAGE].len / SECTOR), quota, &its_moved);
    compact(0x00, ending, moved, quota);
}

/* The same with the model's report. */
static unsigned close_up_by_model(uint32_t quota)
{
    unsigned moved, ending = model(area[IMAGE].want, (unsigned)(area[IMAGE].len / SECTOR), quota, &moved);
    compact(0x00, ending, moved, quota);
    return ending;
}

/* ---- volumes */

/* Numbers at random: the same in each run. */
static uint32_t seed;
static unsigned below(unsigned limit)
{
    seed ^= seed << 13;
    seed ^= seed >> 17;
    seed ^= seed << 5;
    return (seed >> 8) % limit;
}

static unsigned size; /* of the volume that is being made */

/* A volume with no file. Its free sectors hold bytes of no meaning; so does sector 0 after the ID, which is the owner's text. */
static void begin(unsigned t, unsigned dirs, unsigned sat, unsigned dir)
{
    uint8_t *image = area[IMAGE].want;
    size_t k;
    unsigned s;
    size = t;
    lend(IMAGE, SECTOR * t, 0);
    for (k = 0; k < SECTOR * (size_t)t; k++)
        image[k] = (uint8_t)below(256);
    memcpy(image, "VOL1", 4);
    memset(image + SECTOR * sat, 0xFF, SECTOR);
    memset(image + SECTOR * dir, 0, SECTOR * (size_t)dirs);
    memset(image + SECTOR * (t - 1), 0, SECTOR);
    set_word(image + SECTOR * (t - 1), t);
    set_word(image + SECTOR * (t - 1) + 2, t - 1 - sat);
    set_word(image + SECTOR * (t - 1) + 4, t - 1 - dir);
    set_word(image + SECTOR * (t - 1) + 6, dirs);
    for (s = 1; s < t - 1; s++)
        set_mark(image + SECTOR * sat, s, s == sat || (s >= dir && s < dir + dirs));
    lend(DESK, TWYNARVEL_DESK_BYTES, 0);
    lend(TASK, 0, 0);
    lend(SHARED, 0, 0);
    lend(REPORT, TWYNARVEL_REPORT_BYTES, 0xBB);
}

static void take(unsigned s)
{
    set_mark(found(area[IMAGE].want, size, 2), s, 1);
}

static int taken(unsigned s)
{
    return is_marked(found(area[IMAGE].want, size, 2), s);
}

/* An entry of user 5: the file's name is F and the slot's number. */
static uint8_t *enter(unsigned slot, unsigned kind, unsigned length, unsigned start)
{
    uint8_t *entry = found(area[IMAGE].want, size, 4) + ENTRY * slot;
    memset(entry, ' ', ENTRY);
    entry[0] = 1;
    entry[1] = (uint8_t)kind;
    set_word(entry + 2, 5);
    entry[12] = 'F';
    entry[13] = (uint8_t)('0' + slot / 10);
    entry[14] = (uint8_t)('0' + slot % 10);
    entry[20] = 'D';
    set_word(entry + 22, 0);
    set_word(entry + 24, length);
    set_word(entry + 26, start);
    set_word(entry + 28, 0);
    set_word(entry + 30, 0);
    return entry;
}

static void contiguous(unsigned slot, unsigned first, unsigned n)
{
    set_word(enter(slot, TWYNARVEL_CONTIGUOUS, 0, first) + 28, n);
    while (n-- > 0)
        take(first + n);
}

/* Where byte b of a stream is, by the order of its sectors. */
static uint8_t *byte_of(const unsigned *order, unsigned b)
{
    return area[IMAGE].want + SECTOR * order[b / SECTOR] + b % SECTOR;
}

/* Variable records of any length that fit; the last ends in the last sector. The rest of it is zero. Returns the length of the stream. */
static unsigned fill_variable(const unsigned *order, unsigned n, unsigned *records)
{
    unsigned at = 0, k;
    for (*records = 0; at + SECTOR <= SECTOR * n; ++*records) {
        unsigned room = SECTOR * n - at - 2, count = below((room < MOST_BYTES ? room : MOST_BYTES) + 1);
        *byte_of(order, at) = (uint8_t)(count / 256);
        *byte_of(order, at + 1) = (uint8_t)count;
        at += 2 + count;
        if (count % 2)
            *byte_of(order, at++) = 0;
    }
    for (k = at; k < SECTOR * n; k++)
        *byte_of(order, k) = 0;
    return at;
}

/* Fixed records, whose length is a power of 2 up to 256. */
static unsigned fill_fixed(const unsigned *order, unsigned n, unsigned length, unsigned *records)
{
    unsigned k, end = n ? SECTOR * (n - 1) + length * (1 + below(SECTOR / length)) : 0;
    for (k = end; k < SECTOR * n; k++)
        *byte_of(order, k) = 0;
    *records = end / length;
    return end;
}

/* A sequential file with these segments, given as pairs of numbers and ended by 0. Variable if the length is 0. */
static void sequential(unsigned slot, unsigned block, unsigned length, const unsigned *pairs)
{
    static unsigned order[MOST_SECTORS];
    uint8_t *bytes = area[IMAGE].want + SECTOR * block, *entry = enter(slot, TWYNARVEL_SEQUENTIAL, length, block);
    unsigned k, n, records, end;
    memset(bytes, 0, SECTOR);
    take(block);
    for (k = 0; pairs[2 * k] != 0; k++) {
        set_word(bytes + 8 + 4 * k, pairs[2 * k]);
        set_word(bytes + 10 + 4 * k, pairs[2 * k + 1]);
    }
    set_word(bytes, k);
    n = order_in(bytes, order);
    for (k = 0; k < n; k++)
        take(order[k]);
    end = length ? fill_fixed(order, n, length, &records) : fill_variable(order, n, &records);
    set_word(bytes + 2, n);
    set_word(bytes + 4, end / 65536);
    set_word(bytes + 6, end % 65536);
    set_word(entry + 28, records / 65536);
    set_word(entry + 30, records % 65536);
}

/* The volume is made: it is sound, and so many sectors are free. */
static void made(unsigned free_sectors)
{
    put(IMAGE, 0, "");
    put(DESK, 0, "");
    check(TWYNARVEL_SOUND + free_sectors);
}

/* Six sectors of one file above six that are free, where format puts SAT and directory. Its order falls when they are moved. */
static void six(void)
{
    static const unsigned pairs[] = {10, 6, 0};
    seed = 6;
    begin(24, 1, 1, 2);
    sequential(0, 9, 0, pairs);
    made(13);
}

/* ---- tests written out */

/* The small volume of the other sections, without X: 3 to 5 are free, so that Z's 9 goes to 3 and Y's 7 to 4. */
void closed_house(void)
{
    rule("compact: settled, with contiguous files and access blocks");
    house(4, 0);
    compact(0x00, SETTLED, 0, 0);
    compact(0x00, SETTLED, 0, 1);
    compact(0x00, SETTLED, 0, 2048);
    compact(0x60, 0, 0, 2049);

    rule("compact: two steps");
    put(DESK, 12, "00 00 0000 00 00 0000 00000000"); /* LUN 1, which holds X */
    want_fill(IMAGE, 0x200, 32, 0);
    want(IMAGE, 0x100, "E3");
    name(FILE_X);
    erase(0x00, 5);
    mark(0);
    compact(0x00, QUOTA, 0, 0);
    memcpy(area[IMAGE].want + 0x300, area[IMAGE].at + 0x900, 256);
    want(IMAGE, 0x100, "F3 81");
    want(IMAGE, 0x800, "0001 0001 00000008 0003 0001");
    compact(0x00, QUOTA, 1, 1);
    check(TWYNARVEL_SOUND + 8);
    memcpy(area[IMAGE].want + 0x400, area[IMAGE].at + 0x700, 256);
    want(IMAGE, 0x100, "FA 81");
    want(IMAGE, 0x600, "0001 0001 00000016 0004 0001");
    compact(0x00, SETTLED, 1, 1);
    check(TWYNARVEL_SOUND + 8);
    compact(0x00, SETTLED, 0, 1);
    mark(1);

    rule("compact: two steps in one call (quota)");
    {
        static const uint32_t quota[5] = {2, 3, 256, 2047, 2048};
        unsigned k;
        for (k = 0; k < 5; k++) {
            of(quota[k], 0);
            back(0);
            want_back(1);
            compact(0x00, SETTLED, 2, quota[k]);
        }
    }

    rule("compact: places go on, and reads return what they did");
    transfer(TWYNARVEL_READ, TWYNARVEL_CURRENT | TWYNARVEL_IMAGE, 0, 0, 4); /* LUN 0 is at record 1 of Y */
    want(TASK, 0, "41");
    iocb(0x00, 1, 5);
    transfer(TWYNARVEL_READ, TWYNARVEL_NEXT | TWYNARVEL_IMAGE, 0, 0, 4);
    want(TASK, 0, "FF82");
    want(DESK, 8, "00000002");
    iocb(0x00, 2, 5);
    transfer(TWYNARVEL_READ, TWYNARVEL_RANDOM | TWYNARVEL_IMAGE, 2, 1, 4);
    want(TASK, 0, "31202032");
    want(DESK, 29, "01 0000 00000001");
    iocb(0x00, 4, 5);
    put(TASK, 0, "51525354");
    transfer(TWYNARVEL_WRITE, TWYNARVEL_NEXT | TWYNARVEL_IMAGE, 2, 0, 4);
    want(IMAGE, 0x308, "51525354"); /* Z is in sector 3 */
    want(IMAGE, 0x804, "0000000C");
    want(IMAGE, 0x25C, "00000003");
    want(DESK, 32, "00000002");
    iocb(0x00, 4, 5);
}

/* The small volume of document 01 after its step 6, which is one step away from settled; then eight sectors, which were $63, start at 7. */
void small_volume_closed(void)
{
    unsigned k;
    rule("compact: the small volume");
    lend(IMAGE, 4096, 0);
    put(IMAGE, 0x000, "564F4C31");
    want_fill(IMAGE, 0x100, 256, 0xFF);
    put(IMAGE, 0x100, "F3 01");
    put(IMAGE, 0x220, "01 01" FILE_Y "0000 0000 0006 00000002");
    put(IMAGE, 0x600, "0002 0002 00000102 0007 0001 0003 0001");
    put(IMAGE, 0x700, "0003 414243 00 00FA");
    for (k = 0; k < 248; k++)
        poke(IMAGE, 0x708 + k, k + 1);
    put(IMAGE, 0x300, "F9FA");
    put(IMAGE, 0xF00, "0010 000E 000D 0001");
    lend(DESK, TWYNARVEL_DESK_BYTES, 0);
    put(DESK, 0, "01 04 0005 01 01 0000 00000001");
    lend(TASK, 250, 0xEE);
    lend(SHARED, 0, 0);
    lend(REPORT, TWYNARVEL_REPORT_BYTES, 0xBB);
    check(TWYNARVEL_SOUND + 9);
    name(FILE_X);
    allocate(0x63, 5, TWYNARVEL_CONTIGUOUS, 8, 0, 0);
    compact(0x00, QUOTA, 0, 0);
    compact(0x60, 0, 0, 2049);
    memcpy(area[IMAGE].want + 0x400, area[IMAGE].at + 0x700, 256);
    want(IMAGE, 0x100, "FA");
    want(IMAGE, 0x608, "0004 0001 0003 0001");
    compact(0x00, SETTLED, 1, 1);
    check(TWYNARVEL_SOUND + 9);
    compact(0x00, SETTLED, 0, 0);
    compact(0x00, SETTLED, 0, 2048);
    transfer(TWYNARVEL_READ, TWYNARVEL_CURRENT | TWYNARVEL_IMAGE, 0, 0, 250);
    for (k = 0; k < 250; k++)
        want_fill(TASK, k, 1, (int)k + 1);
    iocb(0x00, 250, 5);
    want(IMAGE, 0x100, "FB FF");
    want(IMAGE, 0x200, "01 00" FILE_X "0000 0000 0007 0008 0000");
    want_fill(IMAGE, 0x700, 2048, 0);
    allocate(0x00, 5, TWYNARVEL_CONTIGUOUS, 8, 0, 0);
    check(TWYNARVEL_SOUND + 1);
    compact(0x00, SETTLED, 0, 2048); /* 5 is free, and not lower than 4 */
}

/* "A quota of 0 to 2,048": 2,049 and more is $60, of a settled volume too. */
void quotas(void)
{
    static const uint32_t more[] = {2049, 2050, 4096, 65535, 65536, 65537, 67584, 0x7FFFFFFF, 0x80000000, 0x80000001, 0xFFFFF800, 0xFFFFFFFF};
    uint32_t quota;
    unsigned k, settled;
    for (settled = 0; settled < 2; settled++) {
        rule(settled ? "compact: a quota above 2,048, settled" : "compact: a quota above 2,048");
        six();
        if (settled)
            close_up(SETTLED, 6, 6);
        for (k = 0; k < sizeof more / sizeof more[0]; k++) {
            of(more[k], settled);
            compact(0x60, 0, 0, more[k]);
        }
    }
    rule("compact: every quota");
    six();
    mark(0);
    for (quota = 0; quota <= 2048; quota += quota < 20 || quota > 2040 ? 1 : 7) {
        of(quota, 0);
        back(0);
        close_up(quota < 6 ? QUOTA : SETTLED, quota < 6 ? quota : 6, quota);
    }
    rule("compact: one step a call");
    back(0);
    for (k = 1; k < 6; k++)
        close_up(QUOTA, 1, 1);
    close_up(SETTLED, 1, 1);
    close_up(SETTLED, 0, 1);
    rule("compact: the order of six sectors that are moved falls");
    back(0);
    want(IMAGE, 0x900, "0006"); /* the length of the stream stays */
    want(IMAGE, 0x908, "0008 0001 0007 0001 0006 0001 0005 0001 0004 0001 0003 0001");
    want(IMAGE, 0x100, "FFC0");
    for (k = 0; k < 6; k++)
        memcpy(area[IMAGE].want + 256 * (3 + k), area[IMAGE].at + 256 * (15 - k), 256);
    compact(0x00, SETTLED, 6, 6);
}

/* A report of another length than four is not written; nor is one of four after a refusal. The call is carried out all the same. */
void reports(void)
{
    static const uint32_t quota[5] = {0, 5, 6, 2048, 2049};
    size_t len;
    unsigned k;
    rule("reports (length, quota)");
    six();
    mark(0);
    for (len = 0; len <= 8; len++)
        for (k = 0; k < 5; k++) {
            of((unsigned)len, quota[k]);
            back(0);
            lend(REPORT, len, 0xBB);
            if (quota[k] == 2049)
                compact(0x60, 0, 0, quota[k]);
            else
                close_up(quota[k] < 6 ? QUOTA : SETTLED, quota[k] < 6 ? quota[k] : 6, quota[k]);
            poke(IMAGE, 0x200, 2); /* no entry begins so */
            compact(0x6F, 0, 0, quota[k]);
        }
    rule("reports: none");
    back(0);
    lend_null(REPORT);
    close_up(SETTLED, 6, 6);
    rule("reports: a long one");
    back(0);
    lend(REPORT, 65536, 0xBB);
    close_up(SETTLED, 6, 6);
    rule("reports: more than 255 sectors");
    {
        static unsigned pairs[6][2 * MOST_PAIRS + 1];
        unsigned slot;
        seed = 256;
        begin(640, 1, 1, 2);
        for (slot = 0; slot < 6; slot++) {
            for (k = 0; k < 50; k++) {
                pairs[slot][2 * k] = 330 + 6 * k + slot;
                pairs[slot][2 * k + 1] = 1;
            }
            sequential(slot, 4 + slot, 16, pairs[slot]);
        }
        made(640 - 4 - 306);
        close_up(QUOTA, 255, 255);
        close_up(SETTLED, 45, 2048);
        seed = 256;
        begin(640, 1, 1, 2);
        for (slot = 0; slot < 6; slot++)
            sequential(slot, 4 + slot, 16, pairs[slot]);
        made(640 - 4 - 306);
        close_up(SETTLED, 300, 2048);
    }
}

/* One step of a file of fixed records with access block 20, in a volume of 32 sectors; then it has these segments. */
static void joined(unsigned which, const unsigned *pairs, const char *after, unsigned ending)
{
    unsigned moved;
    of(which, 0);
    seed = which;
    begin(32, 1, 1, 2);
    sequential(3, 20, 64, pairs);
    put(IMAGE, 0, "");
    model(area[IMAGE].want, 32, 1, &moved);
    want_fill(IMAGE, 0x1408, 248, 0);
    want(IMAGE, 0x1408, after);
    compact(0x00, ending, 1, 1);
}

/* "The fewest that give the same order": joined with what is before and after, whatever the segments were. */
void segments_joined(void)
{
    static const unsigned between[] = {3, 1, 12, 1, 5, 1, 0}, before[] = {3, 2, 12, 1, 7, 1, 0}, after[] = {12, 1, 5, 2, 3, 1, 0};
    static const unsigned cut[] = {4, 1, 10, 3, 6, 1, 0}, cut_and_joined[] = {6, 1, 11, 2, 4, 1, 0}, first[] = {12, 1, 4, 1, 0};
    static const unsigned loose[] = {4, 1, 5, 1, 6, 2, 12, 1, 8, 1, 9, 1, 0}, falling[] = {13, 1, 12, 1, 11, 1, 10, 1, 0};
    static const unsigned lowest[] = {3, 1, 4, 1, 5, 1, 0};
    rule("compact: segments");
    joined(1, between, "0003 0003", SETTLED);
    joined(2, before, "0003 0003 0007 0001", QUOTA);
    joined(3, after, "0004 0003 0003 0001", SETTLED);
    joined(4, cut, "0004 0001 000A 0002 0003 0001 0006 0001", QUOTA);
    joined(5, cut_and_joined, "0006 0001 000B 0001 0003 0002", QUOTA);
    joined(6, first, "0003 0002", SETTLED);
    joined(7, loose, "0004 0004 0003 0001 0008 0002", SETTLED);
    joined(8, falling, "0003 0001 000C 0001 000B 0001 000A 0001", QUOTA);
    rule("compact: segments that no step touches stay as they are");
    seed = 9;
    begin(32, 1, 1, 2);
    sequential(0, 20, 0, lowest);
    made(24);
    compact(0x00, SETTLED, 0, 2048);
}

/* 62 segments: 61 sectors with gaps between them, from 5 on, and a last segment from 127 on; access block 3. Free are 4, 6, 8 and so on. */
static void sixty_two(unsigned last)
{
    static unsigned pairs[2 * MOST_PAIRS + 1];
    unsigned k;
    for (k = 0; k < MOST_PAIRS; k++) {
        pairs[2 * k] = 5 + 2 * k;
        pairs[2 * k + 1] = k == 61 ? last : 1;
    }
    seed = last;
    begin(150, 1, 1, 2);
    sequential(0, 3, 0, pairs);
}

/* "A 63rd segment needed (that step isn't made)"; "Settled is named before quota, quota before segments". */
void segments_at_most(void)
{
    static const unsigned above[] = {140, 3, 0}, beneath[] = {20, 1, 24, 1, 0};
    static unsigned all[2 * 62 + 1];
    unsigned k;
    rule("compact: a 63rd segment");
    sixty_two(2);
    made(150 - 5 - 63);
    compact(0x00, QUOTA, 0, 0);
    compact(0x00, SEGMENT, 0, 1);
    compact(0x00, SEGMENT, 0, 2048);
    compact(0x60, 0, 0, 2049);

    rule("compact: 62 segments stay 62");
    sixty_two(1);
    made(150 - 5 - 62);
    close_up(QUOTA, 1, 1);
    compare("the number of segments", 62, word_at(area[IMAGE].at + 0x300));
    close_up_by_model(2048);

    rule("compact: sectors of another file first");
    sixty_two(2);
    sequential(1, 148, 1, above);
    sequential(2, 147, 2, beneath);
    made(150 - 5 - 63 - 4 - 3);
    close_up(QUOTA, 3, 3);
    compact(0x00, QUOTA, 0, 0);
    compact(0x00, SEGMENT, 0, 1);
    compact(0x00, SEGMENT, 0, 2048);
    sixty_two(2);
    sequential(1, 148, 1, above);
    sequential(2, 147, 2, beneath);
    made(150 - 5 - 63 - 4 - 3);
    close_up(SEGMENT, 3, 4);
    check(TWYNARVEL_SOUND + 150 - 5 - 63 - 4 - 3);

    rule("compact: settled before a 63rd segment");
    sixty_two(2);
    for (k = 0; k < 62; k++) {
        all[2 * k] = 4 + 2 * k;
        all[2 * k + 1] = 1;
    }
    sequential(1, 140, 256, all);
    made(150 - 5 - 63 - 63);
    compact(0x00, SETTLED, 0, 0);
    compact(0x00, SETTLED, 0, 2048);

    rule("compact: one long segment");
    {
        static const unsigned pairs[] = {120, 100, 0};
        seed = 100;
        begin(250, 1, 1, 2);
        sequential(0, 3, 0, pairs);
        made(250 - 5 - 100);
        close_up(QUOTA, 60, 60);
        close_up(QUOTA, 1, 1);
        compact(0x00, QUOTA, 0, 0);
        compact(0x00, SEGMENT, 0, 1);
    }
}

/* 256 times T is 4,096. */
void closed_lengths(void)
{
    static const size_t far[4] = {65536, 2047 * 256, 2048 * 256, 2049 * 256};
    size_t len;
    unsigned k;
    rule("compact: an image of another length");
    house(0, 0);
    mark(0);
    for (len = 0; len <= 4400; len++) {
        of((unsigned)len, 0);
        back_as(0, len);
        compact(len == 4096 ? 0x00 : 0x6F, SETTLED, 0, 1);
        compact(len == 4096 ? 0x60 : 0x6F, 0, 0, 2049);
    }
    for (k = 0; k < 4; k++) {
        of((unsigned)far[k], 0);
        back_as(0, far[k]);
        compact(0x6F, 0, 0, 1);
    }
    rule("compact: any bytes");
    for (k = 0; k < 256; k++) {
        of(k, 0);
        lend(IMAGE, 4096, (int)k);
        compact(0x6F, 0, 0, k);
    }
}

static void each_value(const char *text, size_t from, unsigned bytes, int (*good)(unsigned byte, unsigned v))
{
    unsigned byte, v;
    rule(text);
    house(0, 0);
    lend(DESK, TWYNARVEL_DESK_BYTES, 0); /* the volume alone is judged */
    for (byte = 0; byte < bytes; byte++) {
        unsigned old = area[IMAGE].at[from + byte];
        for (v = 0; v < 256; v++) {
            if (byte >= 32 && v > 1 && v < 0xFF)
                continue; /* bytes that have to be zero: a few values will do */
            of(byte, v);
            poke(IMAGE, from + byte, v);
            compact(good(byte, v) ? 0x00 : 0x6F, SETTLED, 0, 1);
            compact(good(byte, v) ? 0x60 : 0x6F, 0, 0, 2049);
        }
        poke(IMAGE, from + byte, old);
    }
}

/* The volume has to be sound: the small volume with one byte or bit another. */
void closed_bytes(void)
{
    unsigned s;
    each_value("compact: the trailer (byte, value)", 0xF00, 256, trailer_byte);
    each_value("compact: an entry (byte, value)", 0x220, 32, entry_byte);
    each_value("compact: an access block (byte, value)", 0x600, 256, block_byte);
    rule("compact: one bit of the SAT inverted");
    six();
    for (s = 0; s < 2048; s++) {
        of(s, 0);
        poke(IMAGE, 256 + s / 8, area[IMAGE].at[256 + s / 8] ^ 128u >> s % 8);
        compact(0x6F, 0, 0, 2048);
        poke(IMAGE, 256 + s / 8, area[IMAGE].at[256 + s / 8] ^ 128u >> s % 8);
    }
    rule("compact: a record count");
    poke(IMAGE, 0x21C, 1);
    compact(0x6F, 0, 0, 2048);
    poke(IMAGE, 0x21C, 0);
    close_up(SETTLED, 6, 2048);
}

/* $6F (desk bytes), $6F (volume, desk), $60. */
void order_of_compact(void)
{
    rule("order: compact");
    house(0, 0);
    lend(DESK, 193, 0);
    poke(IMAGE, 0xF08, 1);
    compact(0x6F, 0, 0, 2049);
    lend(DESK, 192, 0);
    poke(DESK, 187, 1); /* a stray byte in a free LUN */
    compact(0x6F, 0, 0, 2049);
    poke(DESK, 187, 0);
    compact(0x6F, 0, 0, 2049);
    poke(IMAGE, 0xF08, 0);
    put(DESK, 180, "01 00 0005 03 00 0000 00000000"); /* an unused entry */
    compact(0x6F, 0, 0, 2049);
    put(DESK, 180, "01 00 0005 01 01 0000 00000005"); /* Y has five records */
    compact(0x6F, 0, 0, 2049);
    put(DESK, 180, "01 00 0005 01 01 0000 00000004");
    compact(0x60, 0, 0, 2049);
    compact(0x00, SETTLED, 0, 2048);
}

/* ---- volumes at random */

/* A free sector, or 0 if there is none. */
static unsigned any_free(void)
{
    unsigned k, s = below(size);
    for (k = 0; k < size; k++, s = (s + 1) % size)
        if (!taken(s))
            return s;
    return 0;
}

static void any_contiguous(unsigned slot, unsigned longest)
{
    unsigned first = any_free(), n = 0;
    while (first && n < 1 + below(longest) && first + n < size && !taken(first + n))
        n++;
    if (n)
        contiguous(slot, first, n);
}

/* Segments that grow by the sector after them or begin anywhere; at times one follows the one before it directly, and is not joined. */
static void any_sequential(unsigned slot, unsigned longest)
{
    static unsigned pairs[2 * MOST_PAIRS + 1];
    unsigned block = any_free(), left = below(longest + 1), n = 0, near = below(4);
    if (!block)
        return;
    take(block);
    for (; left > 0; left--) {
        unsigned after = n ? pairs[2 * n - 2] + pairs[2 * n - 1] : 0;
        unsigned s = n && after < size && !taken(after) && below(4) < near ? after : any_free();
        if (!s)
            break;
        if (s == after && below(4)) {
            pairs[2 * n - 1]++;
        } else {
            if (n == MOST_PAIRS)
                break;
            pairs[2 * n] = s;
            pairs[2 * n + 1] = 1;
            n++;
        }
        take(s);
    }
    pairs[2 * n] = 0;
    sequential(slot, block, below(2) ? 0 : 1u << below(9), pairs);
}

/* A LUN of user 6 that reads some file, Fresh or at one of its records or sectors. */
static void any_lun(unsigned lun)
{
    unsigned slot = below(slots_of(area[IMAGE].want, size)), extent;
    const uint8_t *entry = found(area[IMAGE].want, size, 4) + ENTRY * slot;
    uint8_t *twelve = area[DESK].want + TWYNARVEL_LUN_BYTES * lun;
    if (entry[0] != 1)
        return;
    twelve[0] = 1;
    set_word(twelve + 2, 6);
    twelve[4] = (uint8_t)slot;
    extent = entry[1] == 0 ? word_at(entry + 28) : 65536 * word_at(entry + 28) + word_at(entry + 30);
    if (extent && below(4)) {
        unsigned i = below(extent);
        twelve[5] = 1;
        set_word(twelve + 8, i / 65536);
        set_word(twelve + 10, i % 65536);
    }
}

/* Returns how many sectors are free. */
static unsigned any_volume(unsigned t, unsigned files, unsigned longest)
{
    unsigned dirs = 1 + below(t < 40 ? 2 : 8), sat = 1, dir = 2, k, s, free_sectors = 0;
    if (below(3) == 0) { /* elsewhere than format puts them */
        dir = 1 + below(t - 1 - dirs);
        do
            sat = 1 + below(t - 2);
        while (sat >= dir && sat < dir + dirs);
    }
    begin(t, dirs, sat, dir);
    for (k = 0; k < files; k++) {
        unsigned slot = below(8 * dirs);
        if (found(area[IMAGE].want, t, 4)[ENTRY * slot] != 0)
            continue;
        if (below(4) == 0)
            any_contiguous(slot, longest);
        else
            any_sequential(slot, longest);
    }
    for (k = 0; k < 16; k++)
        any_lun(k);
    for (s = 0; s < t; s++)
        free_sectors += !taken(s);
    made(free_sectors);
    return free_sectors;
}

/* What a read of the LUN's current record or sector returns, if it has one: its length, and its bytes in `bytes`. */
enum { LUNS = 16 };
static uint8_t bytes[LUNS][MOST_BYTES];
static uint32_t length[LUNS];

static int has_place(unsigned lun)
{
    return area[DESK].at[TWYNARVEL_LUN_BYTES * lun] == 1 && area[DESK].at[TWYNARVEL_LUN_BYTES * lun + 5] != 0;
}

static void current(unsigned lun)
{
    const uint8_t *twelve = area[DESK].at + TWYNARVEL_LUN_BYTES * lun;
    size_t len = found(area[IMAGE].want, size, 4)[ENTRY * twelve[4] + 1] == TWYNARVEL_CONTIGUOUS ? SECTOR : MOST_BYTES;
    lend(TASK, len, 0xEE);
    transfer(TWYNARVEL_READ, TWYNARVEL_CURRENT | TWYNARVEL_IMAGE, lun, 0, len);
}

static void read_before(void)
{
    unsigned lun, k;
    for (lun = 0; lun < LUNS; lun++)
        if (has_place(lun)) {
            uint32_t got;
            current(lun);
            got = twynarvel_iocb(LENT(BLOCK), LENT(IMAGE), LENT(DESK), LENT(TASK), LENT(SHARED), 6);
            memcpy(bytes[lun], area[TASK].at, area[TASK].len);
            memcpy(area[TASK].want, area[TASK].at, area[TASK].len);
            memcpy(area[BLOCK].want, area[BLOCK].at, area[BLOCK].len);
            for (length[lun] = 0, k = 0; k < 4; k++)
                length[lun] = 256 * length[lun] + area[BLOCK].at[TWYNARVEL_BLOCK_LENGTH + k];
            compare("iocb", 0x00, got);
        }
}

/* "Nothing that any read returns." */
static void read_after(void)
{
    unsigned lun;
    for (lun = 0; lun < LUNS; lun++)
        if (has_place(lun)) {
            current(lun);
            memcpy(area[TASK].want, bytes[lun], area[TASK].len);
            iocb(0x00, length[lun], 6);
        }
}

/* Some calls with quotas at random, then the rest. */
static void some_nights(unsigned free_sectors)
{
    unsigned k;
    for (k = below(4); k > 0; k--) {
        close_up_by_model(below(2) ? below(4) : below(2049));
        check(TWYNARVEL_SOUND + free_sectors);
    }
    compact(0x60, 0, 0, 2049 + below(1000));
    k = close_up_by_model(2048);
    compact(0x00, k, 0, 2048); /* the same ending again, and nothing to move */
    compact(0x00, k == SETTLED ? SETTLED : QUOTA, 0, 0);
    check(TWYNARVEL_SOUND + free_sectors);
}

void closed_at_random(void)
{
    unsigned k;
    rule("compact: a volume at random (number)");
    for (k = 0; k < 1500; k++) {
        unsigned free_sectors;
        of(k, 0);
        seed = 2654435761u * (k + 1 + 100000u * (unsigned)after_fence);
        if (k % 3 == 0)
            free_sectors = any_volume(16 + below(25), 1 + below(8), 1 + below(8));
        else if (k % 3 == 1)
            free_sectors = any_volume(40 + below(100), 1 + below(24), 1 + below(12));
        else /* few files, of many segments */
            free_sectors = any_volume(120 + below(100), 1 + below(4), 150);
        read_before();
        some_nights(free_sectors);
        read_after();
    }
}

/* The largest volumes. First at random; then the most steps, but for a few: every one of 1,003 sectors of 17 files is moved. */
void closed_large(void)
{
    static unsigned pairs[2 * MOST_PAIRS + 1];
    unsigned k, n, calls;
    rule("compact: a large volume at random (number)");
    for (k = 0; k < 6; k++) {
        of(k, 0);
        seed = 40503u * (k + 1);
        some_nights(any_volume(k % 2 ? 2048 : 2047, 64, k % 3 ? 62 : 200));
    }
    for (calls = 0; calls < 2; calls++) {
        rule(calls ? "compact: the most steps, by sevens" : "compact: the most steps");
        seed = 17;
        begin(2048, 3, 1, 2);
        for (k = 0; k < 17; k++) {
            for (n = 0; n < 59; n++) {
                pairs[2 * n] = 1044 + 17 * n + k;
                pairs[2 * n + 1] = 1;
            }
            pairs[2 * n] = 0;
            sequential(k, 5 + k, k % 2 ? 0 : 128, pairs);
        }
        made(1022);
        for (n = 0; calls && n < 143; n++)
            close_up(QUOTA, 7, 7);
        close_up(SETTLED, calls ? 2 : 1003, 2048);
        check(TWYNARVEL_SOUND + 1022);
        compact(0x00, SETTLED, 0, 2048);
    }
}
