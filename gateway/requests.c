/* Request codes, options, selectors, and the parts of the two areas. */
#include "check.h"

/*
 * "Request code $00 with function $01 read, $02 write, $08 update; request code $01 with function $02 rewind": all 65,536 pairs. The area is
 * bad, so that a supported transfer is $84. Rewind does not look at it; LUN 1 is Fresh, so that nothing changes.
 */
void request_codes(void)
{
    unsigned code, function;
    house(8, 8);
    rule("request code and function");
    for (code = 0; code < 256; code++)
        for (function = 0; function < 256; function++) {
            uint32_t status = 0x82;
            if (code == 0x00 && (function == 0x01 || function == 0x02 || function == 0x08))
                status = 0x84;
            if (code == 0x01 && function == 0x02)
                status = 0x00;
            of(code, function);
            request(code, function, 0, 1, 0, 1, 0);
            iocb(status, 0, 5);
        }
}

/* Table 3-6 bit by bit, from bit 15 down: what a transfer may have set. Rewind: bits 2 and 8 alone. */
static const struct {
    unsigned bit;
    int transfer, rewind;
} table[16] = {
    {15, 0, 0}, /* task ID */
    {14, 1, 0}, /* selector */
    {13, 1, 0}, /* selector */
    {12, 0, 0}, /* format option */
    {11, 0, 0}, /* retry */
    {10, 0, 0}, /* input image */
    {9, 0, 0},  /* completion address */
    {8, 1, 1},  /* key with record: means nothing here */
    {7, 0, 0},  /* access by key */
    {6, 0, 0},  /* block access */
    {5, 0, 0},  /* echo */
    {4, 0, 0},  /* break */
    {3, 1, 0},  /* image */
    {2, 1, 1},  /* connection wait: means nothing here */
    {1, 0, 0},  /* proceed */
    {0, 1, 0},  /* binary */
};

static int may_be(unsigned word, int is_rewind)
{
    int k;
    unsigned weight = 32768;
    for (k = 0; k < 16; k++) {
        if (word >= weight) {
            if (is_rewind ? !table[k].rewind : !table[k].transfer)
                return 0;
            word -= weight;
        }
        weight /= 2;
    }
    return 1;
}

/* Every options word, for each supported function; the area is bad as above. */
void options(void)
{
    static const unsigned functions[3] = {TWYNARVEL_READ, TWYNARVEL_WRITE, TWYNARVEL_UPDATE};
    unsigned word, k;
    house(8, 8);
    rule("options (function, word)");
    for (word = 0; word < 65536; word++) {
        for (k = 0; k < 3; k++) {
            of(functions[k], word);
            request(0, functions[k], word, 1, 0, 8, 8);
            iocb(may_be(word, 0) ? 0x84 : 0x82, 0, 5);
        }
        of(0, word);
        request(1, TWYNARVEL_REWIND, word, 1, 0, 8, 8);
        iocb(may_be(word, 1) ? 0x00 : 0x82, 0, 5);
    }
}

/* The record that each selector means: LUN 0 is at record 1, and record number 4 is given. */
void selectors(void)
{
    static const unsigned sel[4] = {TWYNARVEL_NEXT, TWYNARVEL_CURRENT, TWYNARVEL_PRIOR, TWYNARVEL_RANDOM};
    static const unsigned target[4] = {2, 1, 0, 4};
    static const unsigned mean_nothing[4] = {0, TWYNARVEL_WAIT, TWYNARVEL_KEY_WITH_RECORD, TWYNARVEL_WAIT | TWYNARVEL_KEY_WITH_RECORD};
    unsigned s, f, m;
    house(140, 0);
    mark(0);
    rule("read by each supported options word (word, target)");
    for (s = 0; s < 4; s++)
        for (f = 0; f < 4; f++) /* bit 0 and bit 3: text only if both are clear */
            for (m = 0; m < 4; m++) {
                unsigned word = sel[s] | (f & 1 ? TWYNARVEL_BINARY : 0) | (f & 2 ? TWYNARVEL_IMAGE : 0) | mean_nothing[m];
                uint32_t length = 0;
                back(0);
                lend(TASK, 140, 0xEE);
                of(word, target[s]);
                switch (target[s]) {
                case 0: want(TASK, 0, "414243"), length = 3; break;
                case 1: want(TASK, 0, "41"), length = 1; break;
                case 2: /* FF 82 is 129 spaces as a text */
                    if (f == 0)
                        want_fill(TASK, 0, 129, 0x20), length = 129;
                    else
                        want(TASK, 0, "FF82"), length = 2;
                    break;
                case 4: /* 80 stands for no space */
                    if (f == 0)
                        want(TASK, 0, "4142"), length = 2;
                    else
                        want(TASK, 0, "418042"), length = 3;
                    break;
                }
                want_fill(DESK, 11, 1, (int)target[s]);
                transfer(TWYNARVEL_READ, word, 0, 4, 140);
                iocb(0x00, length, 5);
            }
    rule("random record numbers have 32 bits");
    back(0);
    for (s = 0; s < 32; s++) {
        of(s, 0);
        transfer(TWYNARVEL_READ, TWYNARVEL_RANDOM, 0, (uint32_t)1 << s, 140);
        if (s == 0) { /* record 1 is A */
            want(TASK, 0, "41");
            want(DESK, 8, "00000001");
            iocb(0x00, 1, 5);
        } else if (s == 1) { /* record 2 */
            want_fill(TASK, 0, 129, 0x20);
            want(DESK, 8, "00000002");
            iocb(0x00, 129, 5);
        } else if (s == 2) { /* record 4 */
            want(TASK, 0, "4142");
            want(DESK, 8, "00000004");
            iocb(0x00, 2, 5);
        } else
            iocb(0xC2, 0, 5);
    }
}

/* A read of record 1, which is one byte: accepted for every part that is inside its area. */
static void part(uint32_t start, uint32_t end, int good)
{
    int which = start >= TWYNARVEL_SHARED ? SHARED : TASK;
    if (area[TASK].len)
        want_fill(TASK, 0, area[TASK].len, 0xEE);
    if (area[SHARED].len)
        want_fill(SHARED, 0, area[SHARED].len, 0xDD);
    memcpy(area[TASK].at, area[TASK].want, area[TASK].len);
    memcpy(area[SHARED].at, area[SHARED].want, area[SHARED].len);
    request(0, TWYNARVEL_READ, TWYNARVEL_CURRENT, 0, 0, start, end);
    if (good)
        want_fill(which, start % TWYNARVEL_SHARED, 1, 0x41);
    iocb(good ? 0x00 : 0x84, good ? 1 : 0, 5);
}

/* "From start to end address, both included; a part not wholly inside, an end with another top bit, or end before start, is $84." */
void parts(void)
{
    unsigned task_len, shared_len, start, end, tops;
    rule("parts (start and end, top bits and lengths)");
    for (task_len = 0; task_len < 6; task_len++)
        for (shared_len = 0; shared_len < 6; shared_len += task_len < 2 ? 1 : 5) {
            house(task_len, shared_len);
            for (start = 0; start < 8; start++)
                for (end = 0; end < 8; end++)
                    for (tops = 0; tops < 4; tops++) {
                        unsigned size = tops == 3 ? shared_len : task_len;
                        int good = (tops == 0 || tops == 3) && start <= end && end < size;
                        of(10 * start + end, 100 * tops + 10 * task_len + shared_len);
                        part(start + (tops & 1 ? TWYNARVEL_SHARED : 0), end + (tops & 2 ? TWYNARVEL_SHARED : 0), good);
                    }
        }
}

void far_parts(void)
{
    static const struct {
        uint32_t start, end;
        int good;
    } far[] = {
        {0, 7, 1},                   /* the whole of the task's area */
        {7, 7, 1},                   /* its last byte */
        {0x80000000, 0x80000004, 1}, /* the whole of the shared segment */
        {0x80000004, 0x80000004, 1}, /* its last byte */
        {7, 8, 0},                   /* one past */
        {8, 8, 0},
        {0x80000004, 0x80000005, 0},
        {0x80000005, 0x80000005, 0},
        {1, 0, 0}, /* end before start by one */
        {0x80000001, 0x80000000, 0},
        {0, 0x7FFFFFFF, 0},
        {0x7FFFFFFF, 0x7FFFFFFF, 0},
        {0x7FFFFFFF, 0, 0},
        {0x7FFFFFFE, 0x7FFFFFFF, 0},
        {0x7FFFFFFF, 0x80000000, 0}, /* the next number, and another top bit */
        {7, 0x80000000, 0},
        {0, 0x80000000, 0},
        {0x80000000, 0, 0},
        {0x80000004, 7, 0},
        {0x80000000, 0x7FFFFFFF, 0},
        {0x80000000, 0xFFFFFFFF, 0},
        {0xFFFFFFFF, 0xFFFFFFFF, 0},
        {0xFFFFFFFF, 0x80000000, 0},
        {0xFFFFFFFF, 0, 0},
        {0, 0xFFFFFFFF, 0},
        {0xFFFFFFFE, 0xFFFFFFFF, 0},
        {0x10000, 0x10000, 0}, /* no address is cut to fewer bits */
        {0x10007, 0x10007, 0},
        {0x100, 0x107, 0},
        {0x01000000, 0x01000007, 0},
        {0x40000000, 0x40000000, 0},
        {0xC0000000, 0xC0000000, 0},
    };
    unsigned k;
    rule("parts far away");
    house(8, 5);
    for (k = 0; k < sizeof far / sizeof far[0]; k++) {
        of(far[k].start, far[k].end);
        part(far[k].start, far[k].end, far[k].good);
    }
    rule("a read fills the first bytes of its part alone");
    house(8, 5);
    request(0, TWYNARVEL_READ, TWYNARVEL_PRIOR, 0, 0, 2, 6);
    want(TASK, 0, "EEEE 414243 EEEEEE");
    want(DESK, 8, "00000000");
    iocb(0x00, 3, 5);
    request(0, TWYNARVEL_READ, TWYNARVEL_CURRENT, 0, 0, 0x80000001, 0x80000004);
    want(SHARED, 0, "DD 414243 DD");
    iocb(0x00, 3, 5);
    request(0, TWYNARVEL_READ, TWYNARVEL_CURRENT, 0, 0, 0x80000003, 0x80000004);
    iocb(0x84, 0, 5); /* two bytes are inside, and shorter than the record */
    request(0, TWYNARVEL_READ, TWYNARVEL_RANDOM, 0, 3, 0, 0);
    want(DESK, 8, "00000003");
    iocb(0x00, 0, 5); /* an empty record: length 0, and the part stays */
}

/* A write and an update send the part, both ends included, and write to neither area. Formatted text: XYZ stays as it is. */
void sent_parts(void)
{
    rule("sent parts");
    house(8, 5);
    put(TASK, 0, "51 58595A 5152535F");
    put(SHARED, 0, "61 62636465");
    transfer(TWYNARVEL_READ, TWYNARVEL_RANDOM, 0, 4, 8); /* to the last record, so that Next appends */
    want(TASK, 0, "4142");
    want(DESK, 8, "00000004");
    iocb(0x00, 2, 5);
    put(TASK, 0, "5158");
    request(0, TWYNARVEL_WRITE, TWYNARVEL_NEXT, 0, 0, 1, 3);
    want(IMAGE, 0x604, "0000001C");
    want(IMAGE, 0x23C, "00000006");
    want(IMAGE, 0x716, "0003 58595A 00");
    want(DESK, 8, "00000005");
    iocb(0x00, 3, 5);
    request(0, TWYNARVEL_WRITE, TWYNARVEL_NEXT, 0, 0, 0x80000004, 0x80000004);
    want(IMAGE, 0x604, "00000020");
    want(IMAGE, 0x23C, "00000007");
    want(IMAGE, 0x71C, "0001 65 00");
    want(DESK, 8, "00000006");
    iocb(0x00, 1, 5);
    request(0, TWYNARVEL_UPDATE, TWYNARVEL_PRIOR, 0, 0, 0x80000000, 0x80000002);
    want(IMAGE, 0x718, "616263");
    want(DESK, 8, "00000005");
    iocb(0x00, 3, 5);
    request(0, TWYNARVEL_UPDATE, TWYNARVEL_CURRENT, 0, 0, 5, 7);
    want(IMAGE, 0x718, "52535F");
    iocb(0x00, 3, 5);
    request(0, TWYNARVEL_WRITE, TWYNARVEL_RANDOM, 0, 7, 7, 8);
    iocb(0x84, 0, 5); /* one byte past the task's area */
    request(0, TWYNARVEL_UPDATE, TWYNARVEL_CURRENT, 0, 0, 0x80000003, 0x80000005);
    iocb(0x84, 0, 5); /* one byte past the shared segment */
}
