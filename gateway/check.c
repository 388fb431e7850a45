/* The lent areas, and each call with what it has to answer. */
#include "check.h"

int printf(const char *text, ...);
int fflush(void *file);
void _exit(int status);
void *mmap(void *at, size_t len, int access, int flags, int file, long offset);
int mprotect(void *at, size_t len, int access);
void (*signal(int which, void (*handler)(int)))(int);
enum { NOT_AT_ALL = 0, TO_READ = 1, TO_READ_AND_WRITE = 3, PRIVATE_AND_ANONYMOUS = 0x22, BUS_ERROR = 7, SEGMENT_FAULT = 11 };

/* Pages are of 4,096 bytes on x86-64. An emulator's machine may have larger ones, so fences stand at multiples of 65,536. */
enum { FENCE = 65536, ROOM = 9 * FENCE };

struct area area[AREAS];
static const char *const area_name[AREAS] = {"block", "image", "desk", "task area", "shared segment", "name", "report"};
int after_fence;
unsigned long checks, differences;
static const char *rule_text = "";
static unsigned first_number, second_number;
static uint8_t kept_image[3][132 * TWYNARVEL_SECTOR_BYTES], kept_desk[3][TWYNARVEL_DESK_BYTES];
static size_t kept_len[3];

/* A wrong answer may be wrong a hundred thousand times: the first forty are printed, and all are counted. */
enum { PRINTED = 40 };

static void differs(void)
{
    differences++;
    if (differences <= PRINTED)
        printf("gateway: %s (%u, %u; fence %s): ", rule_text, first_number, second_number, after_fence ? "before" : "behind");
}

static void outside(int which)
{
    (void)which;
    printf("gateway: %s (%u, %u; fence %s): a byte outside an area, or of a const area, was touched\n", rule_text, first_number, second_number,
           after_fence ? "before" : "behind");
    fflush(NULL);
    _exit(1);
}

void prepare(void)
{
    int which;
    signal(SEGMENT_FAULT, outside);
    signal(BUS_ERROR, outside);
    for (which = 0; which < AREAS; which++) {
        uint8_t *pages = mmap(NULL, ROOM + 3 * FENCE, TO_READ_AND_WRITE, PRIVATE_AND_ANONYMOUS, -1, 0);
        pages += FENCE - (uintptr_t)pages % FENCE;
        mprotect(pages, FENCE, NOT_AT_ALL);
        mprotect(pages + FENCE + ROOM, FENCE, NOT_AT_ALL);
        area[which].room = pages + FENCE;
        area[which].want = mmap(NULL, ROOM, TO_READ_AND_WRITE, PRIVATE_AND_ANONYMOUS, -1, 0);
    }
}

void lend(int which, size_t len, int value)
{
    struct area *a = &area[which];
    a->len = len;
    a->at = after_fence ? a->room : a->room + ROOM - len;
    memset(a->at, value, len);
    memset(a->want, value, len);
}

void lend_null(int which)
{
    area[which].at = NULL;
    area[which].len = 0;
}

static unsigned digit(char c)
{
    return c <= '9' ? (unsigned)(c - '0') : (unsigned)(c - 'A' + 10);
}

void want(int which, size_t at, const char *hex)
{
    for (; *hex; hex++)
        if (*hex != ' ') {
            area[which].want[at++] = (uint8_t)(16 * digit(hex[0]) + digit(hex[1]));
            hex++;
        }
}

void want_fill(int which, size_t at, size_t len, int value)
{
    memset(area[which].want + at, value, len);
}

void want_word(size_t at, unsigned value)
{
    area[IMAGE].want[at] = (uint8_t)(value / 256);
    area[IMAGE].want[at + 1] = (uint8_t)value;
}

/* What is put before a call is what has to stay. */
static void settle(int which)
{
    if (area[which].len)
        memcpy(area[which].at, area[which].want, area[which].len);
}

void put(int which, size_t at, const char *hex)
{
    want(which, at, hex);
    settle(which);
}

void poke(int which, size_t at, unsigned value)
{
    area[which].at[at] = area[which].want[at] = (uint8_t)value;
}

void mark(int k)
{
    kept_len[k] = area[IMAGE].len;
    memcpy(kept_image[k], area[IMAGE].at, area[IMAGE].len);
    memcpy(kept_desk[k], area[DESK].at, TWYNARVEL_DESK_BYTES);
}

void back(int k)
{
    back_as(k, kept_len[k]);
}

void back_as(int k, size_t len)
{
    lend(IMAGE, len, 0);
    lend(DESK, TWYNARVEL_DESK_BYTES, 0);
    memcpy(area[IMAGE].want, kept_image[k], len < kept_len[k] ? len : kept_len[k]);
    memcpy(area[DESK].want, kept_desk[k], TWYNARVEL_DESK_BYTES);
    settle(IMAGE);
    settle(DESK);
}

void want_back(int k)
{
    memcpy(area[IMAGE].want, kept_image[k], kept_len[k]);
}

void rule(const char *text)
{
    rule_text = text;
    first_number = second_number = 0;
}

void of(unsigned a, unsigned b)
{
    first_number = a;
    second_number = b;
}

static void number(const char *what, uint32_t wanted, uint32_t got)
{
    checks++;
    if (wanted != got) {
        differs();
        if (differences <= PRINTED)
            printf("%s has to be %02X and is %02X\n", what, wanted, got);
    }
}

void compare(const char *call, uint32_t wanted, uint32_t got)
{
    int which;
    number(call, wanted, got);
    for (which = 0; which < AREAS; which++) {
        struct area *a = &area[which];
        size_t i = 0;
        if (a->len == 0 || memcmp(a->at, a->want, a->len) == 0)
            continue;
        while (a->at[i] == a->want[i])
            i++;
        differs();
        if (differences <= PRINTED)
            printf("after %s byte %lu of the %s has to be %02X and is %02X\n", call, (unsigned long)i, area_name[which], a->want[i], a->at[i]);
        memcpy(a->want, a->at, a->len);
    }
}

static void seal(int which, int access)
{
    mprotect(area[which].room, ROOM, access);
}

void iocb(uint32_t status, uint32_t length, uint32_t caller)
{
    uint8_t *block = area[BLOCK].want;
    if (area[BLOCK].len == TWYNARVEL_BLOCK_BYTES) {
        block[4] = (uint8_t)status;
        block[20] = (uint8_t)(length >> 24);
        block[21] = (uint8_t)(length >> 16);
        block[22] = (uint8_t)(length >> 8);
        block[23] = (uint8_t)length;
    }
    compare("iocb", status, twynarvel_iocb(LENT(BLOCK), LENT(IMAGE), LENT(DESK), LENT(TASK), LENT(SHARED), caller));
}

void format(uint32_t status, uint32_t dirs)
{
    uint32_t got;
    seal(NAME, TO_READ);
    got = twynarvel_format(LENT(IMAGE), LENT(DESK), LENT(NAME), dirs);
    seal(NAME, TO_READ_AND_WRITE);
    compare("format", status, got);
}

void check(uint32_t verdict)
{
    uint32_t got;
    seal(IMAGE, TO_READ);
    got = twynarvel_check(LENT(IMAGE));
    seal(IMAGE, TO_READ_AND_WRITE);
    compare("check", verdict, got);
}

void bring_up(uint32_t status)
{
    compare("bring-up", status, twynarvel_bring_up(LENT(IMAGE)));
}

void allocate(uint32_t status, uint32_t caller, uint32_t kind, uint32_t size, uint32_t record, uint8_t read_code)
{
    uint32_t got;
    seal(DESK, TO_READ);
    seal(NAME, TO_READ);
    got = twynarvel_allocate(LENT(IMAGE), LENT(DESK), caller, LENT(NAME), kind, size, record, read_code);
    seal(DESK, TO_READ_AND_WRITE);
    seal(NAME, TO_READ_AND_WRITE);
    compare("allocate", status, got);
}

void assign(uint32_t status, uint32_t caller, uint32_t lun, uint32_t mode, uint32_t at_end, uint8_t offered)
{
    uint32_t got;
    seal(IMAGE, TO_READ);
    seal(NAME, TO_READ);
    got = twynarvel_assign(LENT(IMAGE), LENT(DESK), caller, lun, LENT(NAME), mode, at_end, offered);
    seal(IMAGE, TO_READ_AND_WRITE);
    seal(NAME, TO_READ_AND_WRITE);
    compare("assign", status, got);
}

void release(uint32_t status, uint32_t caller, uint32_t lun)
{
    uint32_t got;
    seal(IMAGE, TO_READ);
    got = twynarvel_close(LENT(IMAGE), LENT(DESK), caller, lun);
    seal(IMAGE, TO_READ_AND_WRITE);
    compare("close", status, got);
}

void erase(uint32_t status, uint32_t caller)
{
    uint32_t got;
    seal(DESK, TO_READ);
    seal(NAME, TO_READ);
    got = twynarvel_delete(LENT(IMAGE), LENT(DESK), caller, LENT(NAME));
    seal(DESK, TO_READ_AND_WRITE);
    seal(NAME, TO_READ_AND_WRITE);
    compare("delete", status, got);
}

void compact(uint32_t status, unsigned ending, unsigned moved, uint32_t quota)
{
    uint8_t *report = area[REPORT].want;
    uint32_t got;
    if (status == 0x00 && area[REPORT].len == TWYNARVEL_REPORT_BYTES) {
        report[0] = (uint8_t)ending;
        report[1] = 0;
        report[2] = (uint8_t)(moved / 256);
        report[3] = (uint8_t)moved;
    }
    seal(DESK, TO_READ);
    got = twynarvel_compact(LENT(IMAGE), LENT(DESK), quota, LENT(REPORT));
    seal(DESK, TO_READ_AND_WRITE);
    compare("compact", status, got);
}

static void long_word(size_t at, uint32_t value)
{
    int k;
    for (k = 0; k < 4; k++)
        area[BLOCK].want[at + (size_t)k] = (uint8_t)(value >> (24 - 8 * k));
}

void request(unsigned code, unsigned function, unsigned options, unsigned lun, uint32_t record, uint32_t start, uint32_t end)
{
    uint8_t *block = area[BLOCK].want;
    lend(BLOCK, TWYNARVEL_BLOCK_BYTES, 0);
    block[0] = (uint8_t)code;
    block[1] = (uint8_t)function;
    block[2] = (uint8_t)(options / 256);
    block[3] = (uint8_t)options;
    block[4] = 0x55;
    block[5] = (uint8_t)lun;
    block[6] = 0xA1;
    block[7] = 0xA2;
    long_word(8, record);
    long_word(12, start);
    long_word(16, end);
    long_word(20, 0xDEADBEEF);
    long_word(24, 0xC1C2C3C4);
    settle(BLOCK);
}

void transfer(unsigned function, unsigned options, unsigned lun, uint32_t record, size_t len)
{
    request(TWYNARVEL_TRANSFER, function, options, lun, record, 0, (uint32_t)len - 1);
}

void rewind_of(unsigned lun)
{
    request(TWYNARVEL_COMMAND, TWYNARVEL_REWIND, 0, lun, 0, 0, 0);
}

void name(const char *hex)
{
    lend(NAME, TWYNARVEL_DESCRIPTOR_BYTES, 0);
    put(NAME, 0, hex);
}

void house(size_t len, size_t shared)
{
    lend(IMAGE, 4096, 0);
    put(IMAGE, 0x000, "564F4C31");                                                  /* VOL1 */
    memset(area[IMAGE].want + 0x100, 0xFF, 256);
    put(IMAGE, 0x100, "FF C1");                                                     /* SAT: 0 to 9 and 15 are owned */
    put(IMAGE, 0x200, "01 00" FILE_X "0000 0000 0003 0003 0000");
    put(IMAGE, 0x220, "01 01" FILE_Y "0000 0000 0006 00000005");
    put(IMAGE, 0x240, "01 01" FILE_Z "0000 0004 0008 00000002");
    memset(area[IMAGE].want + 0x300, 0x33, 256);
    memset(area[IMAGE].want + 0x400, 0x44, 256);
    memset(area[IMAGE].want + 0x500, 0x55, 256);
    put(IMAGE, 0x600, "0001 0001 00000016 0007 0001");
    put(IMAGE, 0x700, "0003 414243 00  0001 41 00  0002 FF82  0000  0003 418042 00");
    put(IMAGE, 0x800, "0001 0001 00000008 0009 0001");
    put(IMAGE, 0x900, "5758595A 31202032");
    put(IMAGE, 0xF00, "0010 000E 000D 0001");
    lend(DESK, TWYNARVEL_DESK_BYTES, 0);
    put(DESK, 0, "01 04 0005 01 01 0000 00000001");
    put(DESK, 12, "01 04 0005 00 00 0000 00000000");
    put(DESK, 24, "01 04 0005 02 00 0000 00000000");
    put(DESK, 36, "01 02 0005 01 00 0000 00000000");
    put(DESK, 48, "01 00 0006 01 00 0000 00000000");
    lend(TASK, len, 0xEE);
    lend(SHARED, shared, 0xDD);
    lend(REPORT, TWYNARVEL_REPORT_BYTES, 0xBB);
    name(FILE_NEW);
    rewind_of(1);
}
