/*
 * The right to read: read-protect codes in entries, at allocate and assign, on the desk, and in reads. Request 3 of document 02 says: "A
 * reading mode is $07 unless the code is 0, the codes match, or the caller is owner or user 0"; "Files of user 0 have code 0, else $60, and
 * unsound if found"; "The desk's assignments keep the code offered (byte 6 when packed), and whether a desk fits now includes this right".
 * What has to be answered is computed here from those lines.
 */
#include "check.h"

enum { FILES = 3, USERS = 6, MODES = 8, CODES = 7 };

/* The small volume's files by slot, each with an owner of its own here. Users 6 and 0x1205 have one byte in common with an owner. */
static const struct {
    const char *name;
    uint32_t owner, extent;
} file[FILES] = {{FILE_X, 5, 3}, {FILE_Y, 0x1200, 5}, {FILE_Z, 65533, 2}};
static const uint32_t user[USERS] = {0, 5, 6, 0x1200, 0x1205, 65533};
static const uint8_t code[CODES] = {0, 1, 7, 127, 128, 254, 255};

/* R reads, W writes. */
static const char *const mode_name[MODES] = {"PR", "ER", "PW", "EW", "PRPW", "PREW", "ERPW", "EREW"};

static int does(unsigned mode, char what)
{
    const char *p = mode_name[mode];
    while (*p && *p != what)
        p++;
    return *p == what;
}

/* "Only the owner or user 0 writes, allocates or deletes." */
static int has_right(uint32_t caller, uint32_t owner)
{
    return caller == owner || caller == 0;
}

/* "The code is 0, the codes match, or the caller is owner or user 0." */
static int may_read(uint32_t caller, uint32_t owner, unsigned its_code, unsigned offered)
{
    return its_code == 0 || its_code == offered || has_right(caller, owner);
}

/* "$07 comes after $17 and before $0B": the answer to assign, of a file that is there and that no LUN holds. */
static uint32_t answer(uint32_t caller, uint32_t owner, unsigned mode, unsigned its_code, unsigned offered)
{
    if (does(mode, 'R') && !may_read(caller, owner, its_code, offered))
        return 0x07;
    if (does(mode, 'W') && !has_right(caller, owner))
        return 0x0B;
    return 0x00;
}

/* An entry's owner and code. */
static void protect(unsigned slot, uint32_t owner, unsigned its_code)
{
    poke(IMAGE, 0x202 + 32 * slot, owner / 256);
    poke(IMAGE, 0x203 + 32 * slot, owner % 256);
    poke(IMAGE, 0x217 + 32 * slot, its_code);
}

static void name_of(const char *hex, uint32_t owner)
{
    name(hex);
    poke(NAME, 0, owner / 256);
    poke(NAME, 1, owner % 256);
}

/* The twelve bytes that a held LUN has to have. */
static void want_lun(unsigned lun, unsigned mode, uint32_t holder, unsigned slot, unsigned n, unsigned offered, unsigned i)
{
    uint8_t *twelve = area[DESK].want + 12 * lun;
    memset(twelve, 0, 12);
    twelve[0] = 1;
    twelve[1] = (uint8_t)mode;
    twelve[2] = (uint8_t)(holder / 256);
    twelve[3] = (uint8_t)holder;
    twelve[4] = (uint8_t)slot;
    twelve[5] = (uint8_t)n;
    twelve[6] = (uint8_t)offered;
    twelve[11] = (uint8_t)i;
}

/* The same, written by no call: Fresh. */
static void put_lun(unsigned lun, unsigned mode, uint32_t holder, unsigned slot, unsigned code_kept)
{
    want_lun(lun, mode, holder, slot, 0, code_kept, 0);
    put(DESK, 0, "");
}

/* "Entry byte 23 now holds that code"; byte 22 stays zero. A file of user 0 with a code makes the volume unsound, which every call refuses. */
void entry_codes(void)
{
    static const uint32_t owners[5] = {0, 1, 5, 256, 65533};
    unsigned slot, k, its_code;
    rule("check: an entry's code (owner, slot and code)");
    house(256, 0);
    for (slot = 0; slot < FILES; slot++) {
        for (k = 0; k < 5; k++)
            for (its_code = 0; its_code < 256; its_code++) {
                protect(slot, owners[k], its_code);
                of(owners[k], 256 * slot + its_code);
                check(owners[k] == 0 && its_code != 0 ? 0 : TWYNARVEL_SOUND + 5);
                poke(IMAGE, 0x216 + 32 * slot, its_code); /* byte 22 */
                check(its_code == 0 ? TWYNARVEL_SOUND + 5 : 0);
                poke(IMAGE, 0x216 + 32 * slot, 0);
            }
        protect(slot, 5, 0);
    }
    rule("a file of user 0 with a code: each call");
    for (k = 0; k < CODES; k++) {
        int good = code[k] == 0;
        of(code[k], 0);
        house(256, 0);
        protect(2, 0, code[k]);
        put(DESK, 24, "00 00 0000 00 00 0000 00000000"); /* LUN 2, which writes Z for user 5 */
        rewind_of(1);
        iocb(good ? 0x00 : 0x6F, 0, 5);
        transfer(TWYNARVEL_READ, TWYNARVEL_NEXT, 1, 0, 256);
        if (good) {
            want_fill(TASK, 0, 256, 0x33);
            want_lun(1, TWYNARVEL_PRPW, 5, 0, 1, 0, 0);
        }
        iocb(good ? 0x00 : 0x6F, good ? 256 : 0, 5);
        name_of(FILE_Z, 0);
        if (good)
            want_lun(9, TWYNARVEL_PR, 6, 2, 0, code[k], 0);
        assign(good ? 0x00 : 0x6F, 6, 9, TWYNARVEL_PR, 0, code[k]);
        allocate(good ? 0x66 : 0x6F, 0, TWYNARVEL_SEQUENTIAL, 0, 0, 0);
        erase(good ? 0x0D : 0x6F, 0);
        if (good)
            want_fill(DESK, 12, 12, 0);
        release(good ? 0x00 : 0x6F, 5, 1);
    }
}

/* Allocate of NEW, for this owner: two contiguous sectors, or fixed records of four bytes. */
static void make(uint32_t owner, uint32_t caller, uint32_t kind, unsigned its_code)
{
    int contiguous = kind == TWYNARVEL_CONTIGUOUS;
    uint32_t status = owner == 0 && its_code != 0 ? 0x60 : has_right(caller, owner) ? 0x00 : 0x0B;
    back(0);
    name_of(FILE_NEW, owner);
    if (status == 0x00) {
        want(IMAGE, 0x260, contiguous ? "01 00" : "01 01");
        memcpy(area[IMAGE].want + 0x262, area[NAME].at, 20);
        want(IMAGE, 0x276, contiguous ? "0000 0000 000A 0002 0000" : "0000 0004 000A 00000000");
        area[IMAGE].want[0x277] = (uint8_t)its_code;
        want(IMAGE, 0x101, contiguous ? "F1" : "E1");
    }
    allocate(status, caller, kind, contiguous ? 2 : 0, contiguous ? 0 : 4, (uint8_t)its_code);
    check(TWYNARVEL_SOUND + (status != 0x00 ? 5 : contiguous ? 3 : 4));
}

/* "Allocate takes it"; "Files of user 0 have code 0, else $60": with the other numbers, so before $0B. */
void new_codes(void)
{
    unsigned o, c, k, its_code;
    house(0, 0);
    mark(0);
    rule("allocate with a code (owner and caller, code)");
    for (o = 0; o < USERS; o++)
        for (c = 0; c < USERS; c++)
            for (k = 0; k < CODES; k++) {
                of(65536 * user[o] + user[c], code[k]);
                make(user[o], user[c], TWYNARVEL_CONTIGUOUS, code[k]);
                make(user[o], user[c], TWYNARVEL_SEQUENTIAL, code[k]);
            }
    rule("allocate with every code (owner, code)");
    for (its_code = 0; its_code < 256; its_code++) {
        of(0, its_code);
        make(0, 0, TWYNARVEL_SEQUENTIAL, its_code);
        of(5, its_code);
        make(5, 5, TWYNARVEL_SEQUENTIAL, its_code);
    }
}

/* Assign of one file to LUN 9 of an empty desk. */
static void seat(unsigned slot, uint32_t owner, uint32_t caller, unsigned mode, unsigned its_code, unsigned offered, uint32_t at_end)
{
    uint32_t status = answer(caller, owner, mode, its_code, offered);
    lend(DESK, TWYNARVEL_DESK_BYTES, 0);
    if (status == 0x00) {
        int last = at_end && does(mode, 'W');
        want_lun(9, mode, caller, slot, last ? 1 : 0, offered, last ? file[slot].extent - 1 : 0);
    }
    assign(status, caller, 9, mode, at_end, (uint8_t)offered);
    if (status == 0x00) { /* the desk after it fits; close leaves twelve zeros */
        want_fill(DESK, 9 * 12, 12, 0);
        release(0x00, caller, 9);
    }
}

/* "Assign takes the code offered": in every mode; and by a stranger who reads, of every code, also those that differ from it in one bit. */
void offered_codes(void)
{
    unsigned slot, u, mode, k, o, its_code;
    for (slot = 0; slot < FILES; slot++) {
        house(0, 0);
        name_of(file[slot].name, file[slot].owner);
        rule("assign with a code (caller and mode, the file's code and the one offered)");
        for (k = 0; k < CODES; k++) {
            protect(slot, file[slot].owner, code[k]);
            for (u = 0; u < USERS; u++)
                for (mode = 0; mode < MODES; mode++)
                    for (o = 0; o < CODES; o++) {
                        of(16 * user[u] + mode, 256u * code[k] + code[o]);
                        seat(slot, file[slot].owner, user[u], mode, code[k], code[o], TWYNARVEL_AT_START);
                        seat(slot, file[slot].owner, user[u], mode, code[k], code[o], TWYNARVEL_AT_END);
                    }
        }
    }
    rule("assign of a file of user 0 (caller and mode, the code offered)");
    house(0, 0);
    name_of(FILE_Y, 0);
    protect(1, 0, 0);
    for (u = 0; u < USERS; u++)
        for (mode = 0; mode < MODES; mode++)
            for (o = 0; o < CODES; o++) {
                of(16 * user[u] + mode, code[o]);
                seat(1, 0, user[u], mode, 0, code[o], TWYNARVEL_AT_START);
            }
    rule("assign: codes that are equal, or nearly (the file's, the bit in which the one offered differs)");
    house(0, 0);
    name_of(FILE_Y, file[1].owner);
    for (its_code = 0; its_code < 256; its_code++) {
        protect(1, file[1].owner, its_code);
        for (k = 0; k <= 8; k++) { /* bit 8 is none of a byte: equal */
            of(its_code, k);
            seat(1, file[1].owner, 6, TWYNARVEL_PR, its_code, (its_code ^ 1u << k) % 256, TWYNARVEL_AT_START);
        }
    }
}

/* A desk with one LUN, which no call made: it fits exactly if assign, offered the code that the LUN keeps, would make it. */
static void kept(unsigned lun, unsigned slot, uint32_t holder, unsigned mode, unsigned its_code, unsigned code_kept)
{
    int fits = answer(holder, file[slot].owner, mode, its_code, code_kept) == 0x00;
    lend(DESK, TWYNARVEL_DESK_BYTES, 0);
    put_lun(lun, mode, holder, slot, code_kept);
    rewind_of(lun);
    iocb(fits ? 0x00 : 0x6F, 0, holder);
}

/* "Whether a desk fits now includes this right", of each LUN by its own file and its own code. */
void kept_codes(void)
{
    unsigned slot, u, mode, k, o, its_code, lun = 0;
    for (slot = 0; slot < FILES; slot++) {
        house(0, 0);
        rule("desks that fit by the code kept (user and mode, the file's code and the one kept)");
        for (k = 0; k < CODES; k++) {
            protect(slot, file[slot].owner, code[k]);
            for (u = 0; u < USERS; u++)
                for (mode = 0; mode < MODES; mode++)
                    for (o = 0; o < CODES; o++) {
                        of(16 * user[u] + mode, 256u * code[k] + code[o]);
                        kept(lun, slot, user[u], mode, code[k], code[o]);
                        lun = (lun + 1) % 16;
                    }
        }
    }
    rule("desks that fit: every pair of codes (the file's, the one kept)");
    house(0, 0);
    for (its_code = (unsigned)after_fence; its_code < 256; its_code += 2) { /* half of them in each round: they are many */
        protect(1, file[1].owner, its_code);
        for (k = 0; k < 256; k++) {
            of(its_code, k);
            kept(k % 16, 1, 6, TWYNARVEL_PR, its_code, k);
        }
    }
    rule("sixteen readers, and one of them has another code (LUN, code kept)");
    house(0, 0);
    protect(1, 5, 7);
    lend(DESK, TWYNARVEL_DESK_BYTES, 0);
    for (lun = 0; lun < 16; lun++)
        put_lun(lun, TWYNARVEL_PR, 6 + lun, 1, 7);
    for (lun = 0; lun < 16; lun++)
        for (k = 0; k < CODES; k++) {
            unsigned other = (lun + 1) % 16;
            of(lun, code[k]);
            poke(DESK, 12 * lun + 6, code[k]);
            rewind_of(other);
            iocb(code[k] == 7 ? 0x00 : 0x6F, 0, 6 + other);
            poke(DESK, 12 * lun + 6, 7);
        }
    rule("three files, each with its own code (the code of X, of Y)");
    house(0, 0);
    lend(DESK, TWYNARVEL_DESK_BYTES, 0);
    put_lun(3, TWYNARVEL_PR, 6, 0, 1);
    put_lun(4, TWYNARVEL_PR, 6, 1, 7);
    put_lun(5, TWYNARVEL_PR, 6, 2, 255);
    rewind_of(5);
    for (k = 0; k < CODES; k++)
        for (o = 0; o < CODES; o++) {
            of(code[k], code[o]);
            protect(0, 5, code[k]);
            protect(1, 5, code[o]);
            iocb((code[k] == 0 || code[k] == 1) && (code[o] == 0 || code[o] == 7) ? 0x00 : 0x6F, 0, 6);
        }
}

/* Assign of Y, and a read of its record 0 by a request block: the bytes come exactly if the assign was accepted and the mode reads. */
static void read_as(uint32_t caller, unsigned mode, unsigned its_code, unsigned offered)
{
    uint32_t status = answer(caller, 5, mode, its_code, offered);
    house(4, 4);
    protect(1, 5, its_code);
    lend(DESK, TWYNARVEL_DESK_BYTES, 0);
    name(FILE_Y);
    if (status == 0x00)
        want_lun(9, mode, caller, 1, 0, offered, 0);
    assign(status, caller, 9, mode, TWYNARVEL_AT_START, (uint8_t)offered);
    transfer(TWYNARVEL_READ, TWYNARVEL_NEXT | TWYNARVEL_IMAGE, 9, 0, 4);
    if (status == 0x00 && does(mode, 'R')) { /* the place moves, the code stays */
        want(TASK, 0, "414243");
        want_lun(9, mode, caller, 1, 1, offered, 0);
        iocb(0x00, 3, caller);
    } else /* a mode that does not read; or the LUN is still free */
        iocb(status == 0x00 ? 0x82 : 0x03, 0, caller);
    if (status != 0x00) { /* the LUN that was refused, written into the desk bytes */
        put_lun(9, mode, caller, 1, offered);
        iocb(0x6F, 0, caller);
    }
}

void reads_by_code(void)
{
    static const uint32_t callers[4] = {5, 0, 6, 65533};
    unsigned c, mode, k, o;
    rule("reads by code (caller and mode, the file's code and the one offered)");
    for (c = 0; c < 4; c++)
        for (mode = 0; mode < MODES; mode++)
            for (k = 0; k < CODES; k++)
                for (o = 0; o < CODES; o++) {
                    of(16 * callers[c] + mode, 256u * code[k] + code[o]);
                    read_as(callers[c], mode, code[k], code[o]);
                }
}

/* A file of user 5 with code C8, in the small volume: slot 3, access block 10, sector 11. */
void private_file(void)
{
    static uint8_t old_desk[TWYNARVEL_DESK_BYTES];
    rule("private: the owner makes it and writes");
    house(4, 0);
    want(IMAGE, 0x260, "01 01" FILE_NEW "00C8 0000 000A 00000000");
    want(IMAGE, 0x101, "E1");
    allocate(0x00, 5, TWYNARVEL_SEQUENTIAL, 0, 0, 0xC8);
    want(DESK, 60, "01 04 0005 03 00 0000 00000000");
    assign(0x00, 5, 5, TWYNARVEL_PRPW, TWYNARVEL_AT_START, 0);
    put(TASK, 0, "41424344");
    transfer(TWYNARVEL_WRITE, TWYNARVEL_NEXT | TWYNARVEL_IMAGE, 5, 0, 4);
    want(IMAGE, 0xA00, "0001 0001 00000006 000B 0001");
    want(IMAGE, 0x27C, "00000001");
    want(IMAGE, 0xB00, "0004 41424344");
    want(IMAGE, 0x101, "F1");
    want(DESK, 60, "01 04 0005 03 01 0000 00000000");
    iocb(0x00, 4, 5);

    rule("private: another user reads it by its code alone");
    lend(TASK, 4, 0xEE);
    assign(0x07, 6, 6, TWYNARVEL_PR, TWYNARVEL_AT_START, 0);
    assign(0x07, 6, 6, TWYNARVEL_PR, TWYNARVEL_AT_START, 0xC7);
    assign(0x07, 6, 6, TWYNARVEL_PR, TWYNARVEL_AT_START, 0x48); /* its other seven bits */
    assign(0x07, 6, 6, TWYNARVEL_PRPW, TWYNARVEL_AT_START, 0xC9);
    assign(0x0B, 6, 6, TWYNARVEL_PRPW, TWYNARVEL_AT_START, 0xC8); /* a code gives no right to write */
    want(DESK, 72, "01 00 0006 03 00 C800 00000000");
    assign(0x00, 6, 6, TWYNARVEL_PR, TWYNARVEL_AT_START, 0xC8);
    transfer(TWYNARVEL_READ, TWYNARVEL_NEXT | TWYNARVEL_IMAGE, 6, 0, 4);
    want(TASK, 0, "41424344");
    want(DESK, 72, "01 00 0006 03 01 C800 00000000");
    iocb(0x00, 4, 6);
    rewind_of(6);
    want(DESK, 72, "01 00 0006 03 00 C800 00000000");
    iocb(0x00, 0, 6);

    rule("private: user 0 writes it by another code, which the LUN keeps");
    put(TASK, 0, "51525354");
    want(DESK, 84, "01 02 0000 03 01 0100 00000000");
    assign(0x00, 0, 7, TWYNARVEL_PW, TWYNARVEL_AT_END, 1);
    transfer(TWYNARVEL_UPDATE, TWYNARVEL_CURRENT | TWYNARVEL_IMAGE, 7, 0, 4);
    want(IMAGE, 0xB02, "51525354");
    iocb(0x00, 4, 0);
    transfer(TWYNARVEL_WRITE, TWYNARVEL_NEXT | TWYNARVEL_IMAGE, 7, 0, 4);
    want(IMAGE, 0xA04, "0000000C");
    want(IMAGE, 0x27C, "00000002");
    want(IMAGE, 0xB06, "0004 51525354");
    want(DESK, 84, "01 02 0000 03 01 0100 00000001");
    iocb(0x00, 4, 0);
    check(TWYNARVEL_SOUND + 3);

    rule("private: close leaves zeros");
    want_fill(DESK, 60, 12, 0);
    release(0x00, 5, 5);
    want_fill(DESK, 84, 12, 0);
    release(0x00, 0, 7);
    mark(0);
    want_fill(DESK, 72, 12, 0);
    release(0x00, 6, 6);

    rule("private: a desk from before the file's code was another");
    back(0);
    memcpy(old_desk, area[DESK].at, sizeof old_desk);
    lend(DESK, TWYNARVEL_DESK_BYTES, 0);
    erase(0x0B, 6); /* who may read may not delete */
    want_fill(IMAGE, 0x260, 32, 0);
    want(IMAGE, 0x101, "C1");
    erase(0x00, 5);
    want(IMAGE, 0x260, "01 01" FILE_NEW "00C9 0000 000A 00000000");
    want(IMAGE, 0x101, "E1");
    want_fill(IMAGE, 0xA00, 256, 0);
    allocate(0x00, 5, TWYNARVEL_SEQUENTIAL, 0, 0, 0xC9);
    memcpy(area[DESK].want, old_desk, sizeof old_desk);
    put(DESK, 0, "");
    rewind_of(6);
    iocb(0x6F, 0, 6); /* LUN 6 keeps C8 */
    rewind_of(1);
    iocb(0x6F, 0, 5);
    poke(DESK, 72 + 6, 0xC9);
    iocb(0x00, 0, 5);

    rule("private: format leaves zeros");
    lend(NAME, 4, 0);
    put(NAME, 0, "564F4C31");
    want_fill(IMAGE, 0, 4096, 0);
    want(IMAGE, 0x000, "564F4C31");
    want_fill(IMAGE, 0x100, 256, 0xFF);
    want(IMAGE, 0x100, "E0 01");
    want(IMAGE, 0xF00, "0010 000E 000D 0001");
    want_fill(DESK, 0, 192, 0);
    format(0x00, 1);
}
