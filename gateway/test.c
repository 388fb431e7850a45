/*
 * The C test of include/twynarvel.h. Every function is called, and each answer is held against docs/RULES.md: the status, and every byte of
 * every area after it. The expected numbers and bytes are written out by the rules, in other words than the library's code has them.
 */
#include "check.h"

int printf(const char *text, ...);

/* The lines of the README: they read the first record of Y, which has a code other than 0. */
static void example(void)
{
    house(TWYNARVEL_RECORD_BYTES, 0);
    rule("README: reading a record");
    poke(IMAGE, 0x237, 42);
    name(FILE_Y);
    compare("first_record", (uint32_t)-1, (uint32_t)first_record(LENT(IMAGE), area[NAME].at, 41, area[TASK].at, 6));
    want(TASK, 0, "414243");
    compare("first_record", 3, (uint32_t)first_record(LENT(IMAGE), area[NAME].at, 42, area[TASK].at, 6));
    lend(TASK, TWYNARVEL_RECORD_BYTES, 0xEE);
    want(TASK, 0, "414243");
    compare("first_record", 3, (uint32_t)first_record(LENT(IMAGE), area[NAME].at, 0, area[TASK].at, 5));
    name(FILE_NEW);
    compare("first_record", (uint32_t)-1, (uint32_t)first_record(LENT(IMAGE), area[NAME].at, 42, area[TASK].at, 5));
}

/* The header's names, against the status table, Figure 3-1 and Tables 3-1 to 3-6. The other sections use the numbers. */
static void names(void)
{
    static const uint32_t pairs[][2] = {
        {TWYNARVEL_DONE, 0x00}, {TWYNARVEL_UNKNOWN_TYPE, 0x02}, {TWYNARVEL_BAD_LUN, 0x03}, {TWYNARVEL_WRONG_CODE, 0x07},
        {TWYNARVEL_NO_RIGHT, 0x0B}, {TWYNARVEL_IN_USE, 0x0D}, {TWYNARVEL_NO_FILE, 0x17}, {TWYNARVEL_OUT_OF_RANGE, 0x60},
        {TWYNARVEL_OTHER_LENGTH, 0x61}, {TWYNARVEL_EXISTS, 0x62}, {TWYNARVEL_NO_ROOM, 0x63}, {TWYNARVEL_BAD_DESCRIPTOR, 0x64},
        {TWYNARVEL_NO_SEGMENT, 0x65}, {TWYNARVEL_NAME_TAKEN, 0x66}, {TWYNARVEL_DIRECTORY_FULL, 0x67}, {TWYNARVEL_NOT_SOUND, 0x6F},
        {TWYNARVEL_BAD_REQUEST, 0x82}, {TWYNARVEL_BAD_LENGTH, 0x84}, {TWYNARVEL_PAST_END, 0xC2}, {TWYNARVEL_SOUND, 65536},
        {TWYNARVEL_SECTOR_BYTES, 256}, {TWYNARVEL_ID_BYTES, 4}, {TWYNARVEL_DESCRIPTOR_BYTES, 20}, {TWYNARVEL_RECORD_BYTES, 4096},
        {TWYNARVEL_TRANSFER_BYTES, 4096}, {TWYNARVEL_BLOCK_BYTES, 28}, {TWYNARVEL_DESK_BYTES, 192}, {TWYNARVEL_LUN_BYTES, 12},
        {TWYNARVEL_REPORT_BYTES, 4}, {TWYNARVEL_REPORT_ENDING, 0}, {TWYNARVEL_REPORT_MOVED, 2}, {TWYNARVEL_SETTLED, 1},
        {TWYNARVEL_QUOTA_USED, 2}, {TWYNARVEL_SEGMENT_NEEDED, 3}, {TWYNARVEL_MOST_QUOTA, 2048},
        {TWYNARVEL_CONTIGUOUS, 0}, {TWYNARVEL_SEQUENTIAL, 1}, {TWYNARVEL_PR, 0}, {TWYNARVEL_ER, 1}, {TWYNARVEL_PW, 2}, {TWYNARVEL_EW, 3},
        {TWYNARVEL_PRPW, 4}, {TWYNARVEL_PREW, 5}, {TWYNARVEL_ERPW, 6}, {TWYNARVEL_EREW, 7}, {TWYNARVEL_AT_START, 0}, {TWYNARVEL_AT_END, 1},
        {TWYNARVEL_BLOCK_CODE, 0}, {TWYNARVEL_BLOCK_FUNCTION, 1}, {TWYNARVEL_BLOCK_OPTIONS, 2}, {TWYNARVEL_BLOCK_STATUS, 4},
        {TWYNARVEL_BLOCK_LUN, 5}, {TWYNARVEL_BLOCK_RESERVED, 6}, {TWYNARVEL_BLOCK_RECORD, 8}, {TWYNARVEL_BLOCK_START, 12},
        {TWYNARVEL_BLOCK_END, 16}, {TWYNARVEL_BLOCK_LENGTH, 0x14}, {TWYNARVEL_BLOCK_COMPLETION, 24}, {TWYNARVEL_SHARED, 2147483648u},
        {TWYNARVEL_TRANSFER, 0x00}, {TWYNARVEL_READ, 0x01}, {TWYNARVEL_WRITE, 0x02}, {TWYNARVEL_UPDATE, 0x08}, {TWYNARVEL_COMMAND, 0x01},
        {TWYNARVEL_REWIND, 0x02}, {TWYNARVEL_NEXT, 0}, {TWYNARVEL_CURRENT, 1 << 13}, {TWYNARVEL_PRIOR, 1 << 14},
        {TWYNARVEL_RANDOM, 3 << 13}, {TWYNARVEL_IMAGE, 1 << 3}, {TWYNARVEL_BINARY, 1 << 0}, {TWYNARVEL_WAIT, 1 << 2},
        {TWYNARVEL_KEY_WITH_RECORD, 1 << 8}};
    size_t k;
    house(0, 0);
    rule("the header's numbers");
    for (k = 0; k < sizeof pairs / sizeof pairs[0]; k++) {
        of((unsigned)k, 0);
        compare("a name", pairs[k][1], pairs[k][0]);
    }
}

int main(void)
{
    static void (*const sections[])(void) = {
        names, example, block_lengths, desk_lengths, desk_forms, null_pointers, request_codes, options, selectors, parts, far_parts, sent_parts,
        story, texts, sectors, fixed, places, formats, soundness, modes, fitting, entry_codes, new_codes, offered_codes, kept_codes,
        reads_by_code, private_file, fresh_volumes, old_volume, counts_left, old_bytes, old_lengths, long_counts, counted_appends, closed_house,
        small_volume_closed, quotas, reports, segments_joined, segments_at_most, closed_lengths, closed_bytes, closed_at_random, closed_large,
        long_records, long_fixed, long_allocates, count_words, record_lengths, long_texts, new_sectors, far_segments, order_of_compact,
        order_of_format, order_of_allocate, order_of_assign, order_of_close, order_of_delete, order_of_rewind, order_of_read, order_of_write,
        order_of_update, order_of_segments};
    size_t k;
    prepare();
    for (after_fence = 0; after_fence < 2; after_fence++)
        for (k = 0; k < sizeof sections / sizeof sections[0]; k++)
            sections[k]();
    if (differences) {
        printf("gateway: %lu differences in %lu checks\n", differences, checks);
        return 1;
    }
    printf("gateway: %lu checks, all as they have to be\n", checks);
    return 0;
}
