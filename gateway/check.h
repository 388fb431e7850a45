/* What the test's files share: the lent areas, what they have to hold, and each call with what it has to answer. */
#ifndef CHECK_H
#define CHECK_H

#include "twynarvel.h"

/* The C library's functions that the test uses. The kit has the library, and no headers with it. */
void *memcpy(void *to, const void *from, size_t n);
void *memset(void *to, int value, size_t n);
int memcmp(const void *a, const void *b, size_t n);

/*
 * The areas that calls are lent. Each has exactly the length that it is given, and a page that cannot be touched right behind it (first
 * round) or right before it (second round). So one byte too far ends the test. NAME is the volume ID or the descriptor.
 */
enum { BLOCK, IMAGE, DESK, TASK, SHARED, NAME, REPORT, AREAS };
struct area {
    uint8_t *at;   /* what is lent */
    size_t len;
    uint8_t *want; /* what it has to hold after the next call */
    uint8_t *room; /* the pages between the two that cannot be touched */
};
extern struct area area[AREAS];
#define LENT(which) area[which].at, area[which].len

extern int after_fence; /* 0 in the first round, 1 in the second */
extern unsigned long checks, differences;
void prepare(void); /* maps the areas' pages, once */


void lend(int which, size_t len, int value);       /* an area of that length, every byte of that value */
void lend_null(int which);                         /* a null pointer with length 0 */
void put(int which, size_t at, const char *hex);   /* bytes, as hexadecimal digits and spaces, into an area */
void poke(int which, size_t at, unsigned value);   /* one byte into an area */
void want(int which, size_t at, const char *hex);  /* bytes that the next call has to write */
void want_fill(int which, size_t at, size_t len, int value);
void want_word(size_t at, unsigned value);         /* a word of the image that it has to write, the higher byte first */
void mark(int k);                                  /* remembers image and desk, for k of 0 to 2 */
void back(int k);                                  /* puts them back */
void back_as(int k, size_t len);                   /* puts them back, the image cut or with zeros after it */
void want_back(int k);                             /* the next call has to make the image what it was */

/* The rule that the next checks are of, and two numbers that tell them apart. Printed with a difference. */
void rule(const char *text);
void of(unsigned a, unsigned b);

/*
 * Each call. First comes what it has to answer. Then all areas are compared, byte by byte, with what they have to hold: what they held
 * before, but for what `want` said, and for the block's status and length, and the report. A const area cannot be written while the call runs.
 */
void iocb(uint32_t status, uint32_t length, uint32_t caller);
void format(uint32_t status, uint32_t dirs);
void check(uint32_t verdict);
void bring_up(uint32_t status);
void allocate(uint32_t status, uint32_t caller, uint32_t kind, uint32_t size, uint32_t record, uint8_t read_code);
void assign(uint32_t status, uint32_t caller, uint32_t lun, uint32_t mode, uint32_t at_end, uint8_t offered);
void release(uint32_t status, uint32_t caller, uint32_t lun);
void erase(uint32_t status, uint32_t caller);
void compact(uint32_t status, unsigned ending, unsigned moved, uint32_t quota); /* an accepted one writes a report of four bytes */
void compare(const char *call, uint32_t wanted, uint32_t got); /* what each of them ends with */

/* A block of 28 bytes. The bytes that are not looked at, and those that are written, hold something on purpose. */
void request(unsigned code, unsigned function, unsigned options, unsigned lun, uint32_t record, uint32_t start, uint32_t end);
void transfer(unsigned function, unsigned options, unsigned lun, uint32_t record, size_t len); /* with the first bytes of the task's area */
void rewind_of(unsigned lun);

/* Descriptors: user 5, no catalog, extension DA. NEW is the name of no file. */
#define FILE_X "0005 2020202020202020 5820202020202020 4441"
#define FILE_Y "0005 2020202020202020 5920202020202020 4441"
#define FILE_Z "0005 2020202020202020 5A20202020202020 4441"
#define FILE_NEW "0005 2020202020202020 4E45572020202020 4441"
void name(const char *hex);

/*
 * A sound volume of 16 sectors, written out by the rules of docs/RULES.md, and a desk that fits it:
 *   slot 0  X, contiguous, sectors 3 to 5, of bytes 33, 44 and 55
 *   slot 1  Y, variable, access block 6, sector 7: records ABC, A, FF 82, one of 0 bytes, 41 80 42
 *   slot 2  Z, fixed of 4 bytes, access block 8, sector 9: records WXYZ and "1  2"
 *   LUN 0 Y of user 5, PRPW, at record 1; LUN 1 X, LUN 2 Z of user 5, PRPW, Fresh; LUN 3 Y of user 5, PW; LUN 4 Y of user 6, PR, Fresh
 * Five sectors are free, 10 to 14. The task's area has `len` bytes of EE, the shared segment `shared` bytes of DD, the report four of BB.
 */
void house(size_t len, size_t shared);

/* Whether that volume is sound with this value in a byte of Y's entry, of Y's access block, or of the trailer. */
int entry_byte(unsigned byte, unsigned v);
int block_byte(unsigned byte, unsigned v);
int trailer_byte(unsigned byte, unsigned v);

/* The lines of the README (example.c). */
int first_record(uint8_t *image, size_t size, const uint8_t *file, uint8_t code, uint8_t *buffer, uint32_t user);

/* Sections, each in a file by topic. */
void block_lengths(void);
void desk_lengths(void);
void desk_forms(void);
void null_pointers(void);
void request_codes(void);
void options(void);
void selectors(void);
void parts(void);
void far_parts(void);
void sent_parts(void);
void story(void);
void texts(void);
void sectors(void);
void fixed(void);
void places(void);
void formats(void);
void soundness(void);
void modes(void);
void fitting(void);
void entry_codes(void);
void new_codes(void);
void offered_codes(void);
void kept_codes(void);
void reads_by_code(void);
void private_file(void);
void fresh_volumes(void);
void old_volume(void);
void counts_left(void);
void old_bytes(void);
void old_lengths(void);
void long_counts(void);
void counted_appends(void);
void closed_house(void);
void small_volume_closed(void);
void quotas(void);
void reports(void);
void segments_joined(void);
void segments_at_most(void);
void closed_lengths(void);
void closed_bytes(void);
void closed_at_random(void);
void closed_large(void);
void long_records(void);
void long_fixed(void);
void long_allocates(void);
void count_words(void);
void record_lengths(void);
void long_texts(void);
void new_sectors(void);
void far_segments(void);
void order_of_compact(void);
void order_of_format(void);
void order_of_allocate(void);
void order_of_assign(void);
void order_of_close(void);
void order_of_delete(void);
void order_of_rewind(void);
void order_of_read(void);
void order_of_write(void);
void order_of_update(void);
void order_of_segments(void);

#endif
