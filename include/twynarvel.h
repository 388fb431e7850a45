/*
 * twynarvel.h: the volume service, called from C or C++ with numbers and byte areas only.
 *
 * The library keeps nothing between calls. A volume is an image, which is bytes that the caller owns. The desk, which says who holds which
 * file, is 192 bytes that the caller owns too. Both go into each call, and an accepted call writes them; twynarvel_check and
 * twynarvel_bring_up alone are lent no desk. docs/RULES.md has every rule.
 *
 * How to begin: twynarvel_format makes a volume and an empty desk. twynarvel_allocate makes a file, and twynarvel_assign gives it to one of
 * sixteen logical units (LUNs). Then twynarvel_iocb reads, writes, updates and rewinds, by a request block. twynarvel_close frees the LUN.
 * To begin with a volume that is there, pass 192 zeros for the desk: they are the desk on which every LUN is free. A volume from before
 * directory entries held record counts has to be brought up first, once, by twynarvel_bring_up.
 *
 * What the caller has to see to, in every call. Nothing here can test it, and no proof speaks of a call that breaks it:
 * - Each area is there for its whole length: every byte may be read, and written unless the pointer is to const.
 * - The areas of one call do not overlap.
 * - A null pointer is passed only with length 0.
 * - No other thread uses the areas while the call runs.
 * - The stack has room, 24 KB for any call: the library takes no memory of its own from anywhere else.
 * Beyond that, every length, every byte and every number will do. A call answers a status number to whatever it is given.
 *
 * A refusal leaves the image, the desk bytes, the two areas of a request and the report of a compaction as they were. Where several reasons
 * hold, the first in the order that stands with the function is answered.
 */
#ifndef TWYNARVEL_H
#define TWYNARVEL_H

#include <stddef.h>
#include <stdint.h>

#ifdef __cplusplus
extern "C" {
#endif

/* Status numbers. docs/RULES.md, "Status numbers", has the exact condition of each. */
#define TWYNARVEL_DONE 0x00            /* carried out */
#define TWYNARVEL_UNKNOWN_TYPE 0x02    /* no such file type or mode */
#define TWYNARVEL_BAD_LUN 0x03         /* caller above 65,533; LUN above 15, free, held, or another user's */
#define TWYNARVEL_WRONG_CODE 0x07      /* the caller has no right to read the file: another read-protect code than its own was offered */
#define TWYNARVEL_NO_RIGHT 0x0B        /* the caller has no right to the file, or the modes clash */
#define TWYNARVEL_IN_USE 0x0D          /* a LUN holds the file that was to be deleted */
#define TWYNARVEL_NO_FILE 0x17         /* no such file */
#define TWYNARVEL_OUT_OF_RANGE 0x60    /* a number of format, allocate or compact out of range, a code for a file of user 0, a bad volume ID */
#define TWYNARVEL_OTHER_LENGTH 0x61    /* update by another length than the record's */
#define TWYNARVEL_EXISTS 0x62          /* write of a record that is there */
#define TWYNARVEL_NO_ROOM 0x63         /* too few free sectors, or no run of them */
#define TWYNARVEL_BAD_DESCRIPTOR 0x64  /* a descriptor that names no file */
#define TWYNARVEL_NO_SEGMENT 0x65      /* a 63rd segment would be needed */
#define TWYNARVEL_NAME_TAKEN 0x66      /* a file of that descriptor is there */
#define TWYNARVEL_DIRECTORY_FULL 0x67  /* no unused entry */
#define TWYNARVEL_NOT_SOUND 0x6F       /* the volume is not sound, or none to bring up; the desk does not fit it, or its bytes are bad */
#define TWYNARVEL_BAD_REQUEST 0x82     /* a code that is not supported, a mode or selector that does not do, update of a contiguous file */
#define TWYNARVEL_BAD_LENGTH 0x84      /* a wrong length of buffer or block, or a part that is not inside its area */
#define TWYNARVEL_PAST_END 0xC2        /* the target is past the end */

/* What twynarvel_check adds to the number of free sectors if the volume is sound. It is above every such number. */
#define TWYNARVEL_SOUND 0x10000

/* Sizes, in bytes. */
#define TWYNARVEL_SECTOR_BYTES 256
#define TWYNARVEL_ID_BYTES 4           /* a volume ID */
#define TWYNARVEL_DESCRIPTOR_BYTES 20  /* user 0-1, catalog 2-9, filename 10-17, extension 18-19; names end in spaces */
#define TWYNARVEL_RECORD_BYTES 4096    /* the most data bytes of a record, and of a text before it is packed */
#define TWYNARVEL_TRANSFER_BYTES 4096  /* the most bytes of a contiguous transfer */
#define TWYNARVEL_BLOCK_BYTES 28
#define TWYNARVEL_DESK_BYTES 192
#define TWYNARVEL_LUN_BYTES 12
#define TWYNARVEL_REPORT_BYTES 4       /* the report of a compaction */

/* File types. */
#define TWYNARVEL_CONTIGUOUS 0
#define TWYNARVEL_SEQUENTIAL 1

/* Modes of an assignment: R reads, W writes; P leaves it to others too, E keeps others from it. */
#define TWYNARVEL_PR 0
#define TWYNARVEL_ER 1
#define TWYNARVEL_PW 2
#define TWYNARVEL_EW 3
#define TWYNARVEL_PRPW 4
#define TWYNARVEL_PREW 5
#define TWYNARVEL_ERPW 6
#define TWYNARVEL_EREW 7

/*
 * Read-protect codes. Each file has one, a byte: twynarvel_allocate gives it, and it stays as long as the file. A file of code 0 is read by
 * every user. A file of another code is read by its owner, who is the user of its descriptor, by user 0, and by whoever offers that code to
 * twynarvel_assign. A code gives no right to write. Files of user 0 have code 0.
 */

/* Where an assignment starts. */
#define TWYNARVEL_AT_START 0
#define TWYNARVEL_AT_END 1

/*
 * The request block: 28 bytes. A field of two or four bytes has its highest byte first.
 * The reserved bytes and the completion address are not looked at. The random record number is looked at for a random transfer alone. The
 * addresses are looked at for transfers alone.
 */
#define TWYNARVEL_BLOCK_CODE 0         /* 1 byte: request code */
#define TWYNARVEL_BLOCK_FUNCTION 1     /* 1 byte: function */
#define TWYNARVEL_BLOCK_OPTIONS 2      /* 2 bytes: options */
#define TWYNARVEL_BLOCK_STATUS 4       /* 1 byte, written: the status number */
#define TWYNARVEL_BLOCK_LUN 5          /* 1 byte: LUN */
#define TWYNARVEL_BLOCK_RESERVED 6     /* 2 bytes */
#define TWYNARVEL_BLOCK_RECORD 8       /* 4 bytes: random record number, or sector number of a contiguous file */
#define TWYNARVEL_BLOCK_START 12       /* 4 bytes: the first byte of the part */
#define TWYNARVEL_BLOCK_END 16         /* 4 bytes: the last byte of the part, which belongs to it */
#define TWYNARVEL_BLOCK_LENGTH 20      /* 4 bytes, written: the data bytes that were moved */
#define TWYNARVEL_BLOCK_COMPLETION 24  /* 4 bytes: completion address */

/* An address with this bit set counts from the start of the shared segment. Without it, it counts from the start of the task's own area. */
#define TWYNARVEL_SHARED 0x80000000u

/* Request codes, and the functions that go with each. Any other pair is refused. */
#define TWYNARVEL_TRANSFER 0x00
#define TWYNARVEL_READ 0x01
#define TWYNARVEL_WRITE 0x02
#define TWYNARVEL_UPDATE 0x08
#define TWYNARVEL_COMMAND 0x01
#define TWYNARVEL_REWIND 0x02

/*
 * Options. A transfer is of text if neither IMAGE nor BINARY is set: then a variable file stores its runs of spaces packed. The other files
 * ignore that. WAIT and KEY_WITH_RECORD may be set and mean nothing here. Any other bit is refused; of a rewind, any bit but those two.
 */
#define TWYNARVEL_NEXT 0x0000
#define TWYNARVEL_CURRENT 0x2000
#define TWYNARVEL_PRIOR 0x4000
#define TWYNARVEL_RANDOM 0x6000
#define TWYNARVEL_IMAGE 0x0008
#define TWYNARVEL_BINARY 0x0001
#define TWYNARVEL_WAIT 0x0004
#define TWYNARVEL_KEY_WITH_RECORD 0x0100

/*
 * The report of a compaction: four bytes. Byte 0 says why it ended: no free sector is lower than a data sector of a sequential file, or there
 * is no such data sector; as many sectors were moved as were allowed; or the next one's file would need a 63rd segment.
 */
#define TWYNARVEL_REPORT_ENDING 0      /* 1 byte: why it ended; byte 1 is zero */
#define TWYNARVEL_REPORT_MOVED 2       /* 2 bytes: the sectors that were moved, the higher byte first */
#define TWYNARVEL_SETTLED 1
#define TWYNARVEL_QUOTA_USED 2
#define TWYNARVEL_SEGMENT_NEEDED 3

/* The highest quota of a compaction. */
#define TWYNARVEL_MOST_QUOTA 2048

/*
 * The desk bytes: twelve for each LUN, from LUN 0 on. The caller keeps them from call to call and has no need to look into them.
 * Of a held LUN: byte 0 is 1; 1 the mode, 0 to 7; 2-3 the user; 4 the directory slot; 5 n, how many records or sectors were moved last; 6
 * the read-protect code that was offered; 7 zero; 8-11 i, the first of them. n and i are zero if nothing was moved yet. A free LUN is twelve
 * zeros. Desk bytes of another length or form are bad. A LUN that reads has to have the right to read, by the code in byte 6: else the desk
 * does not fit the volume.
 */

/*
 * Carries out a request block: a read, a write, an update or a rewind.
 *
 * block    the request. Byte 4 gets the status number, and bytes 20 to 23 the length: the data bytes moved, or 0 after a refusal or a
 *          rewind. No other byte of it is written. A block of another length than 28 is not written at all.
 * image    the volume. Written by an accepted write or update.
 * desk     the desk bytes. Written by an accepted request.
 * task     the task's own area.
 * shared   the shared segment. It may have length 0, and so may the task's own area.
 * caller   the user who asks.
 *
 * The part of a transfer lies in the area that the start address names by its top bit, from the start to the end address, both included. So it
 * has at least one byte, and an empty record cannot be written. A read writes the first bytes of the part, as many as the length says. No
 * other byte of either area is written. A write and an update write to neither area. The two areas must not overlap each other.
 *
 * Returns the status number. Refusals, the first that applies:
 *   0x84  the block has another length than 28 (the number is returned, and nothing is written)
 *   0x6F  the desk bytes are bad
 *   0x82  code, function or options are not supported
 *   0x84  transfers: the end address has another top bit than the start address, the end is before the start, or the part is not wholly
 *         inside its area
 *   then  rewind: 0x6F volume or desk, 0x03 caller or LUN
 *         read: 0x6F, 0x03, 0x82 mode or selector, 0x84 (contiguous: no multiple of 256, or over 4,096), 0xC2 target at or past the end,
 *           0x84 (sequential: shorter than the record or its text)
 *         write: 0x6F, 0x03, 0x82, 0x84 (contiguous as in a read; sequential: over TWYNARVEL_RECORD_BYTES, not a fixed file's record length,
 *           or a text with a byte of 0x80 or more), 0xC2 past the end; sequential alone: 0x62 the record is there, 0x63 too few free sectors,
 *           0x65 segments
 *         update: 0x6F, 0x03, 0x82 mode or selector, 0x82 a contiguous file, 0x84 as in a write, 0xC2, 0x61 another length
 */
uint32_t twynarvel_iocb(uint8_t *block, size_t block_len, uint8_t *image, size_t image_len, uint8_t *desk, size_t desk_len,
                        uint8_t *task, size_t task_len, uint8_t *shared, size_t shared_len, uint32_t caller);

/*
 * Makes the whole image an empty volume, and the desk bytes an empty desk (192 zeros).
 *
 * image    256 times 16 to 2,048 bytes, which may hold anything. Every byte is written if the call is accepted.
 * desk     192 bytes, which may hold anything. Written if the call is accepted.
 * id       the volume ID: four bytes, a letter A-Z, then letters and digits, then spaces.
 * dirs     how many sectors the directory gets, 1 to 8. Each has room for eight files.
 *
 * Returns the status number. Refusals, the first that applies:
 *   0x6F  the desk bytes have another length than 192
 *   0x60  the image's length, the number of directory sectors or the ID is out of range
 */
uint32_t twynarvel_format(uint8_t *image, size_t image_len, uint8_t *desk, size_t desk_len, const uint8_t *id, size_t id_len, uint32_t dirs);

/*
 * Judges whether an image is a sound volume.
 *
 * image    any bytes. Nothing is written.
 *
 * Returns 0 if it is not sound; else TWYNARVEL_SOUND plus the number of free sectors. It never refuses.
 */
uint32_t twynarvel_check(const uint8_t *image, size_t image_len);

/*
 * Brings up a volume from before directory entries held record counts: the number of records of each sequential file goes to bytes 28 to 31
 * of its entry, the highest byte first. Those bytes were zero. With a record such a volume is not sound: until it is brought up,
 * twynarvel_check returns 0 for it, and every other call but twynarvel_format refuses it.
 *
 * image    the volume. Those four bytes of the entries of sequential files are written if the call is accepted, and no other byte.
 *
 * It is lent no desk bytes. Those that were kept with the volume go on with it.
 *
 * Returns the status number. Refusals:
 *   0x6F  the image is not sound by the rule of before, under which those bytes are zero. So a volume is brought up once. One that has no
 *         record is sound by both rules: it is accepted each time, and stays as it is
 */
uint32_t twynarvel_bring_up(uint8_t *image, size_t image_len);

/*
 * Makes a file. A contiguous file gets its sectors, zero-filled. A sequential one starts with no record.
 *
 * image      the volume. Written if the call is accepted.
 * desk       the desk bytes. They are judged, and not written.
 * caller     the user who asks: the descriptor's user, or user 0.
 * desc       the descriptor, 20 bytes.
 * kind       TWYNARVEL_CONTIGUOUS or TWYNARVEL_SEQUENTIAL.
 * size       sectors of a contiguous file, 1 to 2,048; 0 for a sequential one.
 * record     0 for a contiguous file; for a sequential one 0 (variable records) or the length of each record, 1 to TWYNARVEL_RECORD_BYTES.
 * read_code  the read-protect code, 0 to 255: what other users have to offer to read the file. 0 for a file that every user may read, and
 *            for each file of user 0.
 *
 * Returns the status number. Refusals, the first that applies:
 *   0x6F  the desk bytes are bad
 *   0x6F  the volume is not sound, or the desk does not fit it
 *   0x03  the caller is above 65,533
 *   0x64  the descriptor is bad
 *   0x02  the file type is unknown
 *   0x60  size or record length is out of range, or the descriptor's user is 0 and the code is not
 *   0x0B  the caller has no right to files of that user
 *   0x66  the name is taken
 *   0x67  the directory is full
 *   0x63  there is no free run of that size, or no free sector
 */
uint32_t twynarvel_allocate(uint8_t *image, size_t image_len, const uint8_t *desk, size_t desk_len, uint32_t caller, const uint8_t *desc,
                            size_t desc_len, uint32_t kind, uint32_t size, uint32_t record, uint8_t read_code);

/*
 * Gives a file to a free LUN.
 *
 * image    the volume. Not written.
 * desk     the desk bytes. The LUN's twelve bytes are written if the call is accepted.
 * caller   the user who asks, and who then holds the LUN.
 * lun      the LUN, 0 to 15.
 * desc     the descriptor, 20 bytes.
 * mode     TWYNARVEL_PR to TWYNARVEL_EREW.
 * at_end   0 for the file's start; any other number for its end, which counts only in a mode that writes.
 * offered  the read-protect code that the caller offers, 0 to 255; the LUN keeps it. The file's owner and user 0 may offer any, and so may
 *          whoever assigns a file of code 0, or in a mode that does not read.
 *
 * Returns the status number. Refusals, the first that applies:
 *   0x6F  the desk bytes are bad
 *   0x6F  the volume is not sound, or the desk does not fit it
 *   0x03  the caller is above 65,533; the LUN is above 15 or held
 *   0x02  the mode is unknown
 *   0x64  the descriptor is bad
 *   0x17  there is no such file
 *   0x07  the mode reads, the file's code is neither 0 nor the one offered, and the caller is neither the file's owner nor user 0
 *   0x0B  the mode writes and the caller has no right to the file, or it clashes with another LUN's mode
 */
uint32_t twynarvel_assign(const uint8_t *image, size_t image_len, uint8_t *desk, size_t desk_len, uint32_t caller, uint32_t lun,
                          const uint8_t *desc, size_t desc_len, uint32_t mode, uint32_t at_end, uint8_t offered);

/*
 * Frees a LUN.
 *
 * image    the volume. Not written.
 * desk     the desk bytes. The LUN's twelve bytes become zero if the call is accepted.
 * caller   the user who holds the LUN.
 * lun      the LUN, 0 to 15.
 *
 * Returns the status number. Refusals, the first that applies:
 *   0x6F  the desk bytes are bad
 *   0x6F  the volume is not sound, or the desk does not fit it
 *   0x03  the caller is above 65,533; the LUN is above 15, free or another user's
 */
uint32_t twynarvel_close(const uint8_t *image, size_t image_len, uint8_t *desk, size_t desk_len, uint32_t caller, uint32_t lun);

/*
 * Deletes a file. Its sectors are free then; what they hold is left as it is.
 *
 * image    the volume. Written if the call is accepted.
 * desk     the desk bytes. They are judged, and not written.
 * caller   the user who asks: the descriptor's user, or user 0.
 * desc     the descriptor, 20 bytes.
 *
 * Returns the status number. Refusals, the first that applies:
 *   0x6F  the desk bytes are bad
 *   0x6F  the volume is not sound, or the desk does not fit it
 *   0x03  the caller is above 65,533
 *   0x64  the descriptor is bad
 *   0x17  there is no such file
 *   0x0B  the caller has no right to the file
 *   0x0D  a LUN holds the file
 */
uint32_t twynarvel_delete(uint8_t *image, size_t image_len, const uint8_t *desk, size_t desk_len, uint32_t caller, const uint8_t *desc,
                          size_t desc_len);

/*
 * Closes up the volume, a little at a time. One step takes the highest-numbered data sector of any sequential file and moves its bytes to the
 * lowest free sector, if that one is lower. The file's access block then has the fewest segments that give its sectors in the same order; the
 * old sector is free, and its bytes stay. Contiguous files and access blocks stay where they are. Every read returns what it returned before,
 * and the desk bytes that were kept with the volume go on with it.
 *
 * image    the volume. Written if the call is accepted: by each step the new sector, the access block and two bits of the SAT.
 * desk     the desk bytes. They are judged, and not written.
 * quota    how many steps may be made at most, 0 to 2,048. No volume needs more.
 * report   four bytes, which get why it ended and how many sectors were moved, if the call is accepted: 1 settled, 2 quota used, 3 a 63rd
 *          segment needed, and that step is not made. Where two of these hold, the lower number is given, whatever the quota; so quota 0
 *          tells whether the volume is settled. A report of another length is not written, and the call is carried out all the same.
 *
 * Returns the status number. Refusals, the first that applies:
 *   0x6F  the desk bytes are bad
 *   0x6F  the volume is not sound, or the desk does not fit it
 *   0x60  the quota is above 2,048
 */
uint32_t twynarvel_compact(uint8_t *image, size_t image_len, const uint8_t *desk, size_t desk_len, uint32_t quota, uint8_t *report,
                           size_t report_len);

#ifdef __cplusplus
}
#endif

#endif
