#include <twynarvel.h>

/*
 * Reads the first record of a file into a buffer of TWYNARVEL_RECORD_BYTES, which has room for any record, and returns its length, or -1 if a
 * call was refused. `file` is a descriptor of 20 bytes, `code` its read-protect code: any number will do for the file's owner and user 0.
 */
int first_record(uint8_t *image, size_t size, const uint8_t *file, uint8_t code, uint8_t *buffer, uint32_t user)
{
    uint8_t desk[TWYNARVEL_DESK_BYTES] = {0}; /* every LUN is free */
    uint8_t block[TWYNARVEL_BLOCK_BYTES] = {TWYNARVEL_TRANSFER, TWYNARVEL_READ, 0, TWYNARVEL_IMAGE}; /* the next record of LUN 0, to address 0 ... */
    block[TWYNARVEL_BLOCK_END + 2] = (TWYNARVEL_RECORD_BYTES - 1) / 256;                             /* ... up to the last byte ... */
    block[TWYNARVEL_BLOCK_END + 3] = (TWYNARVEL_RECORD_BYTES - 1) % 256;                             /* ... of the task's area */
    if (twynarvel_assign(image, size, desk, sizeof desk, user, 0, file, 20, TWYNARVEL_PR, TWYNARVEL_AT_START, code) != TWYNARVEL_DONE ||
        twynarvel_iocb(block, sizeof block, image, size, desk, sizeof desk, buffer, TWYNARVEL_RECORD_BYTES, NULL, 0, user) != TWYNARVEL_DONE)
        return -1;
    return block[TWYNARVEL_BLOCK_LENGTH + 2] << 8 | block[TWYNARVEL_BLOCK_LENGTH + 3];
}
