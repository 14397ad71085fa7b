/* genie.h: Genie-DOS disks (TRSDOS family, 1983) for hosts in C and C++.
 *
 * A disk is an image that the caller lends for one call: blocks x units granules, at most 7,864,320
 * bytes. The library keeps nothing between calls. Every call tests all that it is given, whatever
 * the numbers and whatever the image holds, and answers with one number: 0 if it was done, else the
 * first refusal of the table below whose case holds. A refused call changes nothing; what it hands
 * back is said at "Answers under a refusal".
 *
 * WHAT THE CALLER SEES TO
 *   - No pointer is null, neither that of a slice nor that of an outgoing number. An empty slice
 *     (length 0) may have any other pointer.
 *   - A slice's pointer is good for as many bytes as the length beside it says.
 *   - Slices and outgoing numbers do not overlap; the two images of genie_compare may, neither is
 *     written to.
 *   - While a call runs nobody else writes to what it is lent, nor reads what it may write to. So
 *     threads and processes that change one image take turns, by a lock of the host's; calls that
 *     only look, and calls on other images, may run beside each other.
 *   - A call that changes an image comes to its end. One that is cut off, as by a process killed or
 *     power lost, leaves any mixture of old and new bytes, and no promise holds of it. So a host
 *     that keeps images in files lends no file's own bytes: not a shared mapping (MAP_SHARED) of the
 *     only copy, but bytes in memory or a private mapping; and it saves by copy and rename: all
 *     bytes to a new file beside the old one, that synced, renamed over the old one, and the folder
 *     synced. Then the file is the old disk or the new one, whatever happens.
 * Nothing else is asked: a size_t may hold any value.
 *
 * ARGUMENTS THAT MANY CALLS SHARE
 *   image, image_len      the disk; const where the call only reads it.
 *   blocks                1 to 192.
 *   units                 granules in a block, 1 to 8. Granule number = block x units + unit.
 *   start                 the directory's first sector, a multiple of granule_sectors, with at
 *                         least 10 sectors from there to the end of the disk.
 *   open_code             the 16-bit code that stands for "no password".
 *   system_disk           true: slots 32 x row + s with row 0 to 3 and s 0 to 7 are kept for system
 *                         files, and no call gives one to a file. false, a data disk: only slots
 *                         00H and 01H are kept, so that a directory of 30 sectors takes 222 files.
 *                         Nothing on a disk says which it is; only what genie_create and a growing
 *                         file find free hangs on it, and no refusal but 8.
 *   granule_sectors       sectors of 256 bytes in a granule: 5, or 10 or 20 on a hard disk. The
 *                         image has blocks x units x GENIE_GRANULE_BYTES(granule_sectors) bytes.
 *                         The directory has 10, 15, 20, 25 or 30 sectors whatever the size; every
 *                         granule that it touches is the directory's, to its end. Nothing on a disk
 *                         says how large its granules are.
 *   name, name_len        11 bytes: name of 1 to 8, then type of 0 to 3, each padded right with
 *                         20H. Allowed bytes: 30H to 39H, 41H to 5DH. A name that comes in
 *                         (genie_name, genie_look_up, genie_open, genie_create) must be exactly 11
 *                         bytes long, and may have 61H to 7DH in place of 41H to 5DH: it is folded
 *                         to these, and what is hashed, searched, put into entries and handles is
 *                         the folded name. No other name is folded: not a handle's, not one on the
 *                         disk.
 *   place                 under refusal 3 the place, 0 to 10, of the name's first bad byte: one
 *                         that is neither allowed once it is folded nor 20H; 20H at place 0; any
 *                         other than 20H behind a 20H of the name (places 0 to 7) or of the type (8
 *                         to 10). 0 where the name is not 11 bytes long. Otherwise GENIE_NO_PLACE
 *                         (11).
 *   handle, handle_len    at least GENIE_HANDLE_BYTES bytes, of which only the first 19 are used;
 *                         const where the call leaves them alone:
 *                           0        slot of the file's first entry
 *                           1        level, 0 (everything) to 7 (nothing)
 *                           2, 3     record length, 1 to 256, low byte first
 *                           4 to 7   position, 0 to GENIE_HIGHEST_POSITION(granule_sectors),
 *                                    low byte first
 *                           8 to 18  name, 11 bytes
 *                         Between calls the caller may set the position (bytes 4 to 7).
 *   checking              whether password codes are tested.
 *   code                  the password code given; any 16-bit number is good.
 *   fault_slot            every call but genie_free and genie_name sets it: where the answer is one
 *                         of 21 to 30 and an entry is at fault, *fault_slot is the entry's slot, 0
 *                         to 255; otherwise GENIE_NO_SLOT (256). The entry of slot 32 x row + s is
 *                         in directory sector s + 2 (counted from the GAT, sector 0) at byte 32 x
 *                         row. Of several faults the one in the lowest slot is told, and at that
 *                         slot the first number.
 *
 * REFUSALS stand below, in the order in which they are tested.
 *
 * Hosts in C write less, and cannot mix up the numbers of a geometry, by genie_disk.h: a disk, a
 * handle and a name as structs, and each call over them. This file includes it at its end.
 */
#ifndef GENIE_H
#define GENIE_H

#include <stdbool.h>
#include <stddef.h>
#include <stdint.h>

/* The interface's version: that of the library for C (host/c) and of the crate genie-dos. */
#define GENIE_VERSION_MAJOR 0
#define GENIE_VERSION_MINOR 1
#define GENIE_VERSION_PATCH 0
#define GENIE_VERSION "0.1.0"

/* Where compilers know it, they warn of a null pointer and of an answer that nobody looks at. */
#if defined(__GNUC__)
#define GENIE_CALL __attribute__((nonnull, warn_unused_result))
#else
#define GENIE_CALL
#endif

#ifdef __cplusplus
extern "C" {
#endif

enum genie_refusal {
    GENIE_DONE = 0, /* accepted */
    /* blocks, units, start, granule_sectors or the image's length is not as said above */
    GENIE_GEOMETRY = 1,

    /* 21 to 30: the disk is not consistent; never by genie_free and genie_name. With the slot of
       the entry at fault, except where it says "no slot". */

    /* HIT byte 1FH is not 0, 5, 10, 15 or 20, or the directory passes the end of the disk; no
       slot */
    GENIE_FAULT_DIRECTORY_LENGTH = 21,
    /* the slot's HIT byte is not 0 though its entry is not in use, or is 0 though it is, or is not
       the hash of its file's name (not tested of an extension under 25 for being met in no chain,
       met twice or badly formed) */
    GENIE_FAULT_HIT = 22,
    /* the file's name is not well formed, a small letter in it is bad too; or bit 5 of the entry's
       byte 00 is set */
    GENIE_FAULT_NAME = 23,
    GENIE_FAULT_DUPLICATE_NAME = 24, /* a file in a lower slot has the same name */
    /* the entry's marker is neither FEH nor FFH, a pair stands behind a block FFH, fewer than four
       runs stand before a marker FEH, or the link leads to no extension in use; or the entry is an
       extension that is met in no file's chain, met twice, or badly formed (byte 00 not 90H, a
       wrong link back, no run) */
    GENIE_FAULT_CHAIN = 25,
    /* a run of the entry passes the end of the disk, or its first unit is none that a block has */
    GENIE_FAULT_RUN_OFF_DISK = 26,
    GENIE_FAULT_GAT_BIT = 27, /* a granule of the entry's runs is free in the GAT */
    /* a granule of the entry's runs is in a run of a lower slot's entry too, or twice in this
       one's */
    GENIE_FAULT_GRANULE_SHARED = 28,
    /* the file's size is larger than its granules, or its sector count is 0 and its end byte is
       not; told only where the file's chain is whole */
    GENIE_FAULT_SIZE = 29,
    /* a granule of the directory is in the entry's runs, and its file has no system flag; or, with
       no slot and after all slots, a granule of the directory is free in the GAT */
    GENIE_FAULT_DIRECTORY_GRANULE = 30,

    GENIE_TRACE = 14, /* the trace is malformed (play back): *byte and *bit say where */
    GENIE_NO_SUCH_DRIVE = 16, /* a drive number that is not 0 or 1 (two drives), before all others */
    GENIE_NO_ROOM = 15, /* fewer bytes for results than the trace has calls (play back) */
    /* a position, record length, level, date or sector is out of range; position + length passes
       the highest position in a write; the buffer is shorter than the record length, or that of
       load record is under 255 bytes; the handle is under 19 bytes; the name buffer of list,
       compare or genie_name is under 11 bytes; bring back is given a slot that the directory has
       not. A handle's three numbers are tested in every call that takes one, used or not. The
       highest position and the highest sector go by granule_sectors alone, however small the
       image. */
    GENIE_RANGE = 12,
    /* the name is not well formed once it is folded, or not 11 bytes long (calls by name), with
       *place */
    GENIE_NAME = 3,
    /* the handle's slot is none that the directory has, or is not in use, or an extension, or has
       another name */
    GENIE_STALE = 7,
    GENIE_NOT_FOUND = 4, /* no file has that name (look up, open) */
    GENIE_PASSWORD = 5, /* wrong password code (open; create of a file that exists) */
    GENIE_SLOT_IN_USE = 17, /* the slot is in use (bring back) */
    /* level over 5 for reading, over 4 for write, allot and trim, over 1 for kill; or a system file
       in the last four and in bring back */
    GENIE_LEVEL = 6,
    /* the slot holds no killed file that is still whole, or an extension (bring back) */
    GENIE_NOTHING_WHOLE = 18,
    GENIE_NAME_IN_USE = 19, /* another file has the killed file's name (bring back) */
    GENIE_GRANULE_TAKEN = 20, /* a granule of the killed file is taken again (bring back) */

    /* 31 to 33: what the program file has first that is no record (load record), with the byte
       position. */

    GENIE_LOAD_CODE = 31, /* a code that is not 01, 02 or 05; the position is the code's */
    /* the file ends inside a record or comment, or before a start address; the position is the
       file's size */
    GENIE_LOAD_END = 32,
    /* code 02 with a count that is not 2; the position is the count's */
    GENIE_LOAD_COUNT = 33,

    /* a read passes the file's size; the sector read is not one of the file's */
    GENIE_PAST_END = 10,
    /* the file may not grow (flag E) and more granules are needed than it owns */
    GENIE_NO_GROWTH = 11,
    GENIE_DISK_FULL = 9, /* more further granules are needed than are free */
    GENIE_DIRECTORY_FULL = 8 /* fewer permitted slots are free than the call needs */
};

/* Answers under a refusal: every outgoing number is 0, every lent buffer and the image are as they
 * stood. The exceptions: look up tells its count under refusal 4; *place is that of the bad byte,
 * or GENIE_NO_PLACE; a refused open or create leaves 19 zeros in a handle buffer of at least 19
 * bytes (using that handle is refusal 12); compare says which image it refuses; load record tells
 * the position under 31, 32 and 33; play back says where under refusal 14; *fault_slot is the slot
 * at fault, or GENIE_NO_SLOT. */

#define GENIE_HANDLE_BYTES 19
#define GENIE_NAME_BYTES 11

/* A row of the table of genie_list_from. */
#define GENIE_ROW_BYTES 20
#define GENIE_SECTOR_BYTES 256
/* Of granules of s sectors (5, 10 or 20), as numbers of type size_t: their bytes, 1,280, 2,560 or
 * 5,120; the highest position in a file, 1,966,080, 3,932,160 or 7,864,320, which is also the
 * length of the largest image; and a file's highest sector, 7,679, 15,359 or 30,719. */
#define GENIE_GRANULE_BYTES(s) ((size_t)GENIE_SECTOR_BYTES * (s))
#define GENIE_HIGHEST_POSITION(s) ((size_t)192 * 8 * GENIE_GRANULE_BYTES(s))
#define GENIE_HIGHEST_SECTOR(s) (GENIE_HIGHEST_POSITION(s) / GENIE_SECTOR_BYTES - 1)
#define GENIE_NO_SLOT 256
#define GENIE_NO_PLACE 11
#define GENIE_LOAD_BYTES 255

/* Name: the check that the calls by name make of theirs, by itself, of no disk. The folded name
 * goes to the first 11 bytes of folded (a buffer of at least 11 bytes). Refusals 12, 3 with
 * *place. */
GENIE_CALL
uint8_t genie_name(const uint8_t *name, size_t name_len, uint8_t *folded, size_t folded_len,
                   size_t *place);

/* Check: whether the image is a consistent disk. Refusals 1, 21 to 30 with *fault_slot. (Every
 * other call makes this check first and tells the same number and slot, genie_free and genie_name
 * excepted.) */
GENIE_CALL
uint8_t genie_check(const uint8_t *image, size_t image_len, size_t blocks, size_t units,
                    size_t start, uint16_t open_code, bool system_disk, size_t granule_sectors,
                    size_t *fault_slot);

/* Look up: the slot of the file's first entry in *slot; in *compared how many entries were
 * compared, those whose HIT byte is the name's hash, by rising slot number, the found one included.
 * Under refusal 4 *compared counts them all. Refusals 1, 21 to 30 with *fault_slot, 3 with *place,
 * 4. */
GENIE_CALL
uint8_t genie_look_up(const uint8_t *image, size_t image_len, size_t blocks, size_t units,
                      size_t start, uint16_t open_code, bool system_disk, size_t granule_sectors,
                      const uint8_t *name, size_t name_len, size_t *slot, size_t *compared,
                      size_t *place, size_t *fault_slot);

/* Open: makes a handle with position 0 and the record length given (1 to 256). Its level is 0 if
 * checking is off, the file's main code is open_code, or code is the main code; the file's stored
 * level if code is the worker code only. Refusals 1, 21 to 30 with *fault_slot, 12, 3 with *place,
 * 4, 5. */
GENIE_CALL
uint8_t genie_open(const uint8_t *image, size_t image_len, size_t blocks, size_t units,
                   size_t start, uint16_t open_code, bool system_disk, size_t granule_sectors,
                   const uint8_t *name, size_t name_len, size_t length, bool checking,
                   uint16_t code, uint8_t *handle, size_t handle_len, size_t *place,
                   size_t *fault_slot);

/* Create: an empty file with that name, date (day 0 to 31, month 0 to 15, year since 1980 0 to 15),
 * record length (1 to 256) and codes, in the first permitted free slot; *old is 0, the handle has
 * level 0. If the file exists nothing changes on the disk: it is opened as by genie_open with
 * main_code as the code given, and *old is 1. The numbers are tested either way. Refusals 1, 21 to
 * 30 with *fault_slot, 12, 3 with *place, 5, 8. */
GENIE_CALL
uint8_t genie_create(uint8_t *image, size_t image_len, size_t blocks, size_t units, size_t start,
                     uint16_t open_code, bool system_disk, size_t granule_sectors,
                     const uint8_t *name, size_t name_len, size_t day, size_t month, size_t year,
                     size_t length, uint16_t main_code, uint16_t worker_code, bool checking,
                     size_t *old, uint8_t *handle, size_t handle_len, size_t *place,
                     size_t *fault_slot);

/* Read record: the file's bytes from the handle's position, as many as its record length, go to the
 * start of the buffer; the rest of the buffer is untouched; the handle's position advances by the
 * record length. Refusals 1, 21 to 30 with *fault_slot, 12, 7, 6, 10. */
GENIE_CALL
uint8_t genie_read_record(const uint8_t *image, size_t image_len, size_t blocks, size_t units,
                          size_t start, uint16_t open_code, bool system_disk,
                          size_t granule_sectors, uint8_t *handle, size_t handle_len,
                          uint8_t *buffer, size_t buffer_len, size_t *fault_slot);

/* Read bytes: read record with the buffer's length, 0 to GENIE_HIGHEST_POSITION(granule_sectors), in
 * the record length's place: a whole file in one call. The handle's record length is tested, and
 * not used. A read of 0 bytes is accepted at a position up to the size. Refusals 1, 21 to 30 with
 * *fault_slot, 12 (a longer buffer too), 7, 6, 10. */
GENIE_CALL
uint8_t genie_read_bytes(const uint8_t *image, size_t image_len, size_t blocks, size_t units,
                         size_t start, uint16_t open_code, bool system_disk,
                         size_t granule_sectors, uint8_t *handle, size_t handle_len,
                         uint8_t *buffer, size_t buffer_len, size_t *fault_slot);

/* What genie_load_record tells in *kind: the record's code. */
enum genie_record {
    GENIE_NO_RECORD = 0, /* under a refusal */
    GENIE_DATA = 1, /* *count bytes for the address */
    GENIE_START_ADDRESS = 2 /* the program's start: behind it nothing is looked at */
};

/* Load record: the next record of a program file from the handle's position on. A program file is
 * records of a code, a count and what they count: code 01 has a two-byte address, low byte first,
 * and data bytes, the count less two, where counts 0 and 1 mean 254 and 255; code 02, count 2, is
 * the start address, which ends the program; code 05 is a comment of as many bytes as its count
 * says, and is passed over. Kind and address go to *kind and *address; a data record's bytes to the
 * start of the buffer (at least GENIE_LOAD_BYTES bytes), how many, 0 to 255, to *count, and the
 * handle's position to just behind it. A start address and a refusal leave handle and buffer as
 * they stood. One call looks at one record and the comments before it, no further; what it finds
 * first is told, *position with it under 31, 32 and 33, else 0. The record length plays no part.
 * Refusals 1, 21 to 30 with *fault_slot, 12, 7, 6, then 31, 32 or 33. */
GENIE_CALL
uint8_t genie_load_record(const uint8_t *image, size_t image_len, size_t blocks, size_t units,
                          size_t start, uint16_t open_code, bool system_disk,
                          size_t granule_sectors, uint8_t *handle, size_t handle_len,
                          uint8_t *buffer, size_t buffer_len, size_t *kind, size_t *address,
                          size_t *count, size_t *position, size_t *fault_slot);

/* Read sector: where the file's sector k (0 to GENIE_HIGHEST_SECTOR(granule_sectors)) lies. Its
 * bytes are image[*from] up to, not including, image[*to]: 256 of them, or fewer in the file's last
 * sector. Nothing is copied, the position plays no part and does not move. Refusals 1, 21 to 30
 * with *fault_slot, 12, 7, 6, 10. */
GENIE_CALL
uint8_t genie_read_sector(const uint8_t *image, size_t image_len, size_t blocks, size_t units,
                          size_t start, uint16_t open_code, bool system_disk,
                          size_t granule_sectors, const uint8_t *handle, size_t handle_len,
                          size_t k, size_t *from, size_t *to, size_t *fault_slot);

/* Write record: the first bytes of the buffer, as many as the handle's record length, go to the
 * file at the handle's position, and the position advances by that length. Bytes between the old
 * size and the position become zero. Sequential: the size becomes position + length, even if
 * smaller. Not sequential (random): the larger of that and the old size. Exactly the granules that
 * the new size lacks are taken. The file's flag B (worked on) is set. Refusals 1, 21 to 30 with
 * *fault_slot, 12, 7, 6, 11, 9, 8. */
GENIE_CALL
uint8_t genie_write_record(uint8_t *image, size_t image_len, size_t blocks, size_t units,
                           size_t start, uint16_t open_code, bool system_disk,
                           size_t granule_sectors, uint8_t *handle, size_t handle_len,
                           bool sequential, const uint8_t *buffer, size_t buffer_len,
                           size_t *fault_slot);

/* Write bytes: write record with the buffer's length, 0 to GENIE_HIGHEST_POSITION(granule_sectors),
 * in the record length's place: a whole file in one call. One of none is a write too: the size is
 * set, sequential to the position, and B. A growth is whole or refused. Refusals 1, 21 to 30 with
 * *fault_slot, 12, 7, 6, 11, 9, 8. */
GENIE_CALL
uint8_t genie_write_bytes(uint8_t *image, size_t image_len, size_t blocks, size_t units,
                          size_t start, uint16_t open_code, bool system_disk,
                          size_t granule_sectors, uint8_t *handle, size_t handle_len,
                          bool sequential, const uint8_t *buffer, size_t buffer_len,
                          size_t *fault_slot);

/* Allot: takes granules until the file owns those of its sectors 0 to k (k is 0 to
 * GENIE_HIGHEST_SECTOR(granule_sectors)); none if it does. The size does not change. Refusals 1, 21
 * to 30 with *fault_slot, 12, 7, 6, 11, 9, 8. */
GENIE_CALL
uint8_t genie_allot(uint8_t *image, size_t image_len, size_t blocks, size_t units, size_t start,
                    uint16_t open_code, bool system_disk, size_t granule_sectors,
                    const uint8_t *handle, size_t handle_len, size_t k, size_t *fault_slot);

/* Trim: gives back the granules that the size does not need, the last ones; with the file's flag F
 * (keep space) set nothing changes. Refusals 1, 21 to 30 with *fault_slot, 12, 7, 6. */
GENIE_CALL
uint8_t genie_trim(uint8_t *image, size_t image_len, size_t blocks, size_t units, size_t start,
                   uint16_t open_code, bool system_disk, size_t granule_sectors,
                   const uint8_t *handle, size_t handle_len, size_t *fault_slot);

/* Kill: the file is gone, its granules and slots are free. The handle stays as it is, and is stale.
 * Refusals 1, 21 to 30 with *fault_slot, 12, 7, 6. */
GENIE_CALL
uint8_t genie_kill(uint8_t *image, size_t image_len, size_t blocks, size_t units, size_t start,
                   uint16_t open_code, bool system_disk, size_t granule_sectors,
                   const uint8_t *handle, size_t handle_len, size_t *fault_slot);

/* Bring back: the killed file whose first entry is in that slot. It can be done as long as its
 * entries are whole, no file has its name and its granules are free. They are in use again then, as
 * many as *slots and *granules say; nothing else changes, so the file has the entries that it had
 * before the kill, and its bytes are what the granules hold now. Refusals 1, 21 to 30 with
 * *fault_slot, 12, 17, 6, 18, 19, 20. */
GENIE_CALL
uint8_t genie_bring_back(uint8_t *image, size_t image_len, size_t blocks, size_t units,
                         size_t start, uint16_t open_code, bool system_disk, size_t granule_sectors,
                         size_t slot, size_t *slots, size_t *granules, size_t *fault_slot);

/* Play back: the calls of a recorded session, one after the other, each on the disk that the one
 * before it left.
 *
 * The trace is packed in bits, most significant first: 8 bits, the number of names, 1 to 32; 11
 * bytes for each name; then calls of 56 bits: operation 3, file number 5, position 24, length 9,
 * fill byte 8, zero 7. The file number counts the names from 0.
 *
 *   operation                      uses
 *   1  create                      file number, length
 *   2  sequential write            file number, position, length, fill byte: a record full of it
 *   3  random write                the same
 *   4  allot                       file number, position (the sector)
 *   5  trim, 6  kill               file number
 *   7  read                        file number, position, length; the bytes are told nowhere
 *   0  the end; what follows is    nothing
 *      not read
 *
 * A field that is not used must be zero, and a file number below the number of names. Create has
 * date and codes 0; every other call opens its file first, with the call's length, or 256 where it
 * uses none, and codes are not tested. A refused open is the call's result, and a refused call
 * stops nothing.
 *
 * The trace is read through before anything runs. Then *calls says how many calls it has; the
 * result of each, 0 or a refusal number, is a byte of results, in turn; bytes behind them are as
 * they stood. trace_len / 7 bytes are always enough. Under GENIE_TRACE 8 x *byte + *bit is the
 * first bit of the first bad field, counted from 0, or the trace's length in bits where it breaks
 * off (*byte whole bytes, and *bit, 0 to 7, bits); else both are 0. The disk is checked once.
 * Refusals 1, 21 to 30 with *fault_slot, 14, 15. */
GENIE_CALL
uint8_t genie_play(uint8_t *image, size_t image_len, size_t blocks, size_t units, size_t start,
                   uint16_t open_code, bool system_disk, size_t granule_sectors,
                   const uint8_t *trace, size_t trace_len, uint8_t *results, size_t results_len,
                   size_t *calls, size_t *byte, size_t *bit, size_t *fault_slot);

/* List: the file with that number, counted from 0 by rising slot, system files left out. Its name
 * goes to the first 11 bytes of name (a buffer of at least 11 bytes), its size in bytes and the
 * granules it owns to *size and *granules; *more is 1. Past the last file the call is accepted too:
 * *more, *size and *granules are 0, the name buffer is as it stood. Refusals 1, 21 to 30 with
 * *fault_slot, 12. */
GENIE_CALL
uint8_t genie_list(const uint8_t *image, size_t image_len, size_t blocks, size_t units,
                   size_t start, uint16_t open_code, bool system_disk, size_t granule_sectors,
                   size_t number, uint8_t *name, size_t name_len, size_t *size, size_t *granules,
                   size_t *more, size_t *fault_slot);

/* List from: as many files from that number on as whole rows of GENIE_ROW_BYTES fit the table, from
 * its start, in *told how many. Row i tells what genie_list tells of number + i: the name in bytes 0
 * to 10, the slot in byte 11, the size in bytes 12 to 15 and the granules owned in 16 and 17, low
 * byte first; bytes 18 and 19 are 0. The table behind the rows is as it stood, and all of it under a
 * refusal, where *told is 0. Past the last file the call is accepted, and *told is 0. Refusals 1, 21
 * to 30 with *fault_slot, 12 (a table that holds no row). */
GENIE_CALL
uint8_t genie_list_from(const uint8_t *image, size_t image_len, size_t blocks, size_t units,
                        size_t start, uint16_t open_code, bool system_disk, size_t granule_sectors,
                        size_t number, uint8_t *table, size_t table_len, size_t *told,
                        size_t *fault_slot);

/* Count: in *files the files that the listing tells, in *free the granules that are free. Refusals
 * 1, 21 to 30 with *fault_slot. */
GENIE_CALL
uint8_t genie_count(const uint8_t *image, size_t image_len, size_t blocks, size_t units,
                    size_t start, uint16_t open_code, bool system_disk, size_t granule_sectors,
                    size_t *files, size_t *free, size_t *fault_slot);

/* Free space: in *free the granules that are free, in *longest how many lie in the longest free
 * stretch, a row of free granules with consecutive numbers, across blocks. Only the GAT sector is
 * looked at, so a disk that is not consistent is answered too: *free then only counts the clear GAT
 * bits of the disk's granules. On a consistent disk it is the number that genie_count gives.
 * Refusal 1. */
GENIE_CALL
uint8_t genie_free(const uint8_t *image, size_t image_len, size_t blocks, size_t units,
                   size_t start, uint16_t open_code, bool system_disk, size_t granule_sectors,
                   size_t *free, size_t *longest);

/* What genie_compare tells in *kind ... */
enum genie_difference {
    GENIE_NO_MORE = 0, /* no difference has this number: there are no more */
    GENIE_ONLY_IN_FIRST = 1, /* no file of the second image has the name */
    GENIE_ONLY_IN_SECOND = 2, /* no file of the first image has the name */
    GENIE_UNLIKE = 3 /* both have it, and something of the file differs */
};

/* ... and in *flags, where the kind is GENIE_UNLIKE: the sum of those that apply. */
#define GENIE_SIZE_DIFFERS 1
#define GENIE_DATE_DIFFERS 2       /* entry byte 02, or the low five bits of 01 */
/* other attributes: byte 00, the high three bits of 01, bytes 04 and 10 to 13 */
#define GENIE_ATTRIBUTES_DIFFER 4
#define GENIE_CONTENTS_DIFFER 8    /* also where one file is a beginning of the other */

/* Compare: the difference with that number between the files of two disks, counted from 0, ordered
 * by name and type bytes, rising. Each image has its geometry, the second's are the arguments with
 * a 2. The name goes to the first 11 bytes of name (a buffer of at least 11 bytes), what it is to
 * *kind. Where the kind is GENIE_UNLIKE, *position is the first byte position (from 0) where the
 * contents part, or the smaller size if one is a beginning of the other, so the size itself where
 * they are alike; *flags says what differs. Otherwise both are 0. Where a file lies, and how many
 * granules it owns, is no difference; a file that is a system file on either disk is compared by
 * name only. Past the last difference the call is accepted too: *kind is GENIE_NO_MORE, the name
 * buffer is as it stood. *image is 0, or the image that is refused: 1 the first, 2 the second.
 * Refusals 1 and 21 to 30 of the first image, then of the second, then 12; *fault_slot is a slot of
 * the image refused. */
GENIE_CALL
uint8_t genie_compare(const uint8_t *first, size_t first_len, size_t blocks, size_t units,
                      size_t start, uint16_t open_code, bool system_disk, size_t granule_sectors,
                      const uint8_t *second, size_t second_len, size_t blocks2, size_t units2,
                      size_t start2, uint16_t open_code2, bool system_disk2,
                      size_t granule_sectors2, size_t number, uint8_t *name, size_t name_len,
                      size_t *image, size_t *kind, size_t *position, size_t *flags,
                      size_t *fault_slot);

/* TWO DRIVES. The calls below take the image and geometry of drive 0, then of drive 1, the arguments
 * ending in 0 and 1; where a call writes, the two images must not overlap.
 *   numbered, drive       whether the name goes with a drive number, and the number, 0 or 1; where
 *                         numbered is false it is not looked at. With a number only that drive's
 *                         image is tested; without, both, and the first drive that has the name has
 *                         the file.
 *   handle                at least GENIE_DRIVE_HANDLE_BYTES bytes: the 19 of genie_open, and byte 19,
 *                         the drive. The calls on one image take them as they are. genie_open leaves
 *                         byte 19 of a longer buffer as it stood, so a handle for a drives call comes
 *                         from a drives call, or its byte 19 is set by the caller. An incoming handle
 *                         of under 20 bytes is taken for zeros; a handle buffer of under 20 bytes is
 *                         refusal 12, and stays as it stood.
 *   fault_drive           the drive under 1 and 21 to 30, else GENIE_NO_DRIVE (2); *fault_slot is a slot
 *                         of that drive.
 * Each call is the call of the same name on that drive's image, and changes no byte of the other.
 * Refusal 16, drive number not 0 or 1, comes before all others. A refused open or create leaves 20
 * zeros in the handle buffer. */
#define GENIE_DRIVE_HANDLE_BYTES 20
#define GENIE_NO_DRIVE 2

/* Look up: *found_drive is the drive that has the file, 0 under a refusal; *compared adds up over the
 * drives searched. Refusals 16, 1 and 21 to 30 with *fault_drive, 3 with *place, 4. */
GENIE_CALL
uint8_t genie_drives_look_up(const uint8_t *image0, size_t image0_len, size_t blocks0,
                             size_t units0, size_t start0, uint16_t open_code0, bool system_disk0,
                             size_t granule_sectors0, const uint8_t *image1, size_t image1_len,
                             size_t blocks1, size_t units1, size_t start1, uint16_t open_code1,
                             bool system_disk1, size_t granule_sectors1, bool numbered,
                             size_t drive, const uint8_t *name, size_t name_len,
                             size_t *found_drive, size_t *slot, size_t *compared, size_t *place,
                             size_t *fault_drive, size_t *fault_slot);

/* Open: on the first drive that has the name; a wrong code there is 5, and the other is not asked.
 * Refusals 16, 1 and 21 to 30 with *fault_drive, 12, 3 with *place, 4, 5. */
GENIE_CALL
uint8_t genie_drives_open(const uint8_t *image0, size_t image0_len, size_t blocks0, size_t units0,
                          size_t start0, uint16_t open_code0, bool system_disk0,
                          size_t granule_sectors0, const uint8_t *image1, size_t image1_len,
                          size_t blocks1, size_t units1, size_t start1, uint16_t open_code1,
                          bool system_disk1, size_t granule_sectors1, bool numbered, size_t drive,
                          const uint8_t *name, size_t name_len, size_t length, bool checking,
                          uint16_t code, uint8_t *handle, size_t handle_len, size_t *place,
                          size_t *fault_drive, size_t *fault_slot);

/* Create: without a number, what the search finds is opened; if nothing, drive 0 takes the file if it
 * has a free permitted slot, else drive 1. Refusals 16, 1 and 21 to 30 with *fault_drive, 12, 3 with
 * *place, 5, 8. */
GENIE_CALL
uint8_t genie_drives_create(uint8_t *image0, size_t image0_len, size_t blocks0, size_t units0,
                            size_t start0, uint16_t open_code0, bool system_disk0,
                            size_t granule_sectors0, uint8_t *image1, size_t image1_len,
                            size_t blocks1, size_t units1, size_t start1, uint16_t open_code1,
                            bool system_disk1, size_t granule_sectors1, bool numbered, size_t drive,
                            const uint8_t *name, size_t name_len, size_t day, size_t month,
                            size_t year, size_t length, uint16_t main_code, uint16_t worker_code,
                            bool checking, size_t *old, uint8_t *handle, size_t handle_len,
                            size_t *place, size_t *fault_drive, size_t *fault_slot);

/* The calls by handle, on the handle's drive. Refusals 16, then those of the call on one image. */
GENIE_CALL
uint8_t genie_drives_read_record(const uint8_t *image0, size_t image0_len, size_t blocks0,
                                 size_t units0, size_t start0, uint16_t open_code0,
                                 bool system_disk0, size_t granule_sectors0, const uint8_t *image1,
                                 size_t image1_len, size_t blocks1, size_t units1, size_t start1,
                                 uint16_t open_code1, bool system_disk1, size_t granule_sectors1,
                                 uint8_t *handle, size_t handle_len, uint8_t *buffer,
                                 size_t buffer_len, size_t *fault_drive, size_t *fault_slot);

/* The bytes are those of the image of *drive, 0 under a refusal. */
GENIE_CALL
uint8_t genie_drives_read_sector(const uint8_t *image0, size_t image0_len, size_t blocks0,
                                 size_t units0, size_t start0, uint16_t open_code0,
                                 bool system_disk0, size_t granule_sectors0, const uint8_t *image1,
                                 size_t image1_len, size_t blocks1, size_t units1, size_t start1,
                                 uint16_t open_code1, bool system_disk1, size_t granule_sectors1,
                                 const uint8_t *handle, size_t handle_len, size_t k, size_t *drive,
                                 size_t *from, size_t *to, size_t *fault_drive, size_t *fault_slot);

GENIE_CALL
uint8_t genie_drives_write_record(uint8_t *image0, size_t image0_len, size_t blocks0, size_t units0,
                                  size_t start0, uint16_t open_code0, bool system_disk0,
                                  size_t granule_sectors0, uint8_t *image1, size_t image1_len,
                                  size_t blocks1, size_t units1, size_t start1, uint16_t open_code1,
                                  bool system_disk1, size_t granule_sectors1, uint8_t *handle,
                                  size_t handle_len, bool sequential, const uint8_t *buffer,
                                  size_t buffer_len, size_t *fault_drive, size_t *fault_slot);

GENIE_CALL
uint8_t genie_drives_allot(uint8_t *image0, size_t image0_len, size_t blocks0, size_t units0,
                           size_t start0, uint16_t open_code0, bool system_disk0,
                           size_t granule_sectors0, uint8_t *image1, size_t image1_len,
                           size_t blocks1, size_t units1, size_t start1, uint16_t open_code1,
                           bool system_disk1, size_t granule_sectors1, const uint8_t *handle,
                           size_t handle_len, size_t k, size_t *fault_drive, size_t *fault_slot);

GENIE_CALL
uint8_t genie_drives_trim(uint8_t *image0, size_t image0_len, size_t blocks0, size_t units0,
                          size_t start0, uint16_t open_code0, bool system_disk0,
                          size_t granule_sectors0, uint8_t *image1, size_t image1_len,
                          size_t blocks1, size_t units1, size_t start1, uint16_t open_code1,
                          bool system_disk1, size_t granule_sectors1, const uint8_t *handle,
                          size_t handle_len, size_t *fault_drive, size_t *fault_slot);

GENIE_CALL
uint8_t genie_drives_kill(uint8_t *image0, size_t image0_len, size_t blocks0, size_t units0,
                          size_t start0, uint16_t open_code0, bool system_disk0,
                          size_t granule_sectors0, uint8_t *image1, size_t image1_len,
                          size_t blocks1, size_t units1, size_t start1, uint16_t open_code1,
                          bool system_disk1, size_t granule_sectors1, const uint8_t *handle,
                          size_t handle_len, size_t *fault_drive, size_t *fault_slot);

#ifdef __cplusplus
}
#endif

#include "genie_disk.h"

#endif
