/* A host in C: a full-size disk in memory, and one file's life on it, by the calls of genie_disk.h; then two drives.
 * Prints what it does. Exit status 0 only if every step answers as genie.h says. */
#include "genie.h"

#include <stdio.h>
#include <stdlib.h>
#include <string.h>

/* The largest disk of granules of 5 sectors: 192 blocks of 8 units, the directory of 10 sectors in its middle. */
static const struct genie_geometry LARGEST = {
    .blocks = 192, .units = 8, .start = 3840, .open_code = 0x9642, .system_disk = true, .granule_sectors = 5
};
enum { DIRECTORY_SECTORS = 10, GRANULES = 192 * 8, LOADER = 0 };

static int wrong;

/* Says what was done and what came back, and remembers where that is not as it should be. */
static void step(const char *what, unsigned answer, unsigned expected, int as_documented)
{
    const int good = answer == expected && as_documented;
    printf("%-70s %2u%s\n", what, answer, good ? "" : "   NOT AS DOCUMENTED");
    wrong += !good;
}

/* What a check says of the same bytes under another geometry. */
static uint8_t checked_as(const struct genie_disk *disk, struct genie_geometry geometry, size_t *fault_slot)
{
    struct genie_disk other = *disk;
    other.geometry = geometry;
    const uint8_t answer = genie_disk_check(&other);
    *fault_slot = other.fault_slot;
    return answer;
}

/* A recorded session: one name; create it with record length 256, write the byte 41H three times at position 0, kill it, kill it; the
 * end. */
static const uint8_t SESSION[] = {
    1, 'A', ' ', ' ', ' ', ' ', ' ', ' ', ' ', ' ', ' ', ' ',
    0x20, 0, 0, 0, 0x80, 0, 0,  0x40, 0, 0, 0, 0x01, 0xA0, 0x80,  0xC0, 0, 0, 0, 0, 0, 0,  0xC0, 0, 0, 0, 0, 0, 0,  0, 0, 0, 0, 0, 0, 0
};

int main(void)
{
    const struct genie_handle zeros = { { 0 } };
    const size_t loader[] = { LOADER }, none[] = { GRANULES };
    struct genie_filename name, small, bad = { "puls_1  dat" };
    struct genie_disk disk = { .geometry = LARGEST, .image_len = genie_image_bytes(LARGEST) }, before;
    struct genie_new_file october = genie_new_file_on(LARGEST, 1983, 10, 9);
    struct genie_handle handle, refused;
    struct genie_listed listed;
    struct genie_differing difference;
    struct genie_played played;
    struct genie_geometry geometry;
    uint8_t record[256], back[256], results[4];
    size_t old, slot, compared, slots, granules, more, files, left, longest, fault, count;
    const uint8_t *sector;
    char text[13];

    disk.image = malloc(disk.image_len);
    before = disk;
    before.image = malloc(before.image_len);
    if (!disk.image || !before.image) {
        fputs("no memory for the disk\n", stderr);
        return 1;
    }
    memset(disk.image, 0, disk.image_len);
    uint8_t answer = genie_disk_format(&disk, 12, loader, 1);
    step("format it with a directory of 12 sectors: there is none such", answer, GENIE_FAULT_DIRECTORY_LENGTH, disk.image[0] == 0);
    answer = genie_disk_format(&disk, DIRECTORY_SECTORS, none, 1);
    step("format it with a granule reserved that it has not", answer, GENIE_RANGE, disk.image[0] == 0);
    answer = genie_disk_format(&disk, DIRECTORY_SECTORS, loader, 1);
    step("format a disk of 1,966,080 bytes, the first granule kept for the loader", answer, GENIE_DONE, disk.image[0] == 0xE5);
    answer = genie_disk_check(&disk);
    step("check it: no slot is at fault", answer, GENIE_DONE, disk.fault_slot == GENIE_NO_SLOT);
    geometry = LARGEST;
    geometry.blocks = 191;
    step("check it with a wrong number of blocks", checked_as(&disk, geometry, &fault), GENIE_GEOMETRY,
         genie_image_bytes(geometry) == disk.image_len / 192 * 191);
    geometry.blocks = 96;
    geometry.granule_sectors = 10;
    answer = checked_as(&disk, geometry, &fault);
    step("check it as 96 blocks with granules of 10 sectors: the directory's is free", answer, GENIE_FAULT_DIRECTORY_GRANULE,
         fault == GENIE_NO_SLOT);
    geometry.blocks = 64;
    geometry.granule_sectors = 15;
    step("check it with granules of 15 sectors: there are none", checked_as(&disk, geometry, &fault), GENIE_GEOMETRY,
         !genie_image_bytes(geometry));
    answer = genie_disk_play(&disk, SESSION, sizeof SESSION - 7, results, sizeof results, &played);
    step("play back a session that breaks off", answer, GENIE_TRACE,
         played.calls == 0 && played.byte == sizeof SESSION - 7 && played.bit == 0);
    answer = genie_disk_play(&disk, SESSION, sizeof SESSION, results, sizeof results, &played);
    step("play it back: create A, write AAA, kill A twice: it is not found", answer, GENIE_DONE,
         played.calls == 4 && played.byte == 0 && !memcmp(results, ((const uint8_t[]){0, 0, 0, GENIE_NOT_FOUND}), sizeof results));
    answer = genie_disk_count(&disk, &files, &left);
    step("count: no file, 1,533 granules free", answer, GENIE_DONE, files == 0 && left == GRANULES - 3);
    answer = genie_disk_free(&disk, &left, &longest);
    step("free space: the same, 767 of them in a row", answer, GENIE_DONE, left == GRANULES - 3 && longest == 767);

    answer = genie_filename_from(&name, "PULS01/DAT");
    step("the name PULS01/DAT", answer, GENIE_DONE, !memcmp(name.bytes, "PULS01  DAT", sizeof name.bytes));
    answer = genie_filename_from(&small, "puls01.dat");
    step("the name puls01.dat: the same", answer, GENIE_DONE, !memcmp(&small, &name, sizeof small));
    genie_filename_text(&name, '.', text);
    step("the name as on a host", 0, GENIE_DONE, !strcmp(text, "PULS01.DAT"));
    answer = genie_filename_from(&small, "puls01/data");
    step("the name puls01/data: a type has three bytes", answer, GENIE_NAME, !memcmp(&small, &name, sizeof small));
    memcpy(small.bytes, "puls01  dat", sizeof small.bytes);

    memset(&handle, 0xFF, sizeof handle);
    answer = genie_disk_open(&disk, &name, 256, genie_code(0), &handle);
    step("open PULS01/DAT before it is there: a handle of zeros", answer, GENIE_NOT_FOUND, !memcmp(&handle, &zeros, sizeof zeros));
    answer = genie_disk_create(&disk, &name, &october, &old, &handle);
    step("create it, dated 9 October 1983, records of 256 bytes", answer, GENIE_DONE,
         old == 0 && genie_handle_level(&handle) == 0 && genie_handle_position(&handle) == 0 && genie_handle_record_length(&handle) == 256);
    answer = genie_disk_look_up(&disk, &name, &slot, &compared);
    step("look it up: slot 80H, the first that is not kept; one compared", answer, GENIE_DONE,
         slot == 0x80 && slot == genie_handle_slot(&handle) && compared == 1);
    answer = genie_disk_look_up(&disk, &small, &slot, &compared);
    step("look it up in small letters: the same", answer, GENIE_DONE, slot == genie_handle_slot(&handle) && disk.place == GENIE_NO_PLACE);
    answer = genie_disk_open(&disk, &bad, 256, genie_unchecked(), &refused);
    step("open puls_1/dat: the byte at place 4 is none that a name can have", answer, GENIE_NAME,
         disk.place == 4 && disk.fault_slot == GENIE_NO_SLOT);
    october.year = 1979;
    answer = genie_disk_create(&disk, &name, &october, &old, &refused);
    step("create it with a date in 1979: out of range", answer, GENIE_RANGE, !memcmp(&refused, &zeros, sizeof zeros));
    october.year = 1983;

    unsigned written = 0;
    for (unsigned i = 0; i < 20 && !written; i++) {
        memset(record, (int)(i + 1), sizeof record);
        written = genie_disk_write_record(&disk, &handle, true, record, sizeof record);
    }
    step("write 20 records one after the other", written, GENIE_DONE, genie_handle_position(&handle) == 20 * 256);
    answer = genie_disk_list(&disk, 0, &listed, &more);
    step("list: PULS01/DAT, 5,120 bytes, 4 granules", answer, GENIE_DONE,
         more == 1 && listed.size == 5120 && listed.granules == 4 && !memcmp(&listed.name, &name, sizeof name));

    genie_handle_seek(&handle, 1000000);
    answer = genie_disk_write_record(&disk, &handle, false, record, sizeof record);
    step("write one at position 1,000,000", answer, GENIE_DONE, genie_handle_position(&handle) == 1000256);
    genie_handle_seek(&handle, 256 * 7);
    answer = genie_disk_read_record(&disk, &handle, back, sizeof back);
    memset(record, 8, sizeof record);
    step("read back the eighth record", answer, GENIE_DONE,
         !memcmp(back, record, sizeof back) && genie_handle_position(&handle) == 256 * 8);
    genie_handle_seek(&handle, 500000);
    answer = genie_disk_read_record(&disk, &handle, back, sizeof back);
    memset(record, 0, sizeof record);
    step("read in the gap: zeros", answer, GENIE_DONE, !memcmp(back, record, sizeof back));
    genie_handle_seek(&handle, 1000001);
    memcpy(record, back, sizeof record);
    answer = genie_disk_read_record(&disk, &handle, back, sizeof back);
    step("read past the size: buffer and position stay", answer, GENIE_PAST_END,
         !memcmp(back, record, sizeof back) && genie_handle_position(&handle) == 1000001);
    genie_handle_seek(&handle, SIZE_MAX);
    answer = genie_disk_read_record(&disk, &handle, back, sizeof back);
    step("read at a position that no file has", answer, GENIE_RANGE, genie_handle_position(&handle) == UINT32_MAX);
    genie_handle_seek(&handle, 0);
    answer = genie_disk_read_sector(&disk, &handle, 3907, &sector, &count);
    step("read the last sector, 64 bytes of it, in place", answer, GENIE_DONE, count == 64 && sector[0] == 20 && sector[63] == 20);
    answer = genie_disk_check(&disk);
    step("check the disk", answer, GENIE_DONE, 1);
    memcpy(before.image, disk.image, disk.image_len);

    answer = genie_disk_write_record(&disk, &handle, true, record, sizeof record);
    step("a sequential write at 0 shortens it to 256 bytes", answer, GENIE_DONE, 1);
    answer = genie_disk_trim(&disk, &handle);
    step("trim it", answer, GENIE_DONE, 1);
    answer = genie_disk_allot(&disk, &handle, 99);
    step("allot it space to sector 99", answer, GENIE_DONE, 1);
    answer = genie_disk_list(&disk, 0, &listed, &more);
    step("list: 256 bytes, 20 granules", answer, GENIE_DONE, more == 1 && listed.size == 256 && listed.granules == 20);
    answer = genie_disk_list(&disk, 1, &listed, &more);
    step("list on: no more", answer, GENIE_DONE, more == 0 && listed.size == 0 && listed.granules == 0);
    answer = genie_disk_allot(&disk, &handle, GENIE_HIGHEST_SECTOR(LARGEST.granule_sectors));
    step("allot it the whole disk: more than is free", answer, GENIE_DISK_FULL, !strcmp(genie_message(answer), "too few granules free"));

    answer = genie_disk_compare(&before, &disk, 0, &difference);
    step("compare with the disk before: PULS01/DAT from byte 0 on, and its size", answer, GENIE_DONE,
         difference.kind == GENIE_UNLIKE && difference.position == 0 && difference.flags == (GENIE_SIZE_DIFFERS | GENIE_CONTENTS_DIFFER)
             && !memcmp(&difference.name, &name, sizeof name));
    answer = genie_disk_compare(&before, &disk, 1, &difference);
    step("compare on: no more", answer, GENIE_DONE,
         difference.kind == GENIE_NO_MORE && difference.image == 0 && difference.position == 0 && difference.flags == 0);

    answer = genie_disk_kill(&disk, &handle);
    step("kill it", answer, GENIE_DONE, 1);
    answer = genie_disk_kill(&disk, &handle);
    step("kill it once more: the handle is stale", answer, GENIE_STALE, 1);
    answer = genie_disk_bring_back(&disk, genie_handle_slot(&handle), &slots, &granules);
    step("bring it back: 1 slot, 20 granules", answer, GENIE_DONE, slots == 1 && granules == 20);
    answer = genie_disk_bring_back(&disk, genie_handle_slot(&handle), &slots, &granules);
    step("bring it back once more: its slot is in use", answer, GENIE_SLOT_IN_USE, slots == 0 && granules == 0);
    answer = genie_disk_kill(&disk, &handle);
    step("kill it again: its handle is good once more", answer, GENIE_DONE, 1);
    disk.geometry.system_disk = false;
    answer = genie_disk_create(&disk, &name, &october, &old, &handle);
    step("create it as on a data disk: slot 02H, the first that is not kept", answer, GENIE_DONE,
         old == 0 && genie_handle_slot(&handle) == 0x02);
    disk.geometry.system_disk = true;
    answer = genie_disk_check(&disk);
    step("check it as a system disk", answer, GENIE_DONE, disk.fault_slot == GENIE_NO_SLOT);
    answer = genie_disk_kill(&disk, &handle);
    step("kill it there", answer, GENIE_DONE, 1);
    answer = genie_disk_count(&disk, &files, &left);
    step("count: no file, 1,533 granules free", answer, GENIE_DONE, files == 0 && left == GRANULES - 3);

    uint8_t *const gat = disk.image + LARGEST.start * GENIE_SECTOR_BYTES, *const hit = gat + GENIE_SECTOR_BYTES;
    hit[0x80] = 0xA2; /* slot 80H is not in use */
    answer = genie_disk_check(&disk);
    step("check after a byte of the HIT was damaged: slot 80H is at fault", answer, GENIE_FAULT_HIT, disk.fault_slot == 0x80);
    answer = genie_disk_free(&disk, &left, &longest);
    step("free space is told all the same", answer, GENIE_DONE, left == GRANULES - 3 && longest > 0);
    answer = genie_disk_compare(&before, &disk, 0, &difference);
    step("compare with it: the second image is refused, by that slot", answer, GENIE_FAULT_HIT,
         difference.image == 2 && difference.kind == GENIE_NO_MORE && disk.fault_slot == 0x80 && before.fault_slot == GENIE_NO_SLOT);
    hit[0x80] = 0;
    gat[LARGEST.start / LARGEST.granule_sectors / LARGEST.units] = 0;
    answer = genie_disk_count(&disk, &files, &left);
    step("count where the GAT marks the directory as free: no slot is at fault", answer, GENIE_FAULT_DIRECTORY_GRANULE,
         disk.fault_slot == GENIE_NO_SLOT);
    answer = genie_check(disk.image, disk.image_len, 192, 8, 3840, 0x9642, true, 5, &fault);
    step("the same by the call itself, its eight numbers in their order", answer, GENIE_FAULT_DIRECTORY_GRANULE, fault == GENIE_NO_SLOT);

    /* Two drives: a system disk in drive 0, a data disk in drive 1. */
    uint8_t on_drive[GENIE_DRIVE_HANDLE_BYTES];
    size_t drive, place, fault_drive;
    before.geometry.system_disk = false;
    answer = genie_disk_format(&disk, DIRECTORY_SECTORS, loader, 1);
    step("format two disks: the one for drive 0", answer, GENIE_DONE, disk.geometry.system_disk);
    answer = genie_disk_format(&before, DIRECTORY_SECTORS, loader, 1);
    step("and a data disk for drive 1", answer, GENIE_DONE, !before.geometry.system_disk);
    answer = genie_drives_create(GENIE_DISK_OF(&disk), GENIE_DISK_OF(&before), true, 1, GENIE_BYTES_OF(&name), october.day, october.month,
                                 october.year - 1980, october.record_length, october.main_code, october.worker_code, october.checking,
                                 &old, on_drive, sizeof on_drive, &place, &fault_drive, &fault);
    step("create PULS01/DAT on drive 1: slot 02H, and the handle has the drive", answer, GENIE_DONE,
         old == 0 && on_drive[0] == 0x02 && on_drive[GENIE_HANDLE_BYTES] == 1 && fault_drive == GENIE_NO_DRIVE);
    answer = genie_drives_look_up(GENIE_DISK_OF(&disk), GENIE_DISK_OF(&before), false, 0, GENIE_BYTES_OF(&name), &drive, &slot, &compared,
                                  &place, &fault_drive, &fault);
    step("look it up without a number: drive 1 has it", answer, GENIE_DONE, drive == 1 && slot == 0x02 && compared == 1);
    answer = genie_drives_look_up(GENIE_DISK_OF(&disk), GENIE_DISK_OF(&before), true, 0, GENIE_BYTES_OF(&name), &drive, &slot, &compared,
                                  &place, &fault_drive, &fault);
    step("look it up on drive 0: it is not there", answer, GENIE_NOT_FOUND, drive == 0 && compared == 0 && fault_drive == GENIE_NO_DRIVE);
    hit[0x80] = 0xA2; /* slot 80H of drive 0 is not in use */
    answer = genie_drives_look_up(GENIE_DISK_OF(&disk), GENIE_DISK_OF(&before), false, 0, GENIE_BYTES_OF(&name), &drive, &slot, &compared,
                                  &place, &fault_drive, &fault);
    step("look it up with a damaged disk in drive 0: slot 80H there is at fault", answer, GENIE_FAULT_HIT,
         drive == 0 && fault_drive == 0 && fault == 0x80);
    answer = genie_drives_kill(GENIE_DISK_OF(&disk), GENIE_DISK_OF(&before), on_drive, sizeof on_drive, &fault_drive, &fault);
    step("kill it by its handle: only drive 1 is looked at", answer, GENIE_DONE, fault_drive == GENIE_NO_DRIVE);
    on_drive[GENIE_HANDLE_BYTES] = 7;
    answer = genie_drives_kill(GENIE_DISK_OF(&disk), GENIE_DISK_OF(&before), on_drive, sizeof on_drive, &fault_drive, &fault);
    step("kill it on drive 7: there is none", answer, GENIE_NO_SUCH_DRIVE, fault_drive == GENIE_NO_DRIVE);

    free(before.image);
    free(disk.image);
    if (wrong) printf("%d steps not as documented\n", wrong);
    else printf("every step as documented\n");
    return wrong ? 1 : 0;
}
