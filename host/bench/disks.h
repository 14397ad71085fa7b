/* The six disks that the benchmark runs on. They are laid out byte by byte, without the calls that are measured. */
#ifndef DISKS_H
#define DISKS_H

#include <stddef.h>
#include <stdint.h>

struct bench_disk {
    uint8_t *image; /* from malloc */
    size_t image_len, blocks, units, start;
    uint16_t open_code;
    size_t granule_sectors;
    uint8_t subject[11]; /* the file that the calls work on */
    size_t subject_slot, subject_size;
    size_t files; /* that the listing tells */
};

#define BENCH_DISKS 6
extern const char *const bench_disk_names[BENCH_DISKS];    /* full, typical, largest, scattered, hard, alike */
extern const char *const bench_disk_titles[BENCH_DISKS];

/* Makes the disk of that number; 0 if there is no memory. */
int bench_disk_make(size_t number, struct bench_disk *disk);

#endif
