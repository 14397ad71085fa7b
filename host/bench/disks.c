#include "disks.h"

#include <stdlib.h>
#include <string.h>

const char *const bench_disk_names[BENCH_DISKS] = { "full", "typical", "largest", "scattered", "hard", "alike" };
const char *const bench_disk_titles[BENCH_DISKS] = {
    "full: directory of 224 entries, 224 files",
    "typical: 40 files",
    "largest: one file of 1.9 MB",
    "scattered: one file of 150 entries",
    "hard: granules of 20 sectors, one file of 7.6 MB",
    "alike: 224 files, all names of one hash",
};

enum { SECTOR = 256, SYSTEM = 0x40, IN_USE = 0x10 };

static uint8_t *entry_at(struct bench_disk *d, size_t slot) {
    return d->image + d->start * SECTOR + (slot % 32 + 2) * SECTOR + slot / 32 * 32;
}

static uint8_t hash(const uint8_t *name)
{
    unsigned h = 0;
    for (int i = 0; i < 11; i++) {
        h ^= name[i];
        h = (h * 2 + h / 128) % 256;
    }
    return (uint8_t)(h ? h : 1);
}

static void take(struct bench_disk *d, size_t granule) {
    d->image[d->start * SECTOR + granule / d->units] |= (uint8_t)(1u << granule % d->units);
}

/* A blank disk, each data sector beginning with its number; the directory's granules are taken. */
static int blank(struct bench_disk *d, size_t blocks, size_t units, size_t start, size_t sectors, size_t granule_sectors)
{
    memset(d, 0, sizeof *d);
    d->blocks = blocks;
    d->units = units;
    d->start = start;
    d->open_code = 0x9642;
    d->granule_sectors = granule_sectors;
    d->image_len = blocks * units * granule_sectors * SECTOR;
    d->image = calloc(d->image_len, 1);
    if (!d->image) return 0;
    for (size_t k = 0; k < d->image_len / SECTOR; k++) {
        d->image[k * SECTOR] = (uint8_t)k;
        d->image[k * SECTOR + 1] = (uint8_t)(k >> 8);
    }
    memset(d->image + start * SECTOR, 0, sectors * SECTOR);
    d->image[start * SECTOR + SECTOR + 0x1F] = (uint8_t)(sectors - 10);
    for (size_t g = start / granule_sectors; g * granule_sectors < start + sectors; g++) take(d, g);
    return 1;
}

struct run {
    size_t granule, count;
};

/* A file of those runs in those slots, one slot for each four runs. Its size leaves `spare` bytes of its granules unused. */
static void put_file(struct bench_disk *d, const size_t *slots, const char *name, unsigned flags, const struct run *runs, size_t count,
    size_t spare)
{
    uint8_t *const hit = d->image + d->start * SECTOR + SECTOR;
    const uint8_t h = hash((const uint8_t *)name);
    size_t owned = 0;
    for (size_t i = 0; i == 0 || i < count; i += 4) {
        uint8_t *const e = entry_at(d, slots[i / 4]);
        memset(e, 0, 22);
        memset(e + 22, 0xFF, 10);
        hit[slots[i / 4]] = h;
        e[0] = (uint8_t)(i ? 0x90 : flags | IN_USE);
        if (i) e[1] = (uint8_t)slots[i / 4 - 1];
        for (size_t j = i; j < count && j < i + 4; j++) {
            e[22 + 2 * (j - i)] = (uint8_t)(runs[j].granule / d->units);
            e[23 + 2 * (j - i)] = (uint8_t)(runs[j].granule % d->units << 5 | (runs[j].count - 1));
            for (size_t g = 0; g < runs[j].count; g++) take(d, runs[j].granule + g);
            owned += runs[j].count;
        }
        if (i + 4 < count) {
            e[30] = 0xFE;
            e[31] = (uint8_t)slots[i / 4 + 1];
        }
    }
    uint8_t *const e = entry_at(d, slots[0]);
    const size_t size = owned * d->granule_sectors * SECTOR - spare, n = (size + SECTOR - 1) / SECTOR;
    e[1] = 9;
    e[2] = 0x3A;
    e[3] = (uint8_t)size;
    e[4] = 0;
    memcpy(e + 5, name, 11);
    e[16] = (uint8_t)d->open_code;
    e[17] = (uint8_t)(d->open_code >> 8);
    e[20] = (uint8_t)n;
    e[21] = (uint8_t)(n >> 8);
    if (!(flags & SYSTEM)) {
        d->files++;
        memcpy(d->subject, name, 11);
        d->subject_slot = slots[0];
        d->subject_size = size;
    }
}

/* Slots by rising number, from the one given on. */
static size_t next_slot(size_t slot, size_t columns)
{
    slot++;
    return slot % 32 < columns ? slot : slot / 32 * 32 + 32;
}

/* PULS000/DAT, RIDE001/DAT, CALIB002/CAL, NOTE003, .. */
static void series_name(char *name, size_t number)
{
    static const char *const kinds[4] = { "PULS", "RIDE", "CALIB", "NOTE" };
    static const char *const types[4] = { "DAT", "DAT", "CAL", "   " };
    const size_t kind = strlen(kinds[number % 4]);
    memset(name, ' ', 8);
    memcpy(name, kinds[number % 4], kind);
    memcpy(name + 8, types[number % 4], 3);
    for (size_t at = kind + 3; at-- > kind; number /= 10) name[at] = (char)('0' + number % 10);
}

/* The next name of one hash, behind `number`: a letter, then digits. */
static void alike_name(char *name, size_t *number)
{
    enum { HASH = 0xA2 };
    do {
        size_t rest = ++*number;
        memcpy(name, "P       DAT", 11);
        for (size_t at = 5; at > 0; at--, rest /= 10) name[at] = (char)('0' + rest % 10);
    } while (hash((const uint8_t *)name) != HASH);
}

/* 224 files in 224 slots: two system files, of which one is the directory itself, and 222 others of three granules, each third one in two
 * runs. All but the system files may have names of one hash. */
static int crowded(struct bench_disk *d, int one_hash)
{
    if (!blank(d, 192, 8, 3840, 30, 5)) return 0;
    const size_t zero = 0, one = 1;
    put_file(d, &zero, "BOOT    SYS", SYSTEM, &(struct run){ 0, 1 }, 1, 0);
    put_file(d, &one, "DIR     SYS", SYSTEM, &(struct run){ 768, 6 }, 1, 0);
    size_t granule = 1, number = 0;
    for (size_t slot = 2, i = 0; slot < 256; slot = next_slot(slot, 28), i++) {
        char name[11];
        if (one_hash) alike_name(name, &number);
        else series_name(name, i);
        if (granule >= 765 && granule < 774) granule = 774;
        const struct run runs[2] = { { granule, 2 }, { granule + 3, 1 } };
        if (i % 3 == 2) put_file(d, &slot, name, 0, runs, 2, 100);
        else put_file(d, &slot, name, 0, &(struct run){ granule, 3 }, 1, 100);
        granule += 4;
    }
    return 1;
}

static int full(struct bench_disk *d) { return crowded(d, 0); }
static int alike(struct bench_disk *d) { return crowded(d, 1); }

/* 40 files on 80 blocks of 7 units: six system files in kept slots, 34 others of up to 21 granules in one to seven runs. */
static int typical(struct bench_disk *d)
{
    static const char *const system[6] = { "BOOT    SYS", "DIR     SYS", "GDOS    SYS", "SYS1    SYS", "SYS2    SYS", "SYS3    SYS" };
    if (!blank(d, 80, 7, 1400, 15, 5)) return 0;
    size_t granule = 1;
    for (size_t i = 0; i < 6; i++) {
        put_file(d, &i, system[i], SYSTEM, &(struct run){ i == 0 ? 0 : i == 1 ? 280 : granule, i == 0 ? 1 : 3 }, 1, 0);
        if (i > 1) granule += 3;
    }
    size_t slot = 8;
    for (size_t i = 0; i < 34; i++) {
        char name[11];
        series_name(name, i);
        /* Most files are whole; each fifth was written beside others. */
        const size_t count = i % 5 == 4 ? 2 + i % 6 : 1;
        struct run runs[8];
        for (size_t j = 0; j < count; j++) {
            runs[j].count = count > 1 ? 1 + (i + j) % 3 : 1 + i * 5 % 21;
            if (granule < 283 && granule + runs[j].count + 1 > 280) granule = 283;
            runs[j].granule = granule;
            granule += runs[j].count + (count > 1);
        }
        size_t slots[2] = { slot, 0 };
        slot = next_slot(slot, 13);
        if (slot < 128 && slot % 32 < 8) slot += 8;
        if (count > 4) {
            slots[1] = slot;
            slot = next_slot(slot, 13);
            if (slot < 128 && slot % 32 < 8) slot += 8;
        }
        put_file(d, slots, name, 0, runs, count, 20 + i * 7);
    }
    return granule <= d->blocks * d->units;
}

/* One file of 1,485 granules less 100 bytes, in runs of 32, on a disk of as many granules as there can be; the directory at its end. */
static int one_large_file(struct bench_disk *d, size_t granule_sectors)
{
    if (!blank(d, 192, 8, 1534 * granule_sectors, 10, granule_sectors)) return 0;
    struct run runs[47];
    size_t slots[12];
    for (size_t j = 0; j < 47; j++) runs[j] = (struct run){ 1 + 32 * j, j == 46 ? 1485 - 46 * 32 : 32 };
    slots[0] = 128;
    for (size_t i = 1; i < 12; i++) slots[i] = next_slot(slots[i - 1], 8);
    put_file(d, slots, "LANGZEITDAT", 0, runs, 47, 100);
    return 1;
}

/* The largest disk of granules of 5 sectors, the file has 1,900,700 bytes; and of granules of 20, the file has 7,603,100. */
static int largest(struct bench_disk *d) { return one_large_file(d, 5); }
static int hard(struct bench_disk *d) { return one_large_file(d, 20); }

/* One file of 600 runs of one granule, every second one, in 150 entries. */
static int scattered(struct bench_disk *d)
{
    if (!blank(d, 192, 8, 3840, 30, 5)) return 0;
    struct run runs[600];
    size_t slots[150], slot = 8;
    for (size_t j = 0; j < 600; j++) runs[j] = (struct run){ j < 380 ? 1 + 2 * j : 15 + 2 * j, 1 };
    for (size_t i = 0; i < 150; i++) {
        slots[i] = slot;
        slot = next_slot(slot, 28);
        if (slot < 128 && slot % 32 < 8) slot += 8;
    }
    put_file(d, slots, "VERSTREUDAT", 0, runs, 600, 100);
    return 1;
}

int bench_disk_make(size_t number, struct bench_disk *disk)
{
    static int (*const make[BENCH_DISKS])(struct bench_disk *) = { full, typical, largest, scattered, hard, alike };
    return make[number](disk);
}
