/* Tests of fast.c: a yardstick that answers wrongly measures nothing. Two parts, both from a fixed seed:
 *   - the check, on disks with damaged directories, against a second check below that is written slowly and plainly from the rules;
 *   - lists of random calls, against a plain list of named files that holds each file's bytes; after each call the disk must be consistent
 *     by the plain check, its files as the list says, and what a refusal may not change unchanged.
 * Built with the address and undefined-behaviour sanitizers by `make test`. */
#include "fast.h"

#include <stdio.h>
#include <stdlib.h>
#include <string.h>

static void fail(const char *what, size_t number)
{
    printf("FAILED: %s (%zu)\n", what, number);
    exit(1);
}

static uint64_t seed = 20260;
static size_t below(size_t limit)
{
    seed ^= seed << 13;
    seed ^= seed >> 7;
    seed ^= seed << 17;
    return (size_t)((seed * 0x2545F4914F6CDD1Du) >> 32) % limit;
}

/* ---- A disk, and the plain check ---- */

struct geometry {
    size_t blocks, units, start, granule; /* the last in sectors: 5, 10 or 20 */
};

static size_t granules_of(struct geometry g) { return g.blocks * g.units; }
static size_t width_of(struct geometry g) { return g.granule * 256; }
/* Whether a directory of so many sectors touches a granule. */
static bool of_directory(struct geometry g, size_t sectors, size_t granule)
{
    return (granule + 1) * g.granule > g.start && granule * g.granule < g.start + sectors;
}
static uint8_t *sector_at(uint8_t *image, struct geometry g, size_t k) { return image + (g.start + k) * 256; }
static uint8_t *entry_at(uint8_t *image, struct geometry g, size_t slot) { return sector_at(image, g, slot % 32 + 2) + slot / 32 * 32; }
static bool gat_bit(uint8_t *image, struct geometry g, size_t granule) {
    return sector_at(image, g, 0)[granule / g.units] >> granule % g.units & 1;
}
static size_t sectors_of(uint8_t *image, struct geometry g) { return 10u + sector_at(image, g, 1)[0x1F]; }

static bool allowed(uint8_t c) { return (c >= 0x30 && c <= 0x39) || (c >= 0x41 && c <= 0x5D); }

static bool name_good(const uint8_t *name)
{
    size_t first = 0, type = 0;
    while (first < 8 && allowed(name[first])) first++;
    while (type < 3 && allowed(name[8 + type])) type++;
    for (size_t i = first; i < 8; i++)
        if (name[i] != 0x20) return false;
    for (size_t i = type; i < 3; i++)
        if (name[8 + i] != 0x20) return false;
    return first >= 1;
}

static uint8_t hash_of(const uint8_t *name)
{
    unsigned h = 0;
    for (int i = 0; i < 11; i++) {
        h ^= name[i];
        h = h % 128 * 2 + h / 128;
    }
    return (uint8_t)(h == 0 ? 1 : h);
}

static size_t runs_of(const uint8_t *e)
{
    size_t runs = 0;
    while (runs < 4 && e[22 + 2 * runs] != 0xFF) runs++;
    return runs;
}

static bool plainly_consistent(uint8_t *image, struct geometry g)
{
    static uint8_t owners[1536], chains[256];
    const uint8_t *hit = sector_at(image, g, 1);
    const size_t extra = hit[0x1F];
    if (extra != 0 && extra != 5 && extra != 10 && extra != 15 && extra != 20) return false;
    const size_t sectors = 10 + extra;
    if (g.start + sectors > granules_of(g) * g.granule) return false;
    memset(owners, 0, sizeof owners);
    memset(chains, 0, sizeof chains);
#define EACH_SLOT(slot) \
    for (size_t slot = 0; slot < 256; slot++) \
        if (slot % 32 < sectors - 2)
    EACH_SLOT(slot)
    {
        const uint8_t *e = entry_at(image, g, slot);
        if ((hit[slot] != 0) != ((e[0] & 0x10) != 0)) return false;
    }
    EACH_SLOT(slot)
    {
        const uint8_t *e = entry_at(image, g, slot);
        if ((e[0] & 0x90) != 0x10) continue;
        if ((e[0] & 0x20) || !name_good(e + 5) || hit[slot] != hash_of(e + 5)) return false;
        EACH_SLOT(other)
        {
            const uint8_t *o = entry_at(image, g, other);
            if (other != slot && (o[0] & 0x90) == 0x10 && !memcmp(o + 5, e + 5, 11)) return false;
        }
        size_t owned = 0, at = slot;
        for (size_t steps = 0;; steps++) {
            if (steps > 8 * (sectors - 2)) return false;
            const uint8_t *x = entry_at(image, g, at);
            const size_t runs = runs_of(x);
            for (size_t i = runs; i < 4; i++)
                if (x[22 + 2 * i] != 0xFF) return false;
            for (size_t i = 0; i < runs; i++) {
                const size_t block = x[22 + 2 * i], unit = x[23 + 2 * i] / 32, count = x[23 + 2 * i] % 32u + 1;
                if (block >= g.blocks || unit >= g.units) return false;
                for (size_t j = 0; j < count; j++) {
                    const size_t granule = block * g.units + unit + j;
                    if (granule >= granules_of(g) || !gat_bit(image, g, granule) || owners[granule]++) return false;
                    if (of_directory(g, sectors, granule) && !(e[0] & 0x40)) return false;
                }
                owned += count;
            }
            if (at != slot && runs == 0) return false;
            if (x[30] == 0xFF) break;
            if (x[30] != 0xFE || runs != 4 || x[31] % 32u >= sectors - 2) return false;
            const uint8_t *y = entry_at(image, g, x[31]);
            if (y[0] != 0x90 || y[1] != at || hit[x[31]] != hit[slot]) return false;
            at = x[31];
            if (chains[at]++) return false;
        }
        const size_t n = e[20] + 256u * e[21];
        if (n == 0 && e[3] != 0) return false;
        const size_t size = e[3] == 0 ? 256 * n : 256 * (n - 1) + e[3];
        if (size > owned * width_of(g)) return false;
    }
    EACH_SLOT(slot)
    {
        if ((entry_at(image, g, slot)[0] & 0x90) == 0x90 && chains[slot] != 1) return false;
    }
    for (size_t granule = 0; granule < granules_of(g); granule++)
        if (of_directory(g, sectors, granule) && !gat_bit(image, g, granule)) return false;
    return true;
}

/* ---- Random disks and a plain list of named files ---- */

struct file {
    bool there;
    uint8_t name[11], handle[19];
    uint8_t *bytes;
    size_t size, granules;
};

enum { FILES = 40 };
static struct file files[FILES];
static struct geometry g;
static uint8_t *image, *before;
static size_t image_len, active; /* files in play: many, or one that grows undisturbed */
static uint16_t open_code;
static bool system_disk;
static size_t fault_slot, place; /* of the last call */
static bool reserved[1536];

#define DISK image, image_len, g.blocks, g.units, g.start, open_code, system_disk, g.granule

static size_t clear_bits(void)
{
    size_t n = 0;
    for (size_t i = 0; i < granules_of(g); i++) n += !gat_bit(image, g, i);
    return n;
}

static void random_name(uint8_t *name)
{
    static const char letters[] = "AB]09Z[";
    const size_t first = 1 + below(8), type = below(4);
    memset(name, 0x20, 11);
    for (size_t i = 0; i < first; i++) name[i] = (uint8_t)letters[below(7)];
    for (size_t i = 0; i < type; i++) name[8 + i] = (uint8_t)letters[below(7)];
}

/* The same name as a caller may give it: some of the bytes 41H to 5DH are 61H to 7DH. */
static void in_small_letters(const uint8_t *name, uint8_t *given)
{
    for (size_t i = 0; i < 11; i++) given[i] = (uint8_t)(name[i] + (name[i] >= 0x41 && below(2) ? 0x20 : 0));
}

static void random_disk(void)
{
    size_t sectors;
    g.granule = below(2) ? 5 : below(2) ? 10 : 20;
    do {
        /* Images of large granules stay small: they take their time. */
        g.blocks = g.granule > 5 ? 1 + below(30) : below(3) ? 1 + below(192) : 1 + below(20);
        g.units = 1 + below(8);
        sectors = 10 + 5 * below(5);
    } while (granules_of(g) * g.granule < sectors);
    g.start = g.granule * below((granules_of(g) * g.granule - sectors) / g.granule + 1);
    image_len = granules_of(g) * width_of(g);
    image = realloc(image, image_len);
    before = realloc(before, image_len);
    if (!image || !before) fail("memory", 0);
    open_code = (uint16_t)below(65536);
    system_disk = below(2);
    active = below(3) ? FILES : 1;
    for (size_t i = 0; i < image_len; i++) image[i] = (uint8_t)below(256);
    uint8_t *gat = sector_at(image, g, 0), *hit = sector_at(image, g, 1);
    const size_t density = below(2) ? 6 : 100;
    hit[0x1F] = (uint8_t)(sectors - 10);
    for (size_t slot = 0; slot < 256; slot++)
        if (slot % 32 < sectors - 2) {
            hit[slot] = 0;
            entry_at(image, g, slot)[0] &= 0xEF;
        }
    for (size_t granule = 0; granule < granules_of(g); granule++) {
        const size_t b = granule / g.units, u = granule % g.units;
        reserved[granule] = of_directory(g, sectors, granule) || !below(density);
        gat[b] = (uint8_t)((gat[b] & ~(1u << u)) | (unsigned)reserved[granule] << u);
    }
    /* Now and then the directory is a system file's own. */
    if (below(2)) {
        uint8_t *e = entry_at(image, g, 1);
        memset(e, 0, 32);
        memset(e + 22, 0xFF, 10);
        e[0] = 0x50;
        memcpy(e + 5, "DIR     SYS", 11);
        const size_t own = g.start / g.granule;
        e[22] = (uint8_t)(own / g.units);
        e[23] = (uint8_t)(own % g.units << 5 | ((sectors - 1) / g.granule));
        e[20] = (uint8_t)sectors;
        hit[1] = hash_of(e + 5);
    }
    for (size_t i = 0; i < FILES; i++) {
        free(files[i].bytes);
        memset(&files[i], 0, sizeof files[i]);
    }
}

/* On a system disk rows 0 to 3 with s 0 to 7 are kept, on a data disk slots 00H and 01H. */
static bool permitted(size_t slot)
{
    return system_disk ? slot / 32 > 3 || slot % 32 > 7 : slot > 1;
}

static size_t free_permitted(void)
{
    const uint8_t *hit = sector_at(image, g, 1);
    size_t n = 0;
    for (size_t slot = 0; slot < 256; slot++)
        if (slot % 32 < sectors_of(image, g) - 2 && permitted(slot)) n += hit[slot] == 0;
    return n;
}

/* The file's bytes as the pairs and the size say. */
static size_t plain_bytes(const uint8_t *name, uint8_t *bytes, size_t *owned)
{
    for (size_t slot = 0; slot < 256; slot++) {
        if (slot % 32 >= sectors_of(image, g) - 2) continue;
        const uint8_t *e = entry_at(image, g, slot), *x = e;
        if ((e[0] & 0x90) != 0x10 || memcmp(e + 5, name, 11)) continue;
        const size_t n = e[20] + 256u * e[21], size = e[3] ? 256 * (n - 1) + e[3] : 256 * n;
        size_t done = 0;
        *owned = 0;
        for (;;) {
            for (size_t i = 0; i < runs_of(x); i++)
                for (size_t j = 0; j <= x[23 + 2 * i] % 32u; j++) {
                    const uint8_t *from = image + (x[22 + 2 * i] * g.units + x[23 + 2 * i] / 32 + j) * width_of(g);
                    for (size_t k = 0; k < width_of(g) && done < size; k++) bytes[done++] = from[k];
                    ++*owned;
                }
            if (x[30] != 0xFE) return size;
            x = entry_at(image, g, x[31]);
        }
    }
    return SIZE_MAX;
}

/* "Granules are taken one at a time", word for word, on another image. False: no permitted slot is free. */
static bool take_one(uint8_t *disk, size_t slot)
{
    uint8_t *gat = sector_at(disk, g, 0), *hit = sector_at(disk, g, 1), *e = entry_at(disk, g, slot);
    size_t at = slot;
    while (e[30] == 0xFE) {
        at = e[31];
        e = entry_at(disk, g, at);
    }
    const size_t runs = runs_of(e);
    if (runs) {
        uint8_t *pair = e + 22 + 2 * (runs - 1);
        const size_t next = pair[0] * g.units + pair[1] / 32 + pair[1] % 32u + 1;
        if (next < granules_of(g) && !gat_bit(disk, g, next) && pair[1] % 32 < 31) {
            pair[1]++;
            gat[next / g.units] |= (uint8_t)(1u << next % g.units);
            return true;
        }
    }
    size_t lowest = 0;
    while (gat_bit(disk, g, lowest)) lowest++;
    uint8_t *pair = e + 22 + 2 * runs;
    if (runs == 4) {
        size_t s = 0;
        while (s < 256 && (s % 32 >= sectors_of(disk, g) - 2 || !permitted(s) || hit[s])) s++;
        if (s == 256) return false;
        e[30] = 0xFE;
        e[31] = (uint8_t)s;
        e = entry_at(disk, g, s);
        memset(e, 0, 22);
        memset(e + 22, 0xFF, 10);
        e[0] = 0x90;
        e[1] = (uint8_t)at;
        hit[s] = hit[slot];
        pair = e + 22;
    }
    pair[0] = (uint8_t)(lowest / g.units);
    pair[1] = (uint8_t)(lowest % g.units << 5);
    gat[lowest / g.units] |= (uint8_t)(1u << lowest % g.units);
    return true;
}

/* What a growth to `need` granules answers: 0, 9 or 8; under 0 `before` has it done. */
static uint8_t plain_growth(const struct file *f, size_t need, size_t left)
{
    if (need > f->granules && need - f->granules > left) return 9;
    for (size_t i = f->granules; i < need; i++)
        if (!take_one(before, f->handle[0])) {
            memcpy(before, image, image_len);
            return 8;
        }
    return 0;
}

static void look_over(size_t step)
{
    static uint8_t bytes[GENIE_HIGHEST_POSITION(20)], owned_map[1536];
    if (!plainly_consistent(image, g) || fast_check(DISK, &fault_slot) != 0) fail("consistent after a call", step);
    memset(owned_map, 0, sizeof owned_map);
    size_t all = 0, told = 0;
    for (size_t i = 0; i < FILES; i++) {
        if (!files[i].there) continue;
        size_t owned = 0;
        const size_t size = plain_bytes(files[i].name, bytes, &owned);
        if (size != files[i].size || owned != files[i].granules || memcmp(bytes, files[i].bytes, size)) fail("file as the list says", step);
        all += owned;
        told++;
    }
    size_t kept = 0, count, left;
    for (size_t granule = 0; granule < granules_of(g); granule++) {
        kept += reserved[granule];
        if (reserved[granule] && !gat_bit(image, g, granule)) fail("reserved granule", step);
    }
    if (fast_count(DISK, &count, &left, &fault_slot) || count != told || left != clear_bits()
        || left + kept + all != granules_of(g))
        fail("count", step);
}

static void refused_changes_nothing(size_t step)
{
    if (memcmp(image, before, image_len)) fail("a byte changed that may not", step);
}

static size_t answers[16];

static void one_call(size_t step)
{
    struct file *f = &files[below(active)];
    uint8_t handle[19], buffer[300];
    memcpy(before, image, image_len);
    if (!f->there) {
        size_t old = 9;
        uint8_t name[11];
        random_name(name);
        for (size_t i = 0; i < FILES; i++)
            if (files[i].there && !memcmp(files[i].name, name, 11)) f = &files[i];
        const size_t length = 1 + below(256), room = free_permitted();
        uint8_t given[11];
        in_small_letters(name, given);
        const uint8_t r = fast_create(DISK, given, 11, below(32), below(16), below(16), length, 1, 2, false, &old, handle, 19, &place,
                                      &fault_slot);
        answers[r]++;
        if (f->there ? r != 0 || old != 1 : r != (room ? 0 : 8) || old != 0) fail("create", step);
        if (r || old) refused_changes_nothing(step);
        if (place != GENIE_NO_PLACE) fail("a place without a bad byte", step);
        if (r) return;
        if (memcmp(handle + 8, name, 11)) fail("the folded name", step);
        memcpy(f->name, name, 11);
        memcpy(f->handle, handle, 19);
        if (old) return;
        f->there = true;
        f->size = f->granules = 0;
        if (!f->bytes && !(f->bytes = malloc(GENIE_HIGHEST_POSITION(g.granule)))) fail("memory", step);
        return;
    }
    memcpy(handle, f->handle, 19);
    const size_t length = 1 + below(256), highest = GENIE_HIGHEST_POSITION(g.granule), width = width_of(g);
    size_t position = below(3) ? below(f->size + 1) : below(4) ? below(f->size + 6000) : below(highest + 1);
    if (position > highest) position = highest;
    handle[2] = (uint8_t)length;
    handle[3] = (uint8_t)(length >> 8);
    for (size_t i = 0; i < 4; i++) handle[4 + i] = (uint8_t)(position >> 8 * i);
    uint8_t after[19];
    memcpy(after, handle, 19);
    for (size_t i = 0; i < 4; i++) after[4 + i] = (uint8_t)((position + length) >> 8 * i);
    for (size_t i = 0; i < sizeof buffer; i++) buffer[i] = (uint8_t)below(256);
    uint8_t kept[300];
    memcpy(kept, buffer, sizeof kept);
    const size_t left = clear_bits();
    uint8_t r;
    switch (below(12)) {
    case 0:
    case 1: {
        r = fast_read_record(DISK, handle, 19, buffer, sizeof buffer, &fault_slot);
        if (r != (position + length > f->size ? 10 : 0)) fail("read record", step);
        if (!r) memcpy(kept, f->bytes + position, length);
        if (memcmp(buffer, kept, sizeof kept) || (!r && memcmp(handle, after, 19))) fail("bytes read", step);
        refused_changes_nothing(step);
        break;
    }
    case 2: {
        const size_t k = below(2) ? below(f->size / 256 + 2) : below(highest / 256);
        size_t from = 1, to = 2;
        r = fast_read_sector(DISK, handle, 19, k, &from, &to, &fault_slot);
        if (r != (k * 256 >= f->size ? 10 : 0)) fail("read sector", step);
        const size_t part = r ? 0 : f->size - k * 256 < 256 ? f->size - k * 256 : 256;
        if (to - from != part || (r && from) || (!r && memcmp(image + from, f->bytes + k * 256, part))) fail("sector", step);
        refused_changes_nothing(step);
        break;
    }
    case 3:
    case 4:
    case 5:
    case 6:
    case 7: {
        const bool sequential = below(2);
        const size_t size = sequential || position + length > f->size ? position + length : f->size, need = (size + width - 1) / width;
        const uint8_t expected = position + length > highest ? 12 : plain_growth(f, need, left);
        r = fast_write_record(DISK, handle, 19, sequential, buffer, sizeof buffer, &fault_slot);
        if (r != expected) fail("write record", step);
        if (r) {
            refused_changes_nothing(step);
            break;
        }
        uint8_t *e = entry_at(before, g, handle[0]);
        e[1] |= 0x20;
        e[3] = (uint8_t)size;
        e[20] = (uint8_t)((size + 255) / 256);
        e[21] = (uint8_t)((size + 255) / 256 >> 8);
        if (memcmp(sector_at(image, g, 0), sector_at(before, g, 0), sectors_of(image, g) * 256)) fail("directory after a write", step);
        if (position > f->size) memset(f->bytes + f->size, 0, position - f->size);
        memcpy(f->bytes + position, buffer, length);
        f->size = size;
        if (need > f->granules) f->granules = need;
        if (memcmp(handle, after, 19)) fail("handle after a write", step);
        break;
    }
    case 8: {
        const size_t near = f->granules * g.granule + (below(2) ? 60 : 500), sectors = highest / 256;
        const size_t k = below(3) ? below(near) % sectors : below(sectors), need = k / g.granule + 1;
        const uint8_t expected = plain_growth(f, need, left);
        r = fast_allot(DISK, handle, 19, k, &fault_slot);
        if (r != expected) fail("allot", step);
        refused_changes_nothing(step); /* beyond the growth, if any */
        if (!r && need > f->granules) f->granules = need;
        break;
    }
    case 9:
        r = fast_trim(DISK, handle, 19, &fault_slot);
        if (r) fail("trim", step);
        f->granules = (f->size + width - 1) / width;
        break;
    case 10: {
        size_t slot = 99, compared = 0;
        uint8_t given[11];
        in_small_letters(f->name, given);
        r = fast_look_up(DISK, given, 11, &slot, &compared, &place, &fault_slot);
        if (r || slot != f->handle[0] || !compared) fail("look up", step);
        uint8_t opened[20] = { 0 };
        r = fast_open(DISK, given, 11, length, true, 1, opened, 20, &place, &fault_slot);
        if (r || memcmp(opened + 8, f->name, 11) || opened[0] != slot) fail("open", step);
        refused_changes_nothing(step);
        break;
    }
    default:
        if (below(4)) return;
        r = fast_kill(DISK, handle, 19, &fault_slot);
        if (r) fail("kill", step);
        f->there = false;
        memcpy(before, image, image_len);
        if (fast_kill(DISK, handle, 19, &fault_slot) != 7
            || fast_trim(DISK, handle, 19, &fault_slot) != 7)
            fail("a killed file's handle is stale", step);
        refused_changes_nothing(step);
    }
    answers[r]++;
}

/* A slot whose entry has those of the bits 90H, or 256. */
static size_t some_slot(unsigned bits)
{
    for (size_t tries = 0; tries < 400; tries++) {
        const size_t slot = below(256);
        if (slot % 32 < sectors_of(image, g) - 2 && (entry_at(image, g, slot)[0] & 0x90) == bits) return slot;
    }
    return 256;
}

/* Gives the file in `slot` its name's hash again, in its extensions too. */
static void hash_again(size_t slot)
{
    const uint8_t h = hash_of(entry_at(image, g, slot) + 5);
    for (size_t steps = 0; steps < 300; steps++) {
        const uint8_t *e = entry_at(image, g, slot);
        sector_at(image, g, 1)[slot] = h;
        if (e[30] != 0xFE || e[31] % 32u >= sectors_of(image, g) - 2) return;
        slot = e[31];
    }
}

/* Damage to the directory, or a change that leaves it sound. */
static void spoil(void)
{
    static const uint8_t odd[] = { 0, 1, 0x10, 0x1F, 0x20, 0x2F, 0x30, 0x3A, 0x40, 0x41, 0x50, 0x5D, 0x5E, 0x80, 0x90, 0xD0, 0xFE, 0xFF };
    const size_t sectors = sectors_of(image, g), first = g.start / g.granule, own = (sectors - 1) / g.granule + 1;
    uint8_t *hit = sector_at(image, g, 1), *at = sector_at(image, g, 0) + below(sectors * 256);
    const size_t file = some_slot(0x10), extension = some_slot(0x90), empty = below(2) ? some_slot(0) : some_slot(0x80);
    switch (below(16)) {
    case 0: at = sector_at(image, g, 0) + below(g.blocks); break;
    case 1: at = hit + below(256); break;
    case 2: break;
    case 3: /* a byte of a name, and the hash that goes with it */
        if (file == 256) return;
        entry_at(image, g, file)[5 + below(11)] = odd[below(sizeof odd)];
        hash_again(file);
        return;
    case 4: /* no name, or a second file of the same name */
        if (file == 256) return;
        if (below(2)) memset(entry_at(image, g, file) + 5, 0x20, 8);
        else {
            const size_t other = some_slot(0x10);
            if (other == 256) return;
            memcpy(entry_at(image, g, file) + 5, entry_at(image, g, other) + 5, 11);
        }
        hash_again(file);
        return;
    case 5: { /* a run in or beside the directory, or anywhere */
        const size_t slot = extension < 256 && below(2) ? extension : file;
        const size_t granule = below(2) ? below(granules_of(g)) : first + below(own + 1);
        if (slot == 256) return;
        uint8_t *pair = entry_at(image, g, slot) + 22 + 2 * below(4);
        pair[0] = (uint8_t)(granule / g.units);
        pair[1] = (uint8_t)(granule % g.units << 5 | (below(2) ? 0 : below(32)));
        return;
    }
    case 6: /* an extension without runs */
        if (extension < 256) memset(entry_at(image, g, extension) + 22, 0xFF, 10);
        return;
    case 7: { /* an extension elsewhere, at a place that may be no slot */
        const size_t to = below(256);
        if (extension == 256 || to == 0x1F || (g.start + to % 32 + 3) * 256 > image_len) return;
        if (to % 32 < sectors - 2 && hit[to]) return;
        uint8_t *old = entry_at(image, g, extension), *new = entry_at(image, g, to);
        if (old[1] % 32u >= sectors - 2) return;
        memcpy(new, old, 32);
        hit[to] = hit[extension];
        hit[extension] = 0;
        old[0] = 0x80;
        entry_at(image, g, new[1])[31] = (uint8_t)to;
        if (new[30] == 0xFE && new[31] % 32u < sectors - 2) entry_at(image, g, new[31])[1] = (uint8_t)to;
        return;
    }
    case 8: { /* a new file, a system file more often than not, with the directory or a part of it, or nothing */
        if (empty == 256) return;
        uint8_t *e = entry_at(image, g, empty);
        memset(e, 0, 32);
        memset(e + 22, 0xFF, 10);
        e[0] = below(3) ? 0x50 : 0x10;
        random_name(e + 5);
        hit[empty] = hash_of(e + 5);
        if (below(3)) {
            const size_t granule = first + below(own);
            e[22] = (uint8_t)(granule / g.units);
            e[23] = (uint8_t)(granule % g.units << 5 | below(2));
        }
        return;
    }
    case 9: /* system or not */
        if (file < 256) entry_at(image, g, file)[0] ^= 0x40;
        return;
    default: { /* a byte of an entry in use */
        const size_t slot = extension < 256 && below(2) ? extension : file;
        if (slot < 256) at = entry_at(image, g, slot) + (below(2) ? 22 + below(10) : below(32));
    }
    }
    switch (below(4)) {
    case 0: *at = odd[below(sizeof odd)]; break;
    case 1: *at = (uint8_t)below(256); break;
    case 2: *at = sector_at(image, g, 0)[512 + below(sectors * 256 - 512)]; break;
    default: *at ^= (uint8_t)(1u << below(8));
    }
}

/* Spoils the directory in one to three places, and compares the two checks. */
static size_t sound, unsound, faults[10];
static void damage(size_t step)
{
    const size_t changes = 1 + below(3);
    memcpy(before, image, image_len);
    for (size_t i = 0; i < changes && sectors_of(image, g) == 10u + before[(g.start + 1) * 256 + 0x1F]; i++) spoil();
    const bool expected = plainly_consistent(image, g);
    const uint8_t r = fast_check(DISK, &fault_slot);
    /* Number and slot of a fault are held against the library's, by `bench same`; here, that there is one and that a slot is the
     * directory's. */
    if (expected ? r != 0 || fault_slot != GENIE_NO_SLOT : r < GENIE_FAULT_DIRECTORY_LENGTH || r > GENIE_FAULT_DIRECTORY_GRANULE)
        fail("the two checks differ", step);
    if (fault_slot != GENIE_NO_SLOT ? r == GENIE_FAULT_DIRECTORY_LENGTH || fault_slot % 32 >= sectors_of(image, g) - 2
                                    : !expected && r != GENIE_FAULT_DIRECTORY_LENGTH && r != GENIE_FAULT_DIRECTORY_GRANULE)
        fail("slot of a fault", step);
    if (!expected) faults[r - GENIE_FAULT_DIRECTORY_LENGTH]++;
    if (expected) sound++;
    else unsound++;
    /* A disk that is still sound is used as it is. */
    if (!expected || below(3)) memcpy(image, before, image_len);
    else {
        size_t files_told, left, size, granules, more;
        uint8_t name[11];
        if (fast_count(DISK, &files_told, &left, &fault_slot) || left != clear_bits()) fail("count of a changed disk", step);
        for (size_t i = 0; i <= files_told; i++) {
            uint8_t handle[19];
            size_t old;
            if (fast_list(DISK, i, name, 11, &size, &granules, &more, &fault_slot) || more != (i < files_told)) fail("list", step);
            if (more && (fast_create(DISK, name, 11, 0, 0, 0, 256, 0, 0, false, &old, handle, 19, &place, &fault_slot) || !old))
                fail("create of an old file", step);
        }
        memcpy(image, before, image_len);
    }
}

/* Arguments of any size, on a sound disk: refused by their number, nothing changed. */
static void any_arguments(size_t step)
{
    static const size_t odd[] = { 0, 1, 2, 5, 8, 9, 10, 18, 20, 192, 193, 256, 257, 7679, 7680, 15360, 30719, 30720, 1966080, 7864320,
        7864321,
                                  SIZE_MAX, SIZE_MAX / 2, SIZE_MAX / 2 + 1, SIZE_MAX - 4 };
#define ODD odd[below(sizeof odd / sizeof *odd)]
    size_t a = 1, b = 1, c = 1;
    uint8_t handle[19] = { 0 }, name[11];
    memcpy(before, image, image_len);
    const uint8_t anywhere = fast_check(image, image_len, g.blocks, g.units, ODD, 0, true, g.granule, &fault_slot);
    if (anywhere > 1 && (anywhere < GENIE_FAULT_DIRECTORY_LENGTH || anywhere > GENIE_FAULT_DIRECTORY_GRANULE)) fail("geometry", step);
    const uint8_t any = fast_check(image, image_len, ODD, ODD, ODD, 0, true, ODD, &fault_slot);
    if (any > 1 && (any < GENIE_FAULT_DIRECTORY_LENGTH || any > GENIE_FAULT_DIRECTORY_GRANULE)) fail("any geometry", step);
    const size_t other = ODD;
    if (other != g.start && other % g.granule
        && fast_check(image, image_len, g.blocks, g.units, other, 0, true, g.granule, &fault_slot) != 1)
        fail("start", step);
    if (other != g.granule && fast_check(image, image_len, g.blocks, g.units, g.start, 0, true, other, &fault_slot) != 1)
        fail("size", step);
    if (fast_check(image, image_len - 1, g.blocks, g.units, g.start, 0, true, g.granule, &fault_slot) != 1) fail("length", step);
    if (fast_check(image, SIZE_MAX - 100, SIZE_MAX / 1280, 1, 0, 0, true, 5, &fault_slot) != 1) fail("length", step);
    if (fast_check(image, 0, 0, 8, 0, 0, true, 5, &fault_slot) != 1) fail("length", step);
    random_name(name);
    if (fast_create(DISK, name, 11, 32 + below(9), 0, 0, 1, 0, 0, false, &a, handle, 19, &place, &fault_slot) != 12 || a) fail("day", step);
    if (fast_create(DISK, name, 11, 0, SIZE_MAX, 0, 1, 0, 0, false, &a, handle, 19, &place, &fault_slot) != 12) fail("month", step);
    if (fast_create(DISK, name, 11, 0, 0, 16, 1, 0, 0, false, &a, handle, 19, &place, &fault_slot) != 12) fail("year", step);
    if (fast_create(DISK, name, 11, 0, 0, 0, below(2) ? 0 : 257, 0, 0, false, &a, handle, 19, &place, &fault_slot) != 12)
        fail("record length", step);
    if (fast_create(DISK, name, 11, 0, 0, 0, 1, 0, 0, false, &a, handle, below(19), &place, &fault_slot) != 12) fail("short handle", step);
    if (fast_look_up(DISK, name, below(11), &a, &b, &place, &fault_slot) != 3 || a || b || place) fail("short name", step);
    if (fast_kill(DISK, handle, 19, &fault_slot) != 12) fail("the handle of zeros", step);
    if (fast_list(DISK, ODD, name, below(11), &a, &b, &c, &fault_slot) != 12 || a || b || c) fail("short name buffer", step);
    if (fast_list(DISK, ODD, name, 11, &a, &b, &c, &fault_slot)) fail("any listing number", step);
    for (size_t i = 0; i < FILES; i++)
        if (files[i].there) {
            uint8_t h[19];
            memcpy(h, files[i].handle, 19);
            const size_t k = ODD;
            const uint8_t r = fast_read_sector(DISK, h, 19, k, &a, &b, &fault_slot);
            const bool past = k > GENIE_HIGHEST_SECTOR(g.granule);
            if (r != (past ? 12 : k * 256 >= files[i].size ? 10 : 0)) fail("any sector", step);
            if (past && fast_allot(DISK, h, 19, k, &fault_slot) != 12) fail("any sector to allot", step);
            h[1] = (uint8_t)below(256);
            if (fast_kill(DISK, h, 19, &fault_slot) != (h[1] > 7 ? 12 : h[1] > 1 ? 6 : 0)) fail("level", step);
            if (h[1] <= 1) {
                memcpy(image, before, image_len);
            }
            break;
        }
    refused_changes_nothing(step);
}

int main(int argc, char **argv)
{
    const size_t disks = argc > 1 ? (size_t)strtoul(argv[1], NULL, 10) : 60;
    if (argc > 2) seed = strtoull(argv[2], NULL, 10);
    for (size_t disk = 0; disk < disks; disk++) {
        random_disk();
        look_over(disk);
        for (size_t step = 0; step < 250; step++) {
            one_call(disk * 1000 + step);
            if (below(4) == 0) look_over(disk * 1000 + step);
            for (size_t i = 0; i < 3; i++) damage(disk * 1000 + step);
            if (below(20) == 0) any_arguments(disk * 1000 + step);
        }
        look_over(disk);
    }
    printf("damaged disks: %zu sound, %zu not (by kind", sound, unsound);
    for (size_t i = 0; i < 10; i++) {
        if (!faults[i] && disks >= 60) fail("a kind never met", 21 + i);
        printf(" %zu: %zu", 21 + i, faults[i]);
    }
    printf("); calls by answer:");
    for (size_t i = 0; i < 16; i++)
        if (answers[i]) printf(" %zu: %zu", i, answers[i]);
    printf("\n");
    for (size_t i = 0; i < FILES; i++) free(files[i].bytes);
    free(image);
    free(before);
    return 0;
}
