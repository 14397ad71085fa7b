/* The calls of genie.h, written in C for speed. Nothing here is proved: it is the yardstick for the library's instruction counts.
 * It keeps the same rules in full, the check above all; a yardstick that checks less would measure nothing. */
#include "fast.h"

#include <stdlib.h>
#include <string.h>

#if __BYTE_ORDER__ != __ORDER_LITTLE_ENDIAN__
#error "fast.c reads several bytes as one number, low byte first: it is for little-endian processors"
#endif

enum {
    SECTOR = GENIE_SECTOR_BYTES,
    MAX_GRANULES = 192 * 8,
    MAX_SLOTS = 8 * 28,
    NAME = GENIE_NAME_BYTES,
    HANDLE = GENIE_HANDLE_BYTES,
    RUN_LIMIT = 32,
    DIRECTORY_LENGTH = 0x1F, /* place in the HIT of the number of directory sectors above 10; never a slot */
    NO_SLOT = 0x1F,
    /* Places in an entry. */
    E_FLAGS = 0x00,
    E_BACK = 0x01, /* in an extension: the slot before it */
    E_DAY = 0x01,
    E_MONTH = 0x02,
    E_END = 0x03,
    E_LENGTH = 0x04,
    E_NAME = 0x05,
    E_MAIN = 0x10,
    E_WORKER = 0x12,
    E_COUNT = 0x14,
    E_PAIRS = 0x16,
    E_MARKER = 0x1E,
    E_LINK = 0x1F,
    /* Flags. */
    EXTENSION = 0x80,
    SYSTEM = 0x40,
    ZERO = 0x20,
    IN_USE = 0x10,
    KEEP_SPACE = 0x80, /* F, in byte 01 */
    NO_GROWTH = 0x40,  /* E */
    WORKED_ON = 0x20,  /* B */
    MARK_LINK = 0xFE,
    MARK_END = 0xFF
};

/* A map has one bit a granule, by granule number. It reaches as far as any pair can name (block FEH, unit 7, 32 granules): bits past the
 * disk are 0. */
enum { MAP_WORDS = 33 };

struct disk {
    size_t directory; /* place of the directory in the image */
    size_t granules;
    size_t units;
    size_t columns; /* s runs from 0 to columns - 1 */
    size_t sectors; /* of a granule */
    size_t width;   /* its bytes */
    bool system;    /* a system disk keeps rows 0 to 3 with s 0 to 7, a data disk slots 00H and 01H */
    uint64_t taken[MAP_WORDS];
};

#define IMAGE const uint8_t *image, size_t image_len
#define IMAGE_OUT uint8_t *image, size_t image_len
#define GEO size_t blocks, size_t units, size_t start, uint16_t open_code, bool system_disk, size_t granule_sectors
#define EXAMINE(d) examine(image, image_len, blocks, units, start, system_disk, granule_sectors, (d), fault_slot)

static inline uint64_t load8(const void *p) { uint64_t v; memcpy(&v, p, 8); return v; }
static inline void store8(void *p, uint64_t v) { memcpy(p, &v, 8); }
static inline uint32_t load4(const void *p) { uint32_t v; memcpy(&v, p, 4); return v; }
static inline uint16_t load2(const void *p) { uint16_t v; memcpy(&v, p, 2); return v; }
static inline void store2(void *p, size_t v) { uint16_t w = (uint16_t)v; memcpy(p, &w, 2); }

static inline const uint8_t *gat_of(const uint8_t *image, const struct disk *d) { return image + d->directory; }
static inline const uint8_t *hit_of(const uint8_t *image, const struct disk *d) { return image + d->directory + SECTOR; }

/* Slot 32 x row + s: directory sector s + 2, byte 32 x row. */
static inline size_t entry_place(const struct disk *d, size_t slot) {
    return d->directory + 2 * SECTOR + (slot & 31) * SECTOR + (slot & 0xE0);
}
static inline const uint8_t *entry_of(const uint8_t *image, const struct disk *d, size_t slot) { return image + entry_place(d, slot); }
static inline uint8_t *entry_out(uint8_t *image, const struct disk *d, size_t slot) { return image + entry_place(d, slot); }

/* ---- Names ---- */

/* A name in two numbers: bytes 0 to 7, bytes 8 to 10. */
struct name {
    uint64_t first;
    uint32_t type;
};

static inline struct name name_at(const uint8_t *p) { return (struct name){ load8(p), load4(p + 7) >> 8 }; }

/* Byte i is turned left 11 - i times in all, and 8 times is not at all: so bytes 8 to 10 turn as 0 to 2 do, and byte i turns 3 to the
 * left, i to the right. The right turns go by halves: 4 for bytes 4 to 7, then 2, then 1. */
static inline uint8_t hash(struct name n)
{
    const uint64_t v = n.first ^ n.type;
    const uint32_t high4 = (uint32_t)(v >> 32), four = (uint32_t)v ^ ((high4 >> 4 & 0x0F0F0F0F) | (high4 << 4 & 0xF0F0F0F0));
    const uint32_t high2 = four >> 16, two = four ^ ((high2 >> 2 & 0x3F3F) | (high2 << 6 & 0xC0C0));
    const uint8_t high1 = (uint8_t)(two >> 8), one = (uint8_t)two ^ (uint8_t)(high1 >> 1 | high1 << 7);
    const uint8_t h = (uint8_t)(one << 3 | one >> 5);
    return h ? h : 1;
}

static inline bool same_name(const uint8_t *a, const uint8_t *b) { return load8(a) == load8(b) && load4(a + 7) == load4(b + 7); }

/* Eight bytes at once: each is allowed or 20H, and the allowed ones are the first. The answer is FFH for each allowed byte, or
 * `BAD_NAME`. */
#define EACH(byte) (0x0101010101010101u * (uint64_t)(byte))
#define BAD_NAME 2u /* never an answer: FFH stands in whole bytes, from the lowest */
static inline uint64_t padded(uint64_t v)
{
    const uint64_t top = EACH(0x80);
    if (v & top) return BAD_NAME;
    uint64_t digit = (v + EACH(0x80 - 0x30)) & ~(v + EACH(0x80 - 0x3A));
    uint64_t letter = (v + EACH(0x80 - 0x41)) & ~(v + EACH(0x80 - 0x5E));
    uint64_t allowed = (digit | letter) & top;
    uint64_t other = ((v ^ EACH(0x20)) + EACH(0x7F)) & top; /* not 20H */
    uint64_t whole = (allowed >> 7) * 0xFF;
    if (other != allowed || (whole & (whole + 1))) return BAD_NAME;
    return whole;
}

static inline bool well_formed(struct name n)
{
    const uint64_t first = padded(n.first), type = padded(n.type | 0x2020202020000000u);
    return first != 0 && first != BAD_NAME && type != BAD_NAME;
}

/* Bytes 61H to 7DH as 41H to 5DH, eight at once. */
static inline uint64_t folded(uint64_t v)
{
    const uint64_t top = EACH(0x80), low = v & ~top;
    const uint64_t small = (low + EACH(0x80 - 0x61)) & ~(low + EACH(0x80 - 0x7E)) & ~v & top;
    return v - (small >> 2); /* a quarter of 80H is 20H */
}

/* The place of the first bad byte, of 11 that are not well formed. */
static size_t first_bad(const uint8_t *name)
{
    size_t i = 0;
    while (i < NAME) {
        const uint8_t b = name[i];
        const bool allowed = (b >= 0x30 && b <= 0x39) || (b >= 0x41 && b <= 0x5D);
        if (b == 0x20 ? i == 0 : !allowed || (i % 8 && name[i - 1] == 0x20)) break;
        i++;
    }
    return i;
}

/* A name as it comes in, folded, to own; or false, with the place of its first bad byte. */
static inline bool comes_in(const uint8_t *name, size_t name_len, uint8_t own[NAME], size_t *place)
{
    if (name_len != NAME) {
        *place = 0;
        return false;
    }
    const struct name n = { folded(load8(name)), (uint32_t)folded(load4(name + 7) >> 8) };
    store8(own, n.first);
    memcpy(own + 8, &n.type, NAME - 8);
    *place = GENIE_NO_PLACE;
    if (well_formed(n)) return true;
    *place = first_bad(own);
    return false;
}

/* ---- The check ---- */

/* GAT bytes, of which `units` bits count, to one bit a granule: eight blocks at a time. */
static void pack(uint64_t *map, const uint8_t *gat, size_t blocks, size_t units)
{
    const size_t gap = 8 - units, granules = blocks * units;
    const uint64_t wanted = EACH((1u << units) - 1);
    uint8_t *to = (uint8_t *)map;
    memset(map, 0, MAP_WORDS * sizeof *map);
    for (size_t b = 0; b < blocks; b += 8, to += units) {
        uint64_t v = load8(gat + b) & wanted;
        v = (v & 0x00FF00FF00FF00FFu) | (v & 0xFF00FF00FF00FF00u) >> gap;
        v = (v & 0x0000FFFF0000FFFFu) | (v & 0xFFFF0000FFFF0000u) >> 2 * gap;
        v = (v & 0x00000000FFFFFFFFu) | (v & 0xFFFFFFFF00000000u) >> 4 * gap;
        store8(to, v);
    }
    map[granules / 64] &= ((uint64_t)1 << granules % 64) - 1;
    map[granules / 64 + 1] = 0;
}

static inline uint64_t run_mask(size_t granule, size_t count) { return (((uint64_t)1 << count) - 1) << (granule & 7); }

static const uint64_t block_bytes[4] = { 0x00FF00FF00FF00FFu, 0x000000FF00FF00FFu, 0x0000000000FF00FFu, 0x00000000000000FFu };

static bool consistent(const uint8_t *image, size_t start, struct disk *d)
{
    const uint8_t *const hit = hit_of(image, d);
    const size_t extra = hit[DIRECTORY_LENGTH], units = d->units;
    if (extra > 20 || extra % 5) return false;
    const size_t sectors = 10 + extra;
    if (start + sectors > d->granules * d->sectors) return false;
    const size_t columns = d->columns = sectors - 2;

    /* `left`: granules that are taken, lie in no run so far and are open to any file; `directory`: those open to system files only. */
    uint64_t left[MAP_WORDS], directory[MAP_WORDS] = { 0 };
    memcpy(left, d->taken, sizeof left);
    {
        const size_t first = start / d->sectors;
        const uint64_t mask = run_mask(first, (sectors + d->sectors - 1) / d->sectors);
        uint8_t *at = (uint8_t *)left + first / 8;
        if ((load8(at) & mask) != mask) return false;
        store8(at, load8(at) & ~mask);
        store8((uint8_t *)directory + first / 8, mask);
    }

    /* The files met so far, numbered from 1: by hash the last one (0: none), by file the one before it with that hash, and the names. */
    uint8_t last[256] = { 0 }, before[MAX_SLOTS + 1];
    uint64_t first_parts[MAX_SLOTS + 1];
    uint32_t types[MAX_SLOTS + 1];
    size_t files = 0, extensions = 0, met = 0; /* extensions in use; extensions in a chain */

    for (size_t s = 0; s < columns; s++) {
        const uint8_t *entry = entry_of(image, d, s);
        for (size_t slot = s; slot < 256; slot += 32, entry += 32) {
            const uint8_t h = hit[slot], flags = entry[E_FLAGS];
            if ((h != 0) != ((flags & IN_USE) != 0)) return false;
            if (h == 0) continue;
            if (flags & EXTENSION) {
                extensions++;
                continue;
            }
            const struct name name = name_at(entry + E_NAME);
            if ((flags & ZERO) || !well_formed(name) || hash(name) != h) return false;
            for (size_t other = last[h]; other; other = before[other])
                if (first_parts[other] == name.first && types[other] == name.type) return false;
            files++;
            first_parts[files] = name.first;
            types[files] = name.type;
            before[files] = last[h];
            last[h] = (uint8_t)files;

            /* The chain. A granule that is not left fails, and so does one past the disk: the map has 0 there. No chain comes round: an
             * extension met twice would have to be met from the same entry twice. */
            const uint8_t *e = entry;
            size_t at = slot, owned = 0;
            for (;;) {
                uint64_t pairs = load8(e + E_PAIRS);
                size_t runs = 0;
                while ((pairs & 0xFF) != 0xFF) {
                    const size_t unit = pairs >> 13 & 7, count = (pairs >> 8 & 31) + 1, granule = (pairs & 0xFF) * units + unit;
                    if (unit >= units) return false;
                    const uint64_t mask = run_mask(granule, count);
                    uint8_t *const place = (uint8_t *)left + granule / 8;
                    const uint64_t here = load8(place);
                    if ((here & mask) == mask) {
                        store8(place, here & ~mask);
                    } else {
                        if (!(flags & SYSTEM)) return false;
                        uint8_t *const place2 = (uint8_t *)directory + granule / 8;
                        const uint64_t here2 = load8(place2);
                        if (((here | here2) & mask) != mask) return false;
                        store8(place, here & ~mask);
                        store8(place2, here2 & ~mask);
                    }
                    owned += count;
                    pairs >>= 16;
                    if (++runs == 4) break;
                }
                if (runs < 4) {
                    if ((pairs & block_bytes[runs]) != block_bytes[runs]) return false;
                    if (runs == 0 && e != entry) return false;
                    if (e[E_MARKER] != MARK_END) return false;
                    break;
                }
                if (e[E_MARKER] == MARK_END) break;
                if (e[E_MARKER] != MARK_LINK) return false;
                const size_t link = e[E_LINK];
                if ((link & 31) >= columns) return false;
                e = entry_of(image, d, link);
                if (e[E_FLAGS] != (EXTENSION | IN_USE) || e[E_BACK] != at || hit[link] != h) return false;
                at = link;
                met++;
            }
            const size_t n = load2(entry + E_COUNT);
            if ((n == 0 && entry[E_END] != 0) || n > owned * d->sectors) return false;
        }
    }
    return extensions == met;
}

/* ---- Where the check says no: a plain second pass, slot by slot from the lowest. It is not measured ---- */

static inline bool has_slot(const struct disk *d, size_t slot) { return (slot & 31) < d->columns; }

static inline bool is_file(const uint8_t *e) { return (e[E_FLAGS] & (EXTENSION | IN_USE)) == IN_USE; }

static size_t runs_of(const uint8_t *e)
{
    size_t runs = 0;
    while (runs < 4 && e[E_PAIRS + 2 * runs] != 0xFF) runs++;
    return runs;
}

/* The entry's marker, pairs or link. */
static bool bad_entry(const uint8_t *image, const struct disk *d, const uint8_t *e)
{
    const size_t runs = runs_of(e), link = e[E_LINK];
    for (size_t i = runs; i < 4; i++)
        if (e[E_PAIRS + 2 * i] != 0xFF) return true;
    if (e[E_MARKER] == MARK_END) return false;
    if (e[E_MARKER] != MARK_LINK || runs < 4 || !has_slot(d, link)) return true;
    return (entry_of(image, d, link)[E_FLAGS] & (EXTENSION | IN_USE)) != (EXTENSION | IN_USE);
}

/* What the walks along all files' chains meet: how often a slot, in whose chain first, and from which slot. */
struct walks {
    uint8_t met[256], file[256], from[256];
};

/* A walk passes badly formed extensions, and stops at a bad entry and at a second meeting: so each entry hands on once. */
static void walk(const uint8_t *image, const struct disk *d, struct walks *w)
{
    memset(w, 0, sizeof *w);
    for (size_t file = 0; file < 256; file++) {
        if (!has_slot(d, file) || !is_file(entry_of(image, d, file))) continue;
        for (size_t at = file;;) {
            const uint8_t *const e = entry_of(image, d, at);
            if (bad_entry(image, d, e) || e[E_MARKER] == MARK_END) break;
            const size_t next = e[E_LINK];
            if (w->met[next]) {
                w->met[next] = 2;
                break;
            }
            w->met[next] = 1;
            w->file[next] = (uint8_t)file;
            w->from[next] = (uint8_t)at;
            at = next;
        }
    }
}

/* An extension met in no chain, met twice, or badly formed. */
static bool bad_extension(const uint8_t *image, const struct disk *d, const struct walks *w, size_t slot)
{
    const uint8_t *const e = entry_of(image, d, slot);
    if (!(e[E_FLAGS] & EXTENSION)) return false;
    return w->met[slot] != 1 || e[E_FLAGS] != (EXTENSION | IN_USE) || e[E_BACK] != w->from[slot] || runs_of(e) == 0;
}

/* The granules that a whole chain owns, or SIZE_MAX where it is not whole. */
static size_t whole(const uint8_t *image, const struct disk *d, const struct walks *w, size_t slot)
{
    for (size_t owned = 0;;) {
        const uint8_t *const e = entry_of(image, d, slot);
        if (bad_entry(image, d, e) || bad_extension(image, d, w, slot)) return SIZE_MAX;
        for (size_t i = 0; i < runs_of(e); i++) owned += (size_t)(e[E_PAIRS + 2 * i + 1] & 31) + 1;
        if (e[E_MARKER] == MARK_END) return owned;
        slot = e[E_LINK];
    }
}

static inline bool in_map(const uint64_t *map, size_t granule) { return map[granule / 64] >> granule % 64 & 1; }

/* The first number that applies to a slot, or 0. `owned` has the granules of the lower slots, which have no fault, and gets this one's. */
static uint8_t fault_at(const uint8_t *image, const struct disk *d, const struct walks *w, size_t slot, uint64_t *owned)
{
    const uint8_t *const e = entry_of(image, d, slot), h = hit_of(image, d)[slot];
    const bool in_use = e[E_FLAGS] & IN_USE, extension = e[E_FLAGS] & EXTENSION;
    if ((h != 0) != in_use) return GENIE_FAULT_HIT;
    if (!in_use) return 0;
    const bool bad = bad_extension(image, d, w, slot);
    const uint8_t *const file = extension ? entry_of(image, d, w->file[slot]) : e;
    if (!bad && hash(name_at(file + E_NAME)) != h) return GENIE_FAULT_HIT;
    if (!extension) {
        if ((e[E_FLAGS] & ZERO) || !well_formed(name_at(e + E_NAME))) return GENIE_FAULT_NAME;
        for (size_t lower = 0; lower < slot; lower++) {
            if (!has_slot(d, lower)) continue;
            const uint8_t *const other = entry_of(image, d, lower);
            if (is_file(other) && same_name(other + E_NAME, e + E_NAME)) return GENIE_FAULT_DUPLICATE_NAME;
        }
    }
    if (bad || bad_entry(image, d, e)) return GENIE_FAULT_CHAIN;

    /* The kinds that a run can have: each is told before the next, whichever run it is of. */
    bool missing = false, shared = false, of_directory = false;
    const size_t first = d->directory / d->width, behind = first + (d->columns + 2 + d->sectors - 1) / d->sectors;
    for (size_t i = 0; i < runs_of(e); i++) {
        const uint8_t *const pair = e + E_PAIRS + 2 * i;
        const size_t unit = pair[1] >> 5, granule = pair[0] * d->units + unit, end = granule + (pair[1] & 31) + 1;
        if (unit >= d->units || end > d->granules) return GENIE_FAULT_RUN_OFF_DISK;
        for (size_t at = granule; at < end; at++) {
            missing |= !in_map(d->taken, at);
            shared |= in_map(owned, at);
            of_directory |= at >= first && at < behind;
            owned[at / 64] |= (uint64_t)1 << at % 64;
        }
    }
    if (missing) return GENIE_FAULT_GAT_BIT;
    if (shared) return GENIE_FAULT_GRANULE_SHARED;
    if (!extension) {
        const size_t n = load2(e + E_COUNT), granules = whole(image, d, w, slot);
        if (granules != SIZE_MAX && ((n == 0 && e[E_END] != 0) || n > granules * d->sectors)) return GENIE_FAULT_SIZE;
    }
    return of_directory && !(file[E_FLAGS] & SYSTEM) ? GENIE_FAULT_DIRECTORY_GRANULE : 0;
}

__attribute__((noinline)) static uint8_t fault_of(const uint8_t *image, size_t start, struct disk *d, size_t *fault_slot)
{
    const size_t extra = hit_of(image, d)[DIRECTORY_LENGTH];
    if (extra > 20 || extra % 5 || start + 10 + extra > d->granules * d->sectors) return GENIE_FAULT_DIRECTORY_LENGTH;
    d->columns = 8 + extra;
    struct walks w;
    uint64_t owned[MAP_WORDS] = { 0 };
    walk(image, d, &w);
    for (size_t slot = 0; slot < 256; slot++) {
        const uint8_t number = has_slot(d, slot) ? fault_at(image, d, &w, slot, owned) : 0;
        if (number) {
            *fault_slot = slot;
            return number;
        }
    }
    return GENIE_FAULT_DIRECTORY_GRANULE; /* free in the GAT: no other fault is left */
}

/* Refusals 1 and 21 to 30. */
/* Whether the geometry is one and the image has its length; the disk by it, its GAT packed. */
static bool laid_out(IMAGE, size_t blocks, size_t units, size_t start, bool system_disk, size_t granule_sectors, struct disk *d)
{
    if (granule_sectors != 5 && granule_sectors != 10 && granule_sectors != 20) return false;
    if (blocks < 1 || blocks > 192 || units < 1 || units > 8) return false;
    d->granules = blocks * units;
    d->units = units;
    d->system = system_disk;
    d->sectors = granule_sectors;
    d->width = GENIE_GRANULE_BYTES(granule_sectors);
    if (image_len != d->granules * d->width || start % granule_sectors) return false;
    if (start > d->granules * granule_sectors || d->granules * granule_sectors - start < 10) return false;
    d->directory = start * SECTOR;
    pack(d->taken, gat_of(image, d), blocks, units);
    return true;
}

static uint8_t examine(IMAGE, size_t blocks, size_t units, size_t start, bool system_disk, size_t granule_sectors, struct disk *d,
                       size_t *fault_slot)
{
    *fault_slot = GENIE_NO_SLOT;
    if (!laid_out(image, image_len, blocks, units, start, system_disk, granule_sectors, d)) return GENIE_GEOMETRY;
    return consistent(image, start, d) ? GENIE_DONE : fault_of(image, start, d, fault_slot);
}

/* ---- Finding ---- */

/* The slot of that name's primary entry, or NO_SLOT; *compared counts the slots looked at. */
static size_t find(const uint8_t *image, const struct disk *d, const uint8_t *name, size_t *compared)
{
    const uint8_t *const hit = hit_of(image, d);
    const uint8_t h = hash(name_at(name));
    size_t count = 0;
    for (size_t row = 0; row < 8; row++) {
        const uint8_t *at = hit + 32 * row, *const end = at + d->columns;
        while (at < end && (at = memchr(at, h, (size_t)(end - at))) != NULL) {
            const size_t slot = (size_t)(at - hit);
            const uint8_t *const e = entry_of(image, d, slot);
            count++;
            if (!(e[E_FLAGS] & EXTENSION) && same_name(e + E_NAME, name)) {
                *compared = count;
                return slot;
            }
            at++;
        }
    }
    *compared = count;
    return NO_SLOT;
}

/* The first free permitted slot from `from` on, by rising number, or NO_SLOT. */
static size_t free_slot(const uint8_t *image, const struct disk *d, size_t from)
{
    const uint8_t *const hit = hit_of(image, d);
    for (size_t row = from / 32; row < 8; row++) {
        const size_t kept = d->system ? (row < 4 ? 8 : 0) : (row < 1 ? 2 : 0);
        const size_t begun = row == from / 32 ? from % 32 : 0, s = begun > kept ? begun : kept;
        if (s >= d->columns) continue;
        const uint8_t *const at = memchr(hit + 32 * row + s, 0, d->columns - s);
        if (at) return (size_t)(at - hit);
    }
    return NO_SLOT;
}

/* Open's rule: the level, or 8 if refused. */
static size_t level_of(const uint8_t *e, uint16_t open_code, bool checking, uint16_t code)
{
    const uint16_t main_code = load2(e + E_MAIN);
    if (!checking || main_code == open_code || main_code == code) return 0;
    return load2(e + E_WORKER) == code ? (size_t)(e[E_FLAGS] & 7) : 8;
}

/* ---- Handles ---- */

struct held {
    size_t slot, level, length, position;
};

static void put_handle(uint8_t *handle, size_t slot, size_t level, size_t length, const uint8_t *name)
{
    handle[0] = (uint8_t)slot;
    handle[1] = (uint8_t)level;
    store2(handle + 2, length);
    memset(handle + 4, 0, 4);
    memcpy(handle + 8, name, NAME);
}

static inline bool in_range(const uint8_t *handle, size_t handle_len, const struct disk *d, struct held *h)
{
    if (handle_len < HANDLE) return false;
    h->slot = handle[0];
    h->level = handle[1];
    h->length = load2(handle + 2);
    h->position = load4(handle + 4);
    return h->level <= 7 && h->length >= 1 && h->length <= 256 && h->position <= GENIE_HIGHEST_POSITION(d->sectors);
}

static inline bool stale(const uint8_t *image, const struct disk *d, const uint8_t *handle)
{
    const size_t slot = handle[0];
    if ((slot & 31) >= d->columns) return true;
    const uint8_t *const e = entry_of(image, d, slot);
    return (e[E_FLAGS] & (EXTENSION | IN_USE)) != IN_USE || !same_name(e + E_NAME, handle + 8);
}

static inline void advance(uint8_t *handle, const struct held *h)
{
    const uint32_t position = (uint32_t)(h->position + h->length);
    memcpy(handle + 4, &position, 4);
}

/* ---- A file's runs, on a consistent disk ---- */

static inline size_t size_of(const uint8_t *e)
{
    const size_t n = load2(e + E_COUNT), end = e[E_END];
    return end ? SECTOR * (n - 1) + end : SECTOR * n;
}

static inline size_t run_granule(const uint8_t *pair, const struct disk *d) { return pair[0] * d->units + (pair[1] >> 5); }
static inline size_t run_count(const uint8_t *pair) { return (size_t)(pair[1] & 31) + 1; }

/* A run and where in the file it begins. */
struct cursor {
    const uint8_t *entry;
    size_t pair;
    size_t base;
};

/* Moves on to the run that holds the file's byte `position` (it must be owned), and answers its place in the image; *room: bytes to the
 * run's end. */
static size_t seek(const uint8_t *image, const struct disk *d, struct cursor *c, size_t position, size_t *room)
{
    for (;;) {
        if (c->pair == 4) {
            c->entry = entry_of(image, d, c->entry[E_LINK]);
            c->pair = 0;
        }
        const uint8_t *const pair = c->entry + E_PAIRS + 2 * c->pair;
        const size_t bytes = run_count(pair) * d->width;
        if (position < c->base + bytes) {
            *room = c->base + bytes - position;
            return run_granule(pair, d) * d->width + (position - c->base);
        }
        c->base += bytes;
        c->pair++;
    }
}

/* The chain to its end: granules owned, runs, slot of the last entry, its runs. */
struct extent {
    size_t owned, last_slot, last_runs;
};

static struct extent measure(const uint8_t *image, const struct disk *d, size_t slot)
{
    struct extent x = { 0, slot, 0 };
    for (;;) {
        const uint8_t *const e = entry_of(image, d, x.last_slot);
        for (x.last_runs = 0; x.last_runs < 4 && e[E_PAIRS + 2 * x.last_runs] != 0xFF; x.last_runs++)
            x.owned += run_count(e + E_PAIRS + 2 * x.last_runs);
        if (x.last_runs < 4 || e[E_MARKER] != MARK_LINK) return x;
        x.last_slot = e[E_LINK];
    }
}

/* Sets or clears the GAT bits of a run. */
static void mark(uint8_t *image, const struct disk *d, size_t granule, size_t count, bool set)
{
    uint8_t *gat = image + d->directory + granule / d->units;
    size_t unit = granule % d->units;
    while (count) {
        const size_t here = count < d->units - unit ? count : d->units - unit;
        const unsigned bits = ((1u << here) - 1) << unit;
        *gat = (uint8_t)(set ? *gat | bits : *gat & ~bits);
        count -= here;
        unit = 0;
        gat++;
    }
}

/* ---- Growth ---- */

/* How many granules from `granule` on are free, at most `most` (up to 32); they are taken from the map. Past the disk none is. */
static inline size_t take(const struct disk *d, uint64_t *taken, size_t granule, size_t most)
{
    if (granule >= d->granules) return 0;
    if (most > d->granules - granule) most = d->granules - granule;
    uint8_t *const place = (uint8_t *)taken + granule / 8;
    const uint64_t here = load8(place), from = here >> (granule & 7) | (uint64_t)1 << most; /* a stop bit after `most` */
    const size_t count = (size_t)__builtin_ctzll(from);
    store8(place, here | run_mask(granule, count));
    return count;
}

/* Takes `need` further granules for the file in `slot`, whole or refused (9, 8). */
static uint8_t grow(uint8_t *image, struct disk *d, size_t slot, const struct extent *x, size_t need)
{
    uint64_t *const taken = d->taken;
    size_t left = d->granules;
    for (size_t w = 0; w <= d->granules / 64; w++) left -= (size_t)__builtin_popcountll(taken[w]);
    if (need > left) return GENIE_DISK_FULL;

    /* First on paper: how far the last run grows, then the new runs. */
    uint16_t first[MAX_GRANULES];
    uint8_t count[MAX_GRANULES];
    size_t runs = 0, longer = 0, begun = 0;
    uint8_t *const last = entry_out(image, d, x->last_slot);
    if (x->last_runs) {
        const uint8_t *const pair = last + E_PAIRS + 2 * (x->last_runs - 1);
        const size_t old_count = run_count(pair), most = RUN_LIMIT - old_count;
        begun = run_granule(pair, d) + old_count;
        longer = take(d, taken, begun, need < most ? need : most);
    }
    /* A granule is free as long as `want` is not 0, so the search stays on the disk. */
    for (size_t want = need - longer, w = 0; want; ) {
        if (taken[w] == UINT64_MAX) {
            w++;
            continue;
        }
        first[runs] = (uint16_t)(64 * w + (size_t)__builtin_ctzll(~taken[w]));
        count[runs] = (uint8_t)take(d, taken, first[runs], want < RUN_LIMIT ? want : RUN_LIMIT);
        want -= count[runs++];
    }

    /* Runs beyond the fourth need extensions. */
    const size_t fitting = 4 - x->last_runs, extensions = runs > fitting ? (runs - fitting + 3) / 4 : 0;
    uint8_t slots[MAX_SLOTS];
    for (size_t i = 0, from = 0; i < extensions; i++) {
        const size_t found = from < 256 ? free_slot(image, d, from) : NO_SLOT;
        if (found == NO_SLOT) return GENIE_DIRECTORY_FULL;
        slots[i] = (uint8_t)found;
        from = found + 1;
    }

    /* Then on the disk. */
    uint8_t *const hit = image + d->directory + SECTOR;
    if (longer) {
        uint8_t *const pair = last + E_PAIRS + 2 * (x->last_runs - 1);
        pair[1] = (uint8_t)(pair[1] + longer);
        mark(image, d, begun, longer, true);
    }
    uint8_t *e = last;
    size_t at = x->last_slot, pair = x->last_runs, used = 0;
    for (size_t i = 0; i < runs; i++, pair++) {
        if (pair == 4) {
            const uint8_t next = slots[used++];
            e[E_MARKER] = MARK_LINK;
            e[E_LINK] = next;
            e = entry_out(image, d, next);
            memset(e, 0, E_PAIRS);
            memset(e + E_PAIRS, 0xFF, 10);
            e[E_FLAGS] = EXTENSION | IN_USE;
            e[E_BACK] = (uint8_t)at;
            hit[next] = hit[slot];
            at = next;
            pair = 0;
        }
        e[E_PAIRS + 2 * pair] = (uint8_t)(first[i] / d->units);
        e[E_PAIRS + 2 * pair + 1] = (uint8_t)(first[i] % d->units << 5 | (count[i] - 1u));
        mark(image, d, first[i], count[i], true);
    }
    return GENIE_DONE;
}

/* ---- The calls ---- */

uint8_t FAST(check)(IMAGE, GEO, size_t *fault_slot)
{
    struct disk d;
    (void)open_code;
    return EXAMINE(&d);
}

uint8_t FAST(look_up)(IMAGE, GEO, const uint8_t *name, size_t name_len, size_t *slot, size_t *compared, size_t *place,
                      size_t *fault_slot)
{
    struct disk d;
    uint8_t own[NAME];
    (void)open_code;
    *slot = *compared = 0;
    *place = GENIE_NO_PLACE;
    const uint8_t refusal = EXAMINE(&d);
    if (refusal) return refusal;
    if (!comes_in(name, name_len, own, place)) return GENIE_NAME;
    const size_t found = find(image, &d, own, compared);
    if (found == NO_SLOT) return GENIE_NOT_FOUND;
    *slot = found;
    return GENIE_DONE;
}

uint8_t FAST(open)(IMAGE, GEO, const uint8_t *name, size_t name_len, size_t length, bool checking, uint16_t code, uint8_t *handle,
    size_t handle_len,
                   size_t *place, size_t *fault_slot)
{
    struct disk d;
    size_t compared;
    uint8_t own[NAME];
    *place = GENIE_NO_PLACE;
    if (handle_len >= HANDLE) memset(handle, 0, HANDLE);
    const uint8_t refusal = EXAMINE(&d);
    if (refusal) return refusal;
    if (length < 1 || length > 256 || handle_len < HANDLE) return GENIE_RANGE;
    if (!comes_in(name, name_len, own, place)) return GENIE_NAME;
    const size_t slot = find(image, &d, own, &compared);
    if (slot == NO_SLOT) return GENIE_NOT_FOUND;
    const size_t level = level_of(entry_of(image, &d, slot), open_code, checking, code);
    if (level > 7) return GENIE_PASSWORD;
    put_handle(handle, slot, level, length, own);
    return GENIE_DONE;
}

uint8_t FAST(create)(IMAGE_OUT, GEO, const uint8_t *name, size_t name_len, size_t day, size_t month, size_t year, size_t length,
    uint16_t main_code,
                     uint16_t worker_code, bool checking, size_t *old, uint8_t *handle, size_t handle_len, size_t *place,
                     size_t *fault_slot)
{
    struct disk d;
    size_t compared;
    uint8_t own[NAME];
    *old = 0;
    *place = GENIE_NO_PLACE;
    if (handle_len >= HANDLE) memset(handle, 0, HANDLE);
    const uint8_t refusal = EXAMINE(&d);
    if (refusal) return refusal;
    if (day > 31 || month > 15 || year > 15 || length < 1 || length > 256 || handle_len < HANDLE) return GENIE_RANGE;
    if (!comes_in(name, name_len, own, place)) return GENIE_NAME;
    size_t slot = find(image, &d, own, &compared);
    if (slot != NO_SLOT) {
        const size_t level = level_of(entry_of(image, &d, slot), open_code, checking, main_code);
        if (level > 7) return GENIE_PASSWORD;
        *old = 1;
        put_handle(handle, slot, level, length, own);
        return GENIE_DONE;
    }
    slot = free_slot(image, &d, 0);
    if (slot == NO_SLOT) return GENIE_DIRECTORY_FULL;
    uint8_t *const e = entry_out(image, &d, slot);
    memset(e, 0, E_PAIRS);
    memset(e + E_PAIRS, 0xFF, 10);
    e[E_FLAGS] = IN_USE;
    e[E_DAY] = (uint8_t)day;
    e[E_MONTH] = (uint8_t)(year << 4 | month);
    e[E_LENGTH] = (uint8_t)length;
    memcpy(e + E_NAME, own, NAME);
    store2(e + E_MAIN, main_code);
    store2(e + E_WORKER, worker_code);
    image[d.directory + SECTOR + slot] = hash(name_at(own));
    put_handle(handle, slot, 0, length, own);
    return GENIE_DONE;
}

uint8_t FAST(read_record)(IMAGE, GEO, uint8_t *handle, size_t handle_len, uint8_t *buffer, size_t buffer_len, size_t *fault_slot)
{
    struct disk d;
    struct held h;
    (void)open_code;
    const uint8_t refusal = EXAMINE(&d);
    if (refusal) return refusal;
    if (!in_range(handle, handle_len, &d, &h) || buffer_len < h.length) return GENIE_RANGE;
    if (stale(image, &d, handle)) return GENIE_STALE;
    if (h.level > 5) return GENIE_LEVEL;
    const uint8_t *const e = entry_of(image, &d, h.slot);
    if (h.position + h.length > size_of(e)) return GENIE_PAST_END;
    struct cursor c = { e, 0, 0 };
    for (size_t done = 0; done < h.length; ) {
        size_t room;
        const size_t place = seek(image, &d, &c, h.position + done, &room), part = room < h.length - done ? room : h.length - done;
        memcpy(buffer + done, image + place, part);
        done += part;
    }
    advance(handle, &h);
    return GENIE_DONE;
}

uint8_t FAST(read_sector)(IMAGE, GEO, const uint8_t *handle, size_t handle_len, size_t k, size_t *from, size_t *to, size_t *fault_slot)
{
    struct disk d;
    struct held h;
    (void)open_code;
    *from = *to = 0;
    const uint8_t refusal = EXAMINE(&d);
    if (refusal) return refusal;
    if (!in_range(handle, handle_len, &d, &h) || k > GENIE_HIGHEST_SECTOR(granule_sectors)) return GENIE_RANGE;
    if (stale(image, &d, handle)) return GENIE_STALE;
    if (h.level > 5) return GENIE_LEVEL;
    const uint8_t *const e = entry_of(image, &d, h.slot);
    const size_t n = load2(e + E_COUNT), end = e[E_END];
    if (k >= n) return GENIE_PAST_END;
    struct cursor c = { e, 0, 0 };
    size_t room;
    *from = seek(image, &d, &c, k * SECTOR, &room);
    *to = *from + (k + 1 == n && end ? end : SECTOR);
    return GENIE_DONE;
}

uint8_t FAST(write_record)(IMAGE_OUT, GEO, uint8_t *handle, size_t handle_len, bool sequential, const uint8_t *buffer, size_t buffer_len,
    size_t *fault_slot)
{
    struct disk d;
    struct held h;
    (void)open_code;
    const uint8_t refusal = EXAMINE(&d);
    if (refusal) return refusal;
    if (!in_range(handle, handle_len, &d, &h) || buffer_len < h.length
        || h.position + h.length > GENIE_HIGHEST_POSITION(granule_sectors))
        return GENIE_RANGE;
    if (stale(image, &d, handle)) return GENIE_STALE;
    uint8_t *const e = entry_out(image, &d, h.slot);
    if (h.level > 4 || (e[E_FLAGS] & SYSTEM)) return GENIE_LEVEL;
    const size_t size = size_of(e), end = h.position + h.length, new_size = sequential || end > size ? end : size;
    if (new_size > size) {
        const struct extent x = measure(image, &d, h.slot);
        const size_t wanted = (new_size + d.width - 1) / d.width;
        if (wanted > x.owned) {
            if (e[E_DAY] & NO_GROWTH) return GENIE_NO_GROWTH;
            const uint8_t refused = grow(image, &d, h.slot, &x, wanted - x.owned);
            if (refused) return refused;
        }
    }
    struct cursor c = { e, 0, 0 };
    for (size_t at = size; at < h.position; ) {
        size_t room;
        const size_t place = seek(image, &d, &c, at, &room), part = room < h.position - at ? room : h.position - at;
        memset(image + place, 0, part);
        at += part;
    }
    for (size_t done = 0; done < h.length; ) {
        size_t room;
        const size_t place = seek(image, &d, &c, h.position + done, &room), part = room < h.length - done ? room : h.length - done;
        memcpy(image + place, buffer + done, part);
        done += part;
    }
    e[E_DAY] |= WORKED_ON;
    e[E_END] = (uint8_t)new_size;
    store2(e + E_COUNT, (new_size + SECTOR - 1) / SECTOR);
    advance(handle, &h);
    return GENIE_DONE;
}

uint8_t FAST(allot)(IMAGE_OUT, GEO, const uint8_t *handle, size_t handle_len, size_t k, size_t *fault_slot)
{
    struct disk d;
    struct held h;
    (void)open_code;
    const uint8_t refusal = EXAMINE(&d);
    if (refusal) return refusal;
    if (!in_range(handle, handle_len, &d, &h) || k > GENIE_HIGHEST_SECTOR(granule_sectors)) return GENIE_RANGE;
    if (stale(image, &d, handle)) return GENIE_STALE;
    const uint8_t *const e = entry_of(image, &d, h.slot);
    if (h.level > 4 || (e[E_FLAGS] & SYSTEM)) return GENIE_LEVEL;
    const struct extent x = measure(image, &d, h.slot);
    const size_t wanted = k / granule_sectors + 1;
    if (wanted <= x.owned) return GENIE_DONE;
    if (e[E_DAY] & NO_GROWTH) return GENIE_NO_GROWTH;
    return grow(image, &d, h.slot, &x, wanted - x.owned);
}

uint8_t FAST(trim)(IMAGE_OUT, GEO, const uint8_t *handle, size_t handle_len, size_t *fault_slot)
{
    struct disk d;
    struct held h;
    (void)open_code;
    const uint8_t refusal = EXAMINE(&d);
    if (refusal) return refusal;
    if (!in_range(handle, handle_len, &d, &h)) return GENIE_RANGE;
    if (stale(image, &d, handle)) return GENIE_STALE;
    uint8_t *e = entry_out(image, &d, h.slot), *previous = NULL;
    if (h.level > 4 || (e[E_FLAGS] & SYSTEM)) return GENIE_LEVEL;
    if (e[E_DAY] & KEEP_SPACE) return GENIE_DONE;
    uint8_t *const hit = image + d.directory + SECTOR;
    const size_t keep = (size_of(e) + d.width - 1) / d.width;
    for (size_t slot = h.slot, owned = 0;;) {
        const bool emptied = previous != NULL && owned >= keep;
        size_t runs;
        for (runs = 0; runs < 4 && e[E_PAIRS + 2 * runs] != 0xFF; runs++) {
            uint8_t *const pair = e + E_PAIRS + 2 * runs;
            const size_t granule = run_granule(pair, &d), count = run_count(pair);
            const size_t stay = owned >= keep ? 0 : keep - owned < count ? keep - owned : count;
            owned += count;
            if (stay == count) continue;
            mark(image, &d, granule + stay, count - stay, false);
            if (stay) pair[1] = (uint8_t)(pair[1] - (count - stay));
            else pair[0] = pair[1] = 0xFF;
        }
        const bool more = runs == 4 && e[E_MARKER] == MARK_LINK;
        const size_t link = e[E_LINK];
        if (emptied) {
            e[E_FLAGS] = EXTENSION;
            hit[slot] = 0;
            e[E_MARKER] = e[E_LINK] = previous[E_MARKER] = previous[E_LINK] = 0xFF;
        }
        if (!more) return GENIE_DONE;
        previous = e;
        slot = link;
        e = entry_out(image, &d, slot);
    }
}

uint8_t FAST(kill)(IMAGE_OUT, GEO, const uint8_t *handle, size_t handle_len, size_t *fault_slot)
{
    struct disk d;
    struct held h;
    (void)open_code;
    const uint8_t refusal = EXAMINE(&d);
    if (refusal) return refusal;
    if (!in_range(handle, handle_len, &d, &h)) return GENIE_RANGE;
    if (stale(image, &d, handle)) return GENIE_STALE;
    uint8_t *e = entry_out(image, &d, h.slot);
    if (h.level > 1 || (e[E_FLAGS] & SYSTEM)) return GENIE_LEVEL;
    for (size_t slot = h.slot, runs;;) {
        for (runs = 0; runs < 4 && e[E_PAIRS + 2 * runs] != 0xFF; runs++) {
            const uint8_t *const pair = e + E_PAIRS + 2 * runs;
            mark(image, &d, run_granule(pair, &d), run_count(pair), false);
        }
        e[E_FLAGS] = (uint8_t)(e[E_FLAGS] & ~IN_USE);
        image[d.directory + SECTOR + slot] = 0;
        if (runs < 4 || e[E_MARKER] != MARK_LINK) return GENIE_DONE;
        slot = e[E_LINK];
        e = entry_out(image, &d, slot);
    }
}

uint8_t FAST(list)(IMAGE, GEO, size_t number, uint8_t *name, size_t name_len, size_t *size, size_t *granules, size_t *more,
    size_t *fault_slot)
{
    struct disk d;
    (void)open_code;
    *size = *granules = *more = 0;
    const uint8_t refusal = EXAMINE(&d);
    if (refusal) return refusal;
    if (name_len < NAME) return GENIE_RANGE;
    for (size_t row = 0; row < 8; row++) {
        const uint8_t *e = entry_of(image, &d, 32 * row);
        for (size_t s = 0; s < d.columns; s++, e += SECTOR) {
            if ((e[E_FLAGS] & (EXTENSION | SYSTEM | IN_USE)) != IN_USE || number--) continue;
            memcpy(name, e + E_NAME, NAME);
            *size = size_of(e);
            *granules = measure(image, &d, 32 * row + s).owned;
            *more = 1;
            return GENIE_DONE;
        }
    }
    return GENIE_DONE;
}

uint8_t FAST(count)(IMAGE, GEO, size_t *files, size_t *free, size_t *fault_slot)
{
    struct disk d;
    (void)open_code;
    *files = *free = 0;
    const uint8_t refusal = EXAMINE(&d);
    if (refusal) return refusal;
    size_t told = 0, left = d.granules;
    const uint8_t *e = entry_of(image, &d, 0);
    for (size_t i = 0; i < 8 * d.columns; i++, e += 32) told += (e[E_FLAGS] & (EXTENSION | SYSTEM | IN_USE)) == IN_USE;
    for (size_t w = 0; w <= d.granules / 64; w++) left -= (size_t)__builtin_popcountll(d.taken[w]);
    *files = told;
    *free = left;
    return GENIE_DONE;
}

/* The killed file whose first entry is in the slot: its granules, from the map of those that are free, are `taken` then. What 01 wants of a
 * file in use is wanted of it, but that its extensions have 80H in byte 00 and its granules are free. 18 comes before 19, and that before
 * 20: so the granules are counted twice, once on a map of its own, where none may come twice. */
uint8_t FAST(bring_back)(IMAGE_OUT, GEO, size_t slot, size_t *slots, size_t *granules, size_t *fault_slot)
{
    struct disk d;
    (void)open_code;
    *slots = *granules = 0;
    const uint8_t refusal = EXAMINE(&d);
    if (refusal) return refusal;
    if (slot > 255 || (slot & 31) >= d.columns) return GENIE_RANGE;
    uint8_t *const first = entry_out(image, &d, slot), *const hit = image + d.directory + SECTOR;
    if (first[E_FLAGS] & IN_USE) return GENIE_SLOT_IN_USE;
    if (first[E_FLAGS] & SYSTEM) return GENIE_LEVEL;
    const struct name name = name_at(first + E_NAME);
    if ((first[E_FLAGS] & (EXTENSION | ZERO)) || !well_formed(name)) return GENIE_NOTHING_WHOLE;

    uint64_t own[MAP_WORDS] = { 0 };
    bool met[256] = { false }, taken = false;
    size_t at = slot, entries = 0, owned = 0;
    for (uint8_t *e = first;;) {
        if (met[at]) return GENIE_NOTHING_WHOLE;
        met[at] = true;
        entries++;
        uint64_t pairs = load8(e + E_PAIRS);
        size_t runs = 0;
        for (; runs < 4 && (pairs & 0xFF) != 0xFF; runs++, pairs >>= 16) {
            const size_t unit = pairs >> 13 & 7, count = (pairs >> 8 & 31) + 1, granule = (pairs & 0xFF) * d.units + unit;
            if (unit >= d.units || granule + count > d.granules) return GENIE_NOTHING_WHOLE;
            const uint64_t mask = run_mask(granule, count);
            uint8_t *const place = (uint8_t *)own + granule / 8;
            const uint64_t here = load8(place);
            if (here & mask) return GENIE_NOTHING_WHOLE;
            store8(place, here | mask);
            taken |= (load8((const uint8_t *)d.taken + granule / 8) & mask) != 0;
            owned += count;
        }
        if (runs < 4 && ((pairs & block_bytes[runs]) != block_bytes[runs] || (runs == 0 && e != first))) return GENIE_NOTHING_WHOLE;
        if (e[E_MARKER] == MARK_END) break;
        const size_t link = e[E_LINK];
        if (e[E_MARKER] != MARK_LINK || runs < 4 || (link & 31) >= d.columns) return GENIE_NOTHING_WHOLE;
        uint8_t *const next = entry_out(image, &d, link);
        if (next[E_FLAGS] != EXTENSION || next[E_BACK] != at) return GENIE_NOTHING_WHOLE;
        e = next;
        at = link;
    }
    const size_t n = load2(first + E_COUNT);
    size_t compared;
    if ((n == 0 && first[E_END] != 0) || n > owned * d.sectors) return GENIE_NOTHING_WHOLE;
    if (find(image, &d, first + E_NAME, &compared) != NO_SLOT) return GENIE_NAME_IN_USE;
    if (taken) return GENIE_GRANULE_TAKEN;

    const uint8_t h = hash(name);
    for (uint8_t *e = first;;) {
        for (size_t runs = 0; runs < 4 && e[E_PAIRS + 2 * runs] != 0xFF; runs++) {
            const uint8_t *const pair = e + E_PAIRS + 2 * runs;
            mark(image, &d, run_granule(pair, &d), run_count(pair), true);
        }
        e[E_FLAGS] |= IN_USE;
        hit[slot] = h;
        if (e[E_MARKER] == MARK_END) break;
        slot = e[E_LINK];
        e = entry_out(image, &d, slot);
    }
    *slots = entries;
    *granules = owned;
    return GENIE_DONE;
}

/* From the GAT alone, on any image of the right length: the stretches of clear bits, one after the other. */
uint8_t FAST(free)(IMAGE, GEO, size_t *free, size_t *longest)
{
    struct disk d;
    (void)open_code;
    *free = *longest = 0;
    if (!laid_out(image, image_len, blocks, units, start, system_disk, granule_sectors, &d)) return GENIE_GEOMETRY;
    d.taken[d.granules / 64] |= ~(uint64_t)0 << d.granules % 64; /* the disk's end ends the last stretch */
    size_t total = 0, best = 0, here = 0;
    for (size_t w = 0; w <= d.granules / 64; w++) {
        uint64_t rest = d.taken[w];
        size_t left = 64;
        if (rest == 0) {
            here += 64;
            continue;
        }
        while (rest) {
            const size_t clear = (size_t)__builtin_ctzll(rest);
            here += clear;
            total += here;
            if (here > best) best = here;
            here = 0;
            left -= clear;
            rest >>= clear;
            const size_t set = ~rest ? (size_t)__builtin_ctzll(~rest) : 64;
            left = left > set ? left - set : 0;
            rest = set < 64 ? rest >> set : 0;
        }
        here = left;
    }
    *free = total;
    *longest = best;
    return GENIE_DONE;
}

/* ---- Two disks ---- */

static int by_name(const void *a, const void *b) {
    return memcmp(*(const uint8_t *const *)a + E_NAME, *(const uint8_t *const *)b + E_NAME, NAME);
}

/* The first entries of all files, by rising name. */
static size_t files_by_name(const uint8_t *image, const struct disk *d, const uint8_t **files)
{
    size_t n = 0;
    const uint8_t *e = entry_of(image, d, 0);
    for (size_t i = 0; i < 8 * d->columns; i++, e += 32)
        if ((e[E_FLAGS] & (EXTENSION | IN_USE)) == IN_USE) files[n++] = e;
    qsort(files, n, sizeof *files, by_name);
    return n;
}

/* The first byte below `size` in which two files differ, or `size`; both are at least so long. */
static size_t parting(const uint8_t *image, const struct disk *d, const uint8_t *e, const uint8_t *image2, const struct disk *d2,
    const uint8_t *e2, size_t size)
{
    struct cursor c = { e, 0, 0 }, c2 = { e2, 0, 0 };
    for (size_t at = 0; at < size;) {
        size_t room, room2;
        const uint8_t *p = image + seek(image, d, &c, at, &room), *q = image2 + seek(image2, d2, &c2, at, &room2);
        size_t part = room < room2 ? room : room2;
        if (part > size - at) part = size - at;
        if (memcmp(p, q, part))
            for (;; p++, q++, at++)
                if (*p != *q) return at;
        at += part;
    }
    return size;
}

uint8_t FAST(compare)(const uint8_t *first, size_t first_len, GEO, const uint8_t *second, size_t second_len, size_t blocks2,
    size_t units2, size_t start2,
                      uint16_t open_code2, bool system_disk2, size_t granule_sectors2, size_t number, uint8_t *name, size_t name_len,
                      size_t *image, size_t *kind, size_t *position, size_t *flags, size_t *fault_slot)
{
    struct disk d, d2;
    const uint8_t *ours[MAX_SLOTS], *theirs[MAX_SLOTS];
    (void)open_code, (void)open_code2;
    *kind = *position = *flags = 0;
    *image = 1;
    uint8_t refusal = examine(first, first_len, blocks, units, start, system_disk, granule_sectors, &d, fault_slot);
    if (refusal) return refusal;
    *image = 2;
    refusal = examine(second, second_len, blocks2, units2, start2, system_disk2, granule_sectors2, &d2, fault_slot);
    if (refusal) return refusal;
    *image = 0;
    if (name_len < NAME) return GENIE_RANGE;
    const size_t n = files_by_name(first, &d, ours), n2 = files_by_name(second, &d2, theirs);
    for (size_t i = 0, j = 0; i < n || j < n2;) {
        const int order = i == n ? 1 : j == n2 ? -1 : memcmp(ours[i] + E_NAME, theirs[j] + E_NAME, NAME);
        const uint8_t *const e = order <= 0 ? ours[i++] : 0, *const e2 = order >= 0 ? theirs[j++] : 0;
        size_t what = order < 0 ? GENIE_ONLY_IN_FIRST : GENIE_ONLY_IN_SECOND, at = 0, differs = 0;
        if (e && e2) {
            if ((e[E_FLAGS] | e2[E_FLAGS]) & SYSTEM) continue;
            const size_t size = size_of(e), size2 = size_of(e2), smaller = size < size2 ? size : size2;
            at = parting(first, &d, e, second, &d2, e2, smaller);
            differs = (size != size2 ? GENIE_SIZE_DIFFERS : 0) | (at < smaller || size != size2 ? GENIE_CONTENTS_DIFFER : 0) |
                      (e[E_MONTH] != e2[E_MONTH] || (e[E_DAY] ^ e2[E_DAY]) & 0x1F ? GENIE_DATE_DIFFERS : 0) |
                      (e[E_FLAGS] != e2[E_FLAGS] || (e[E_DAY] ^ e2[E_DAY]) & 0xE0 || e[E_LENGTH] != e2[E_LENGTH]
                          || load4(e + E_MAIN) != load4(e2 + E_MAIN)
                           ? GENIE_ATTRIBUTES_DIFFER : 0);
            if (!differs) continue;
            what = GENIE_UNLIKE;
        }
        if (number--) continue;
        memcpy(name, (e ? e : e2) + E_NAME, NAME);
        *kind = what;
        *position = at;
        *flags = differs;
        return GENIE_DONE;
    }
    return GENIE_DONE;
}
