/* bench CALL DISK LIBRARY N      makes the call N times on the disk, by that library: genie (proved), fast (C for speed) or none (no
 *                                library: what the driver itself costs)
 * bench time CALL DISK LIBRARY   wall time of one call in nanoseconds, the driver's own work included
 * bench same                     whether genie and fast answer alike and leave image, handle, buffer and numbers alike, for each call
 *                                on each disk, take the same bytes for the same names, and tell the same fault of damaged disks
 * bench second                   whether genie serves the growths by the second choice, which fast has not
 * bench played                   whether genie plays a session back as it makes its calls one by one; fast has no such call
 * bench names                    the calls, then the disks, a line each: name and title
 * bench image DISK FILE          writes the disk to a file and says its geometry
 */
#define _POSIX_C_SOURCE 200809L
#include "disks.h"
#include "fast.h"

#include <stdio.h>
#include <stdlib.h>
#include <string.h>
#include <time.h>

#define LIBRARY_CALLS(X) \
    X(check) X(look_up) X(open) X(create) X(read_record) X(read_sector) X(write_record) X(allot) X(trim) X(kill) X(list) X(count) \
    X(compare) X(bring_back) X(free)

struct library {
    const char *name;
#define MEMBER(call) __typeof__(genie_##call) *call;
    LIBRARY_CALLS(MEMBER)
};

/* No library: what the driver costs by itself. */
#define I const uint8_t *i, size_t il, size_t b, size_t u, size_t s, uint16_t c, bool sd, size_t gs
#define IO uint8_t *i, size_t il, size_t b, size_t u, size_t s, uint16_t c, bool sd, size_t gs
#define USE (void)i, (void)il, (void)b, (void)u, (void)s, (void)c, (void)sd, (void)gs
#define NONE __attribute__((noinline)) static uint8_t
NONE none_check(I, size_t *fs) { USE, (void)fs; return 0; }
NONE none_look_up(I, const uint8_t *n, size_t nl, size_t *o, size_t *p, size_t *pl, size_t *fs)
{
    USE, (void)n, (void)nl, (void)o, (void)p, (void)pl, (void)fs;
    return 0;
}
NONE none_open(I, const uint8_t *n, size_t nl, size_t l, bool k, uint16_t w, uint8_t *h, size_t hl, size_t *pl, size_t *fs)
{
    USE, (void)n, (void)nl, (void)l, (void)k, (void)w, (void)h, (void)hl, (void)pl, (void)fs;
    return 0;
}
NONE none_create(IO, const uint8_t *n, size_t nl, size_t d, size_t m, size_t y, size_t l, uint16_t w, uint16_t v, bool k, size_t *o,
                 uint8_t *h, size_t hl, size_t *pl, size_t *fs)
{
    USE, (void)n, (void)nl, (void)d, (void)m, (void)y, (void)l, (void)w, (void)v, (void)k, (void)o, (void)h, (void)hl, (void)pl, (void)fs;
    return 0;
}
NONE none_read_record(I, uint8_t *h, size_t hl, uint8_t *f, size_t fl, size_t *fs) {
    USE, (void)h, (void)hl, (void)f, (void)fl, (void)fs;
    return 0;
}
NONE none_read_sector(I, const uint8_t *h, size_t hl, size_t k, size_t *f, size_t *t, size_t *fs) {
    USE, (void)h, (void)hl, (void)k, (void)f, (void)t, (void)fs;
    return 0;
}
NONE none_write_record(IO, uint8_t *h, size_t hl, bool q, const uint8_t *f, size_t fl, size_t *fs) {
    USE, (void)h, (void)hl, (void)q, (void)f, (void)fl, (void)fs;
    return 0;
}
NONE none_allot(IO, const uint8_t *h, size_t hl, size_t k, size_t *fs) { USE, (void)h, (void)hl, (void)k, (void)fs; return 0; }
NONE none_trim(IO, const uint8_t *h, size_t hl, size_t *fs) { USE, (void)h, (void)hl, (void)fs; return 0; }
NONE none_kill(IO, const uint8_t *h, size_t hl, size_t *fs) { USE, (void)h, (void)hl, (void)fs; return 0; }
NONE none_list(I, size_t n, uint8_t *m, size_t ml, size_t *z, size_t *g, size_t *o, size_t *fs) {
    USE, (void)n, (void)m, (void)ml, (void)z, (void)g, (void)o, (void)fs;
    return 0;
}
NONE none_count(I, size_t *f, size_t *r, size_t *fs) { USE, (void)f, (void)r, (void)fs; return 0; }
NONE none_compare(I, const uint8_t *j, size_t jl, size_t b2, size_t u2, size_t s2, uint16_t c2, bool sd2, size_t gs2, size_t n,
    uint8_t *m, size_t ml,
                  size_t *o, size_t *k, size_t *p, size_t *f, size_t *fs)
{
    USE, (void)j, (void)jl, (void)b2, (void)u2, (void)s2, (void)c2, (void)sd2, (void)gs2, (void)n, (void)m, (void)ml, (void)o, (void)k,
        (void)p, (void)f, (void)fs;
    return 0;
}

NONE none_bring_back(IO, size_t n, size_t *o, size_t *g, size_t *fs) { USE, (void)n, (void)o, (void)g, (void)fs; return 0; }
NONE none_free(I, size_t *f, size_t *l) { USE, (void)f, (void)l; return 0; }

#define GENIE(call) genie_##call,
#define SWIFT(call) fast_##call,
#define NOTHING(call) none_##call,
static const struct library libraries[] = {
    { "genie", LIBRARY_CALLS(GENIE) },
    { "fast", LIBRARY_CALLS(SWIFT) },
    { "none", LIBRARY_CALLS(NOTHING) },
};

/* What is measured. The last twelve are no rows of their own: four are for the cost of a byte, two for a disk with a fault, four for a
 * growth by the second choice (02 §13) and two for a session played back (02 §6), which the C does not have. */
enum what {
    CHECK, LOOK_UP, OPEN, CREATE, READ, SECTOR, WRITE, APPEND, ALLOT, ALLOT_ALL, TRIM, TRIM_ONE, KILL, BRING_BACK, LIST, COUNT, FREE,
    COMPARE, READ_1, WRITE_1, FILL_0, FILL_1000, CHECK_FAULT, LOOK_UP_FAULT, CHECK_SECOND, ALLOT_SECOND, CHECK_MOST, ALLOT_MOST,
    PLAY, SINGLY, WHATS
};

static const struct {
    const char *name, *title;
    bool changes; /* the directory */
} whats[WHATS] = {
    [CHECK] = { "check", "check", false },
    [LOOK_UP] = { "look_up", "look up", false },
    [OPEN] = { "open", "open", false },
    [CREATE] = { "create", "create a new file", true },
    [READ] = { "read_record", "read 256 bytes", false },
    [SECTOR] = { "read_sector", "read a sector", false },
    [WRITE] = { "write_record", "write 256 bytes", true },
    [APPEND] = { "append", "append 256 bytes, one more granule", true },
    [ALLOT] = { "allot", "allot 10 granules", true },
    [ALLOT_ALL] = { "allot_all", "allot all that fit, from one granule", true },
    [TRIM] = { "trim", "trim to half", true },
    [TRIM_ONE] = { "trim_one", "trim to one granule", true },
    [KILL] = { "kill", "kill", true },
    [BRING_BACK] = { "bring_back", "bring back", true },
    [LIST] = { "list", "list the last file", false },
    [COUNT] = { "count", "count", false },
    [FREE] = { "free", "free space", false },
    [COMPARE] = { "compare", "compare with itself", false },
    [READ_1] = { "read_1", "read 1 byte", false },
    [WRITE_1] = { "write_1", "write 1 byte", true },
    [FILL_0] = { "fill_0", "write 1 byte at the size", true },
    [FILL_1000] = { "fill_1000", "write 1 byte 1,000 past the size", true },
    [CHECK_FAULT] = { "check_fault", "check, the disk has a fault", false },
    [LOOK_UP_FAULT] = { "look_up_fault", "look up, refused for a fault", false },
    [CHECK_SECOND] = { "check_second", "check, the file has 150 entries", false },
    [ALLOT_SECOND] = { "allot_second", "allot 170 granules by the second choice", true },
    [CHECK_MOST] = { "check_most", "check, the file has two entries", false },
    [ALLOT_MOST] = { "allot_most", "allot 762 granules by the second choice", true },
    [PLAY] = { "play", "play back 1,000 calls", true },
    [SINGLY] = { "singly", "the same calls, one by one, each opened anew", true },
};

enum { SECTOR_BYTES = 256, LONGEST_DIRECTORY = 30 * SECTOR_BYTES };

struct work {
    enum what what;
    struct bench_disk disk;
    size_t directory_len;
    uint8_t directory[LONGEST_DIRECTORY]; /* as it stands before each call */
    uint8_t fresh[GENIE_HANDLE_BYTES];    /* likewise the handle */
    size_t k;
    /* What a call leaves. */
    uint8_t answer, handle[GENIE_HANDLE_BYTES], buffer[256], name[GENIE_NAME_BYTES];
    size_t numbers[4], place, fault_slot;
};

/* A session of reads of 256 bytes and random writes of 16, in turn, along one file: as a trace, and one by one. */
enum { CALLS = 1000, READ_BYTES = 256, WRITTEN = 16, TRACE_CALL = 7, TRACE_WRITE = 3, TRACE_READ = 7 };
static uint8_t session[1 + GENIE_NAME_BYTES + TRACE_CALL * (CALLS + 1)], results[CALLS];
extern __typeof__(genie_play) genie_play __attribute__((weak)); /* a stand-in has none */

static void stop(const char *why)
{
    fprintf(stderr, "bench: %s\n", why);
    exit(2);
}

static void set_size(struct work *w, size_t size)
{
    uint8_t *const e = w->disk.image + (w->disk.start + w->disk.subject_slot % 32 + 2) * SECTOR_BYTES + w->disk.subject_slot / 32 * 32;
    const size_t n = (size + SECTOR_BYTES - 1) / SECTOR_BYTES;
    e[3] = (uint8_t)size;
    e[20] = (uint8_t)n;
    e[21] = (uint8_t)(n >> 8);
}

/* A fault in the highest slot in use, so that all below it are looked at: its HIT byte is another. */
static void damage(struct bench_disk *d)
{
    uint8_t *const hit = d->image + (d->start + 1) * SECTOR_BYTES;
    size_t slot = 255;
    while (slot > 0 && !hit[slot]) slot--;
    hit[slot] = hit[slot] == 1 ? 2 : 1;
}

/* The scattered disk with every second granule taken up to its end, those behind the file by no file; only the last two granules are
 * free side by side. The file keeps its first entries. What is wanted is one granule more than 01's choice finds place for: one lengthens
 * the last run, each other starts a run of its own, four in each permitted slot left. The second choice takes the two at the end first. */
static void splinter(struct work *w, size_t entries)
{
    enum { PERMITTED = 192, LINKED = 0xFE, MARKER = 30, LINK = 31 };
    struct bench_disk *const d = &w->disk;
    uint8_t *const gat = d->image + d->start * SECTOR_BYTES, *const hit = gat + SECTOR_BYTES;
    for (size_t n = 1; n + 1 < d->blocks * d->units; n += 2) gat[n / d->units] |= (uint8_t)(1u << n % d->units);
#define ENTRY(slot) (d->image + (d->start + (slot) % 32 + 2) * SECTOR_BYTES + (slot) / 32 * 32)
    uint8_t *last = ENTRY(d->subject_slot);
    for (size_t i = 1; i < entries; i++) last = ENTRY((size_t)last[LINK]);
    while (last[MARKER] == LINKED) {
        const size_t slot = last[LINK];
        memcpy(last + MARKER, ENTRY(slot) + MARKER, 2);
        memset(ENTRY(slot), 0, 32);
        hit[slot] = 0;
    }
#undef ENTRY
    d->subject_size = 4 * entries * GENIE_GRANULE_BYTES(d->granule_sectors) - 100;
    set_size(w, d->subject_size);
    w->k = d->granule_sectors * (4 * entries + 4 * (PERMITTED - entries) + 2) - 1;
}

#define DISK d->image, d->image_len, d->blocks, d->units, d->start, d->open_code, true, d->granule_sectors

/* The file's handle, as an open leaves it but for position and record length. */
static void hold(struct work *w, size_t length, size_t position)
{
    w->fresh[0] = (uint8_t)w->disk.subject_slot;
    w->fresh[2] = (uint8_t)length;
    w->fresh[3] = (uint8_t)(length >> 8);
    for (size_t i = 0; i < 4; i++) w->fresh[4 + i] = (uint8_t)(position >> 8 * i);
    memcpy(w->fresh + 8, w->disk.subject, GENIE_NAME_BYTES);
}

static void keep_directory(struct work *w)
{
    struct bench_disk *const d = &w->disk;
    w->directory_len = (10 + (size_t)d->image[d->start * SECTOR_BYTES + SECTOR_BYTES + 0x1F]) * SECTOR_BYTES;
    memcpy(w->directory, d->image + d->start * SECTOR_BYTES, w->directory_len);
}

static void put_directory_back(struct work *w)
{
    memcpy(w->disk.image + w->disk.start * SECTOR_BYTES, w->directory, w->directory_len);
}

/* The file cut to one granule; what is wanted is every free one, or as many as 01's choice finds pairs and slots for. */
static void cut_to_one(struct work *w)
{
    struct bench_disk *const d = &w->disk;
    size_t slot, free, longest;
    set_size(w, 1);
    if (fast_trim(DISK, w->fresh, sizeof w->fresh, &slot) || fast_free(DISK, &free, &longest)) stop("the file cannot be cut");
    keep_directory(w);
    do {
        if (!free) stop("no granule can be allotted");
        w->k = (1 + free--) * d->granule_sectors - 1;
        put_directory_back(w);
    } while (fast_allot(DISK, w->fresh, sizeof w->fresh, w->k, &slot));
    put_directory_back(w);
}

static void kill_it(struct work *w)
{
    struct bench_disk *const d = &w->disk;
    size_t slot;
    if (fast_kill(DISK, w->fresh, sizeof w->fresh, &slot)) stop("the file cannot be killed");
}

static bool writes(size_t call)
{
    return call % 2;
}

static size_t position_of(const struct bench_disk *d, size_t call)
{
    return call * WRITTEN % (d->subject_size - READ_BYTES);
}

static void record(const struct bench_disk *d)
{
    uint8_t *at = session;
    memset(session, 0, sizeof session); /* so the last call is the end mark */
    *at++ = 1;
    memcpy(at, d->subject, GENIE_NAME_BYTES);
    at += GENIE_NAME_BYTES;
    for (size_t i = 0; i < CALLS; i++, at += TRACE_CALL) {
        const size_t position = position_of(d, i), length = writes(i) ? WRITTEN : READ_BYTES, fill = writes(i) ? i % 256 : 0;
        const size_t rest = length << 15 | fill << 7;
        at[0] = (uint8_t)((writes(i) ? TRACE_WRITE : TRACE_READ) << 5);
        for (size_t k = 0; k < 3; k++) at[1 + k] = (uint8_t)(position >> (16 - 8 * k)), at[4 + k] = (uint8_t)(rest >> (16 - 8 * k));
    }
}

static void prepare(struct work *w, enum what what, size_t disk)
{
    memset(w, 0, sizeof *w);
    w->what = what;
    if (!bench_disk_make(disk, &w->disk)) stop("no memory for the disk");
    struct bench_disk *const d = &w->disk;
    const size_t width = GENIE_GRANULE_BYTES(d->granule_sectors), middle = d->subject_size / 2 / width * width;
    size_t length = 256, position = middle;
    switch (what) {
    case APPEND: position = d->subject_size; break;
    case ALLOT: w->k = ((d->subject_size + width - 1) / width + 10) * d->granule_sectors - 1; break;
    case SECTOR: w->k = middle / SECTOR_BYTES; break;
    case TRIM: set_size(w, middle); break;
    case TRIM_ONE: set_size(w, 1); break;
    case READ_1:
    case WRITE_1: length = 1; break;
    case FILL_0:
    case FILL_1000:
        set_size(w, middle);
        length = 1;
        position = what == FILL_0 ? middle : middle + 1000;
        break;
    case CHECK_FAULT:
    case LOOK_UP_FAULT: damage(d); break;
    case CHECK_SECOND:
    case ALLOT_SECOND: splinter(w, 150); break;
    case CHECK_MOST:
    case ALLOT_MOST: splinter(w, 2); break;
    case PLAY:
    case SINGLY: record(d); break;
    default: break;
    }
    hold(w, length, position);
    if (what == ALLOT_ALL) cut_to_one(w);
    if (what == BRING_BACK) kill_it(w);
    keep_directory(w);
}

/* The session's calls, one by one: each opens the file, sets the position and reads or writes. The first refusal ends it. */
static uint8_t singly(struct work *w, const struct library *lib)
{
#define HANDLE w->handle, sizeof w->handle
    struct bench_disk *const d = &w->disk;
    uint8_t answer = 0;
    for (size_t i = 0; i < CALLS && !answer; i++) {
        const size_t position = position_of(d, i), length = writes(i) ? WRITTEN : READ_BYTES;
        answer = lib->open(DISK, d->subject, sizeof d->subject, length, false, 0, HANDLE, &w->place, &w->fault_slot);
        if (answer) break;
        for (size_t k = 0; k < 4; k++) w->handle[4 + k] = (uint8_t)(position >> 8 * k);
        if (writes(i)) {
            memset(w->buffer, (int)(i % 256), WRITTEN);
            answer = lib->write_record(DISK, HANDLE, false, w->buffer, sizeof w->buffer, &w->fault_slot);
        } else {
            answer = lib->read_record(DISK, HANDLE, w->buffer, sizeof w->buffer, &w->fault_slot);
        }
    }
    return answer;
}

/* One call, on the disk as it stood at first. (What a write puts into the file's sectors is the same each time.) */
static void once(struct work *w, const struct library *lib)
{
    struct bench_disk *const d = &w->disk;
    if (whats[w->what].changes) put_directory_back(w);
    memcpy(w->handle, w->fresh, sizeof w->handle);
    switch (w->what) {
    case CHECK:
    case CHECK_SECOND:
    case CHECK_MOST:
    case CHECK_FAULT: w->answer = lib->check(DISK, &w->fault_slot); break;
    case LOOK_UP:
    case LOOK_UP_FAULT:
        w->answer = lib->look_up(DISK, d->subject, sizeof d->subject, &w->numbers[0], &w->numbers[1], &w->place, &w->fault_slot);
        break;
    case OPEN: w->answer = lib->open(DISK, d->subject, sizeof d->subject, 256, true, 0, HANDLE, &w->place, &w->fault_slot); break;
    case CREATE:
        w->answer = lib->create(DISK, (const uint8_t *)"FRISCH  NEU", GENIE_NAME_BYTES, 9, 10, 3, 256, 0x1234, 0x5678, true,
                                &w->numbers[0], HANDLE, &w->place, &w->fault_slot);
        break;
    case READ:
    case READ_1: w->answer = lib->read_record(DISK, HANDLE, w->buffer, sizeof w->buffer, &w->fault_slot); break;
    case SECTOR: w->answer = lib->read_sector(DISK, HANDLE, w->k, &w->numbers[0], &w->numbers[1], &w->fault_slot); break;
    case WRITE:
    case WRITE_1:
    case FILL_0:
    case FILL_1000: w->answer = lib->write_record(DISK, HANDLE, false, w->buffer, sizeof w->buffer, &w->fault_slot); break;
    case APPEND: w->answer = lib->write_record(DISK, HANDLE, true, w->buffer, sizeof w->buffer, &w->fault_slot); break;
    case ALLOT:
    case ALLOT_ALL:
    case ALLOT_SECOND:
    case ALLOT_MOST: w->answer = lib->allot(DISK, HANDLE, w->k, &w->fault_slot); break;
    case TRIM:
    case TRIM_ONE: w->answer = lib->trim(DISK, HANDLE, &w->fault_slot); break;
    case KILL: w->answer = lib->kill(DISK, HANDLE, &w->fault_slot); break;
    case BRING_BACK: w->answer = lib->bring_back(DISK, d->subject_slot, &w->numbers[0], &w->numbers[1], &w->fault_slot); break;
    case FREE: w->answer = lib->free(DISK, &w->numbers[0], &w->numbers[1]); break;
    case LIST: w->answer = lib->list(DISK, d->files - 1, w->name, sizeof w->name, &w->numbers[0], &w->numbers[1], &w->numbers[2],
        &w->fault_slot); break;
    case COUNT: w->answer = lib->count(DISK, &w->numbers[0], &w->numbers[1], &w->fault_slot); break;
    case COMPARE:
        w->answer = lib->compare(DISK, DISK, 0, w->name, sizeof w->name, &w->numbers[0], &w->numbers[1], &w->numbers[2], &w->numbers[3],
            &w->fault_slot);
        break;
    case PLAY:
        if (lib != &libraries[0]) break;
        if (!genie_play) stop("this library plays nothing back");
        w->answer = genie_play(DISK, session, sizeof session, results, sizeof results, &w->numbers[0], &w->numbers[1], &w->numbers[2],
            &w->fault_slot);
        break;
    case SINGLY: w->answer = singly(w, lib); break;
    case WHATS: break;
    }
}

static size_t named(const char *name, const char *const *names, size_t count, const char *kind)
{
    for (size_t i = 0; i < count; i++)
        if (!strcmp(name, names[i])) return i;
    fprintf(stderr, "bench: no %s '%s'\n", kind, name);
    exit(2);
}

static double now(void)
{
    struct timespec t;
    clock_gettime(CLOCK_MONOTONIC, &t);
    return (double)t.tv_sec * 1e9 + (double)t.tv_nsec;
}

/* The quickest of many rounds, each of about 2 ms: what else the machine does then counts least. */
static double nanoseconds(struct work *w, const struct library *lib)
{
    size_t count = 1;
    double best = 0;
    for (double spent = 0; spent < 2e6; count *= 2) {
        const double begin = now();
        for (size_t i = 0; i < count; i++) once(w, lib);
        spent = now() - begin;
        best = spent / (double)count;
    }
    for (int round = 0; round < 30; round++) {
        const double begin = now();
        for (size_t i = 0; i < count; i++) once(w, lib);
        const double each = (now() - begin) / (double)count;
        if (each < best) best = each;
    }
    return best;
}

/* Whether two answered alike and left alike what they were lent. */
static bool alike(const struct work *a, const struct work *b)
{
    return a->answer == b->answer && !memcmp(a->disk.image, b->disk.image, a->disk.image_len) &&
           !memcmp(a->handle, b->handle, sizeof a->handle) && !memcmp(a->buffer, b->buffer, sizeof a->buffer) &&
           !memcmp(a->name, b->name, sizeof a->name) && !memcmp(a->numbers, b->numbers, sizeof a->numbers) &&
           a->place == b->place && a->fault_slot == b->fault_slot;
}

static int same(void)
{
    static struct work a, b;
    int unlike = 0;
    for (size_t disk = 0; disk < BENCH_DISKS; disk++)
        for (enum what what = 0; what < CHECK_SECOND; what++) {
            prepare(&a, what, disk);
            prepare(&b, what, disk);
            for (size_t i = 0; i < sizeof a.buffer; i++) a.buffer[i] = b.buffer[i] = (uint8_t)(i * 5 + 1);
            once(&a, &libraries[0]);
            once(&b, &libraries[1]);
            printf("%s %s: %d %d%s\n", bench_disk_names[disk], whats[what].name, a.answer, b.answer, alike(&a, &b) ? "" : " UNLIKE");
            unlike += !alike(&a, &b);
            free(a.disk.image);
            free(b.disk.image);
        }
    return unlike ? 1 : 0;
}

/* Creates a file of that name on the disk as it stood, and looks it up. */
static void take(struct work *w, const struct library *lib, const uint8_t *name)
{
    struct bench_disk *const d = &w->disk;
    put_directory_back(w);
    w->answer = lib->create(DISK, name, GENIE_NAME_BYTES, 9, 10, 3, 256, 1, 2, true, &w->numbers[0], HANDLE, &w->place, &w->fault_slot);
    if (!w->answer) w->answer = lib->look_up(DISK, name, GENIE_NAME_BYTES, &w->numbers[1], &w->numbers[2], &w->place, &w->fault_slot);
}

/* Whether the two take the same bytes for the same name: each byte at each place of names given in letters of either size. */
static int same_names(void)
{
    static struct work a, b;
    static const char given[][GENIE_NAME_BYTES + 1] = { "FRISCH  NEU", "frisch  neu", "ABCDEFGHXYZ", "a          ", "a b     c d" };
    int unlike = 0;
    size_t taken = 0;
    prepare(&a, CREATE, 1);
    prepare(&b, CREATE, 1);
    for (size_t i = 0; i < sizeof given / sizeof *given; i++)
        for (size_t place = 0; place < GENIE_NAME_BYTES; place++)
            for (unsigned byte = 0; byte < 256; byte++) {
                uint8_t name[GENIE_NAME_BYTES];
                memcpy(name, given[i], sizeof name);
                name[place] = (uint8_t)byte;
                take(&a, &libraries[0], name);
                take(&b, &libraries[1], name);
                taken += a.answer == GENIE_DONE;
                if (alike(&a, &b)) continue;
                printf("\"%s\" with %02XH at %zu: %d place %zu, ", given[i], byte, place, a.answer, a.place);
                printf("%d place %zu UNLIKE\n", b.answer, b.place);
                unlike++;
            }
    printf("names: %zu taken\n", taken);
    free(a.disk.image);
    free(b.disk.image);
    return unlike ? 1 : 0;
}

/* Whether the library serves what is measured of it alone: the growths by the second choice, and the checks of their disks. */
static int second(void)
{
    static struct work w;
    int refused = 0;
    for (enum what what = CHECK_SECOND; what < PLAY; what++) {
        prepare(&w, what, named("scattered", bench_disk_names, BENCH_DISKS, "disk"));
        once(&w, &libraries[0]);
        printf("%s: %d\n", whats[what].name, w.answer);
        refused |= w.answer != 0;
        free(w.disk.image);
    }
    return refused;
}

/* Whether a session played back leaves what its calls leave one by one, each of them accepted. */
static int played(void)
{
    static struct work a, b;
    const size_t disk = named("typical", bench_disk_names, BENCH_DISKS, "disk");
    prepare(&a, PLAY, disk);
    prepare(&b, SINGLY, disk);
    once(&a, &libraries[0]);
    once(&b, &libraries[0]);
    size_t refused = 0;
    for (size_t i = 0; i < CALLS; i++) refused += results[i] != 0;
    const bool alike = a.disk.image_len == b.disk.image_len && !memcmp(a.disk.image, b.disk.image, a.disk.image_len);
    printf("played back: %d, %zu calls, %zu refused; one by one: %d; images %s\n", a.answer, a.numbers[0], refused, b.answer, 
        alike ? "alike" : "UNLIKE");
    free(a.disk.image);
    free(b.disk.image);
    return a.answer || b.answer || refused || a.numbers[0] != CALLS || !alike;
}

/* Whether the two bring the same killed files back: random bytes of the killed file's entries and of the GAT's free bits are changed, so
 * that the disk stays consistent as far as the two agree on it. */
static int same_back(void)
{
    static struct work a, b;
    int unlike = 0;
    uint64_t seed = 911;
    size_t told[256] = { 0 };
    for (size_t disk = 0; disk < BENCH_DISKS; disk++) {
        prepare(&a, BRING_BACK, disk);
        prepare(&b, BRING_BACK, disk);
        for (size_t change = 0; change < 400; change++) {
            uint8_t *const directory = a.disk.image + a.disk.start * SECTOR_BYTES;
            put_directory_back(&a);
            size_t slot = a.disk.subject_slot;
            for (size_t i = 0; i < change % 8; i++) slot = directory[(slot % 32 + 2) * SECTOR_BYTES + slot / 32 * 32 + 31] % 224;
            for (size_t i = 0; i <= change % 3; i++) {
                seed = seed * 6364136223846793005u + 1442695040888963407u;
                const size_t place = seed >> 33 & 7
                    ? (slot % 32 + 2) * SECTOR_BYTES + slot / 32 * 32 + (seed >> 36 & 31) : seed >> 36 & 127;
                directory[place] = seed >> 20 & 1 ? (uint8_t)(seed >> 24) : directory[place] ^ (uint8_t)(1u << (seed >> 24 & 7));
            }
            memcpy(b.disk.image, a.disk.image, a.disk.image_len);
            struct bench_disk *d = &a.disk;
            a.answer = genie_bring_back(DISK, d->subject_slot, &a.numbers[0], &a.numbers[1], &a.fault_slot);
            d = &b.disk;
            b.answer = fast_bring_back(DISK, d->subject_slot, &b.numbers[0], &b.numbers[1], &b.fault_slot);
            told[a.answer]++;
            if (alike(&a, &b)) continue;
            printf("%s, killed and changed, change %zu: %d %d UNLIKE\n", bench_disk_names[disk], change, a.answer, b.answer);
            unlike++;
        }
        free(a.disk.image);
        free(b.disk.image);
    }
    printf("killed files, by answer:");
    for (size_t i = 0; i < 256; i++)
        if (told[i]) printf(" %zu: %zu", i, told[i]);
    printf("\n");
    return unlike ? 1 : 0;
}

/* Whether the two tell the same fault of damaged disks: random bytes of the directory are changed, a few at a time. */
static int same_faults(void)
{
    static struct work w;
    int unlike = 0;
    uint64_t seed = 20262;
    size_t told[256] = { 0 };
    for (size_t disk = 0; disk < BENCH_DISKS; disk++) {
        prepare(&w, CHECK, disk);
        struct bench_disk *const d = &w.disk;
        uint8_t *const directory = d->image + d->start * SECTOR_BYTES;
        for (size_t change = 0; change < 100; change++) {
            for (size_t i = 0; i <= change % 3; i++) {
                seed = seed * 6364136223846793005u + 1442695040888963407u;
                uint8_t *const at = directory + (seed >> 33) % w.directory_len;
                *at = seed >> 20 & 1 ? (uint8_t)(seed >> 24) : *at ^ (uint8_t)(1u << (seed >> 24 & 7));
            }
            size_t slot = 1, slot2 = 2;
            const uint8_t number = genie_check(DISK, &slot), number2 = fast_check(DISK, &slot2);
            if (number != number2 || slot != slot2)
                printf("%s damaged, change %zu: %d slot %zu, %d slot %zu UNLIKE\n",
                       bench_disk_names[disk], change, number, slot, number2, slot2),
                    unlike++;
            told[number]++;
            memcpy(directory, w.directory, w.directory_len);
        }
        free(d->image);
    }
    printf("damaged disks, by answer:");
    for (size_t i = 0; i < 256; i++)
        if (told[i]) printf(" %zu: %zu", i, told[i]);
    printf("\n");
    return unlike ? 1 : 0;
}

static int write_image(const char *disk, const char *path)
{
    struct bench_disk d;
    if (!bench_disk_make(named(disk, bench_disk_names, BENCH_DISKS, "disk"), &d)) stop("no memory for the disk");
    FILE *const f = fopen(path, "wb");
    if (!f || fwrite(d.image, 1, d.image_len, f) != d.image_len || fclose(f)) stop("the image cannot be written");
    printf("blocks %zu units %zu start %zu open_code %u granule_sectors %zu\n", d.blocks, d.units, d.start, d.open_code, d.granule_sectors);
    free(d.image);
    return 0;
}

int main(int argc, char **argv)
{
    static struct work w;
    const char *what_names[WHATS], *library_names[3];
    for (size_t i = 0; i < WHATS; i++) what_names[i] = whats[i].name;
    for (size_t i = 0; i < 3; i++) library_names[i] = libraries[i].name;

    if (argc == 2 && !strcmp(argv[1], "same")) return same() | same_names() | same_back() | same_faults();
    if (argc == 2 && !strcmp(argv[1], "second")) return second();
    if (argc == 2 && !strcmp(argv[1], "played")) return played();
    if (argc == 2 && !strcmp(argv[1], "names")) {
        for (size_t i = 0; i < WHATS; i++) printf("call %s %s\n", whats[i].name, whats[i].title);
        for (size_t i = 0; i < BENCH_DISKS; i++) printf("disk %s %s\n", bench_disk_names[i], bench_disk_titles[i]);
        return 0;
    }
    if (argc == 4 && !strcmp(argv[1], "image")) return write_image(argv[2], argv[3]);
    if (argc != 5) stop("CALL DISK LIBRARY N, or: time CALL DISK LIBRARY, or: same, or: second, or: names, or: image DISK FILE");
    const bool timed = !strcmp(argv[1], "time");
    char **const words = argv + 1 + timed;
    const enum what what = (enum what)named(words[0], what_names, WHATS, "call");
    const size_t disk = named(words[1], bench_disk_names, BENCH_DISKS, "disk");
    const struct library *const lib = &libraries[named(words[2], library_names, 3, "library")];
    prepare(&w, what, disk);
    if (timed) {
        printf("%.1f\n", nanoseconds(&w, lib));
    } else {
        const long n = strtol(words[3], NULL, 10);
        for (long i = 0; i < n; i++) once(&w, lib);
    }
    free(w.disk.image);
    return 0;
}
