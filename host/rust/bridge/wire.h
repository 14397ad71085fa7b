/* What client and server share: a page of numbers, then the parts that a call lends. */
#ifndef WIRE_H
#define WIRE_H

#include <stddef.h>
#include <stdint.h>

/* The client keeps this to itself: of a longer part no call looks at more than its beginning and its length. An image of so many bytes is
 * too long for any geometry, a buffer for any position; of a trace of so many bytes only the beginning is read, which has no more calls
 * than a part has bytes. */
enum { PART_MOST = 8388608 };

/* No call has more of either: `calls` looks. */
enum { PARTS_MOST = 5, NUMBERS_MOST = 32 };

struct wire {
    uint64_t call, answer;
    size_t number[NUMBERS_MOST]; /* the call's numbers, incoming and outgoing, in the order of its arguments */
    size_t length[PARTS_MOST];   /* the lengths of the parts that it lends, likewise */
    uint8_t part[PARTS_MOST][PART_MOST];
};

_Static_assert(sizeof(size_t) == 8, "client and server have numbers of the same size");

/* The server's open files. */
enum { SHARED_FD = 3, SOCKET_FD = 4, PROGRAM_FD = 5 };

#endif
