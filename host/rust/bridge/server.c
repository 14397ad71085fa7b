/* Serves the calls of the libgenie.a that it is linked with: one byte on the socket says that a call stands in the shared memory, one goes
 * back when it is done. For x86-64 Linux, without a C library. It ends when the client does. */
#include "wire.h"
#include <stdbool.h>
/* The calls alone: the structs over them want a C library's header. */
#define GENIE_DISK_H
#include "genie.h"

enum { READ = 0, WRITE = 1, MMAP = 9, EXIT_GROUP = 231 };

static long kernel(long number, long a, long b, long c, long d, long e, long f)
{
    long answer;
    register long r10 __asm__("r10") = d;
    register long r8 __asm__("r8") = e;
    register long r9 __asm__("r9") = f;
    __asm__ volatile("syscall"
                     : "=a"(answer)
                     : "a"(number), "D"(a), "S"(b), "d"(c), "r"(r10), "r"(r8), "r"(r9)
                     : "rcx", "r11", "memory");
    return answer;
}

/* What a compiler may call on its own. */
void *memcpy(void *to, const void *from, size_t n)
{
    void *whole = to;
    __asm__ volatile("rep movsb" : "+D"(to), "+S"(from), "+c"(n) : : "memory");
    return whole;
}

void *memset(void *to, int byte, size_t n)
{
    void *whole = to;
    __asm__ volatile("rep stosb" : "+D"(to), "+c"(n) : "a"(byte) : "memory");
    return whole;
}

void *memmove(void *to, const void *from, size_t n)
{
    unsigned char *t = to;
    const unsigned char *f = from;
    if (t < f)
        return memcpy(to, from, n);
    while (n--)
        t[n] = f[n];
    return to;
}

int memcmp(const void *one, const void *other, size_t n)
{
    const unsigned char *a = one, *b = other;
    for (; n; n--, a++, b++)
        if (*a != *b)
            return *a - *b;
    return 0;
}

int bcmp(const void *one, const void *other, size_t n)
{
    return memcmp(one, other, n);
}

void *memchr(const void *from, int byte, size_t n)
{
    const unsigned char *f = from;
    for (; n; n--, f++)
        if (*f == (unsigned char)byte)
            return (void *)f;
    return 0;
}

/* The call that stands there, made of genie.h by `calls`. */
static uint8_t serve(struct wire *w)
{
    switch (w->call) {
#include "server-calls.h"
    }
    return 255;
}

__attribute__((used)) static void begin(void)
{
    long at = kernel(MMAP, 0, sizeof(struct wire), 3 /* read, write */, 1 /* shared */, SHARED_FD, 0);
    struct wire *w = (struct wire *)at;
    char byte = 0;
    while (at > 0 && kernel(READ, SOCKET_FD, (long)&byte, 1, 0, 0, 0) == 1) {
        w->answer = serve(w);
        if (kernel(WRITE, SOCKET_FD, (long)&byte, 1, 0, 0, 0) != 1)
            break;
    }
    kernel(EXIT_GROUP, 0, 0, 0, 0, 0, 0);
}

__asm__(".globl _start\n"
        "_start:\n"
        "  and $-16, %rsp\n"
        "  call begin\n"
        "  hlt\n");
