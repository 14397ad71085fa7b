/* The exported calls, handed to a server that runs the proved library in an emulator. The server's program is in this file; the emulator's
 * path is EMULATOR, or what the environment's GENIE_EMULATOR says. The first call starts the server, which ends with this process. */
#define _GNU_SOURCE
#include "wire.h"
#include "genie.h"

#include <errno.h>
#include <fcntl.h>
#include <pthread.h>
#include <stdio.h>
#include <stdlib.h>
#include <string.h>
#include <sys/mman.h>
#include <sys/resource.h>
#include <sys/socket.h>
#include <sys/wait.h>
#include <unistd.h>

/* The server's program. */
__asm__(".section .rodata\n"
        ".globl genie_server, genie_server_end\n"
        "genie_server: .incbin \"" SERVER "\"\n"
        "genie_server_end: .byte 0\n"
        ".text\n");
extern const uint8_t genie_server[], genie_server_end[];

static pthread_mutex_t turn = PTHREAD_MUTEX_INITIALIZER;
static struct wire *w;
static int line;    /* to the server */
static pid_t owner; /* whose server it is: after a fork the child starts its own */

static void stop(const char *what)
{
    fprintf(stderr, "genie bridge: %s: %s\n", what, strerror(errno));
    abort();
}

/* Memory that has a file descriptor. Its size counts as a file's, so a limit on those is lifted as far as it may be. */
static int shared_memory(const char *name, size_t size)
{
    struct rlimit was;
    int fd = memfd_create(name, MFD_CLOEXEC);
    if (fd < 0 || getrlimit(RLIMIT_FSIZE, &was))
        stop("shared memory");
    struct rlimit most = {was.rlim_max, was.rlim_max};
    if (setrlimit(RLIMIT_FSIZE, &most) || ftruncate(fd, (off_t)size) || setrlimit(RLIMIT_FSIZE, &was))
        stop("shared memory");
    return fd;
}

static void *mapped(int fd, size_t size)
{
    void *at = mmap(0, size, PROT_READ | PROT_WRITE, MAP_SHARED, fd, 0);
    if (at == MAP_FAILED)
        stop("shared memory");
    return at;
}

static char *emulator(void)
{
    char *given = getenv("GENIE_EMULATOR");
    return given ? given : EMULATOR;
}

/* In the child: the server's open files get their numbers, all others are closed, and the emulator takes over. */
static void become_server(char *runner, int memory, int socket, int program)
{
    char path[] = "/proc/self/fd/5";
    char *words[] = {runner, path, 0};
    int high[] = {fcntl(memory, F_DUPFD, 10), fcntl(socket, F_DUPFD, 10), fcntl(program, F_DUPFD, 10)};
    int nothing = open("/dev/null", O_RDWR);
    for (int fd = 0; fd < SHARED_FD; fd++)
        dup2(nothing, fd);
    dup2(high[0], SHARED_FD);
    dup2(high[1], SOCKET_FD);
    dup2(high[2], PROGRAM_FD);
    close_range(PROGRAM_FD + 1, ~0U, 0);
    setsid();
    execv(runner, words);
    _exit(127);
}

static void start_server(void)
{
    size_t size = (size_t)(genie_server_end - genie_server);
    int ends[2], memory = shared_memory("genie", sizeof(struct wire)), program = shared_memory("genie-server", size);
    void *place = mapped(program, size);
    memcpy(place, genie_server, size);
    munmap(place, size);
    w = mapped(memory, sizeof(struct wire));
    if (socketpair(AF_UNIX, SOCK_STREAM | SOCK_CLOEXEC, 0, ends))
        stop("socket");
    /* By way of a child that ends at once: the server is nobody's to wait for. */
    pid_t child = fork();
    if (child < 0)
        stop("server");
    if (child == 0) {
        if (fork() == 0)
            become_server(emulator(), memory, ends[1], program);
        _exit(0);
    }
    while (waitpid(child, 0, 0) < 0 && errno == EINTR)
        ;
    close(memory);
    close(program);
    close(ends[1]);
    line = ends[0];
    owner = getpid();
}

static size_t least(size_t a, size_t b)
{
    return a < b ? a : b;
}

static void take_turn(unsigned call)
{
    pthread_mutex_lock(&turn);
    if (owner != getpid())
        start_server();
    w->call = call;
}

/* A part that is lent goes over, of a longer one the beginning; what may have changed comes back. */
static void lend(unsigned part, const uint8_t *from, size_t len)
{
    w->length[part] = least(len, PART_MOST);
    memcpy(w->part[part], from, w->length[part]);
}

static void take_back(unsigned part, uint8_t *to)
{
    memcpy(to, w->part[part], w->length[part]);
}

static void go(void)
{
    char byte = 0;
    ssize_t n;
    while ((n = send(line, &byte, 1, MSG_NOSIGNAL)) < 0 && errno == EINTR)
        ;
    if (n == 1)
        while ((n = recv(line, &byte, 1, 0)) < 0 && errno == EINTR)
            ;
    if (n != 1) {
        fprintf(stderr, "genie bridge: no answer; is %s there, and an emulator for x86-64?\n", emulator());
        abort();
    }
}

static uint8_t end(void)
{
    uint8_t answer = (uint8_t)w->answer;
    pthread_mutex_unlock(&turn);
    return answer;
}

/* The exported functions, made of genie.h by `calls`. */
#include "client-calls.h"
