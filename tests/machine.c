// Preloaded under a built program by machine.py: one of its calls fails, or all from one on. FAULT is the kind of
// call, what becomes of it, its number from 1, and whether those behind it fail too, as in "read short 3 0".
// FAULT_TOLD is a file that is told at the end how many calls of each kind the program made, and the descriptor of
// the last one that failed. What the loader asks for before the program starts isn't counted.
#define _GNU_SOURCE
#include <errno.h>
#include <fcntl.h>
#include <stdio.h>
#include <stdlib.h>
#include <string.h>
#include <sys/syscall.h>
#include <unistd.h>

void *__libc_malloc(size_t);
void *__libc_calloc(size_t, size_t);
void *__libc_realloc(void *, size_t);

enum call { GROW, READ, WRITE, TELL, CALLS }; // writes to standard output are WRITE, to standard error TELL
static const char *const names[CALLS] = {"grow", "read", "write", "tell"};
static long made[CALLS];
static int started, chosen = CALLS, on, failed = -1;
static long place;
static char way[16];

__attribute__((constructor)) static void start(void)
{
    char name[16] = "";
    const char *fault = getenv("FAULT");
    if (fault && sscanf(fault, "%15s %15s %ld %d", name, way, &place, &on) == 4)
        for (chosen = 0; chosen < CALLS && strcmp(name, names[chosen]); chosen++)
            ;
    started = 1;
}

__attribute__((destructor)) static void tell(void)
{
    char text[128];
    const char *told = getenv("FAULT_TOLD");
    int size = snprintf(text, sizeof text, "%ld %ld %ld %ld %d\n", made[GROW], made[READ], made[WRITE], made[TELL], failed);
    int file = told ? open(told, O_WRONLY | O_CREAT | O_TRUNC, 0600) : -1;
    if (file >= 0)
        syscall(SYS_write, file, text, (size_t)size);
}

// Counts the call, and answers whether it fails.
static int fails(int call, int descriptor)
{
    if (!started)
        return 0;
    long number = ++made[call];
    if (call != chosen || number < place || (number > place && !on))
        return 0;
    failed = descriptor;
    return 1;
}

static int refuses(void)
{
    if (!fails(GROW, -1))
        return 0;
    errno = ENOMEM;
    return 1;
}

void *malloc(size_t size) { return refuses() ? NULL : __libc_malloc(size); }
void *calloc(size_t count, size_t size) { return refuses() ? NULL : __libc_calloc(count, size); }
void *realloc(void *old, size_t size) { return refuses() ? NULL : __libc_realloc(old, size); }

// A read or a write, which fails, is interrupted, moves nothing or one byte, or goes as it should.
static ssize_t move(int call, long number, int descriptor, void *bytes, size_t size)
{
    if (call != CALLS && fails(call, descriptor)) {
        if (!strcmp(way, "nothing"))
            return 0;
        if (strcmp(way, "short")) {
            errno = strcmp(way, "interrupted") ? EIO : EINTR;
            return -1;
        }
        if (size > 1)
            size = 1;
    }
    return syscall(number, descriptor, bytes, size);
}

ssize_t read(int descriptor, void *bytes, size_t size) { return move(READ, SYS_read, descriptor, bytes, size); }

ssize_t write(int descriptor, const void *bytes, size_t size)
{
    int call = descriptor == STDOUT_FILENO ? WRITE : descriptor == STDERR_FILENO ? TELL : CALLS;
    return move(call, SYS_write, descriptor, (void *)bytes, size);
}
