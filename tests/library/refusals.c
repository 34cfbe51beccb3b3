// Preloaded under crates/drivers by tests/library/oom.py. Standard input is rows, one a line. The program is given each row again and
// again: in round 0 nothing is refused, and in the rounds after it one allocation each, from the first to the last that
// the program makes between the end of the row and its answer; of a row with more than MOST every nth. REFUSE is "one", or
// "rest": then all after that one are refused too, until the answer. FROM is where to begin: the row and the round, and of
// a round above 0 the nth and the allocations of round 0.
// What standard output is told of a round: its row, its number, the nth, the allocations of round 0, the blocks that are
// held when it is done, the bytes that the refused allocation asked for, and the answer.
#define _GNU_SOURCE
#include <errno.h>
#include <stdio.h>
#include <stdlib.h>
#include <string.h>
#include <sys/mman.h>
#include <sys/syscall.h>
#include <unistd.h>

void *__libc_malloc(size_t);
void *__libc_calloc(size_t, size_t);
void *__libc_realloc(void *, size_t);
void __libc_free(void *);

enum { ROWS = 64 << 20, ANSWER = 16 << 20 };
static char *rows, *next, *end, *row, *answer; // what is left of the row is at next
static size_t answered, asked;
static long number, turn, most = 1, step = 1, all, made, held; // of `all` allocations of the row each `step`th is refused
static int counts, rest; // whether allocations are counted; whether all behind a refused one are

static char *room(size_t size)
{
    return mmap(NULL, size, PROT_READ | PROT_WRITE, MAP_PRIVATE | MAP_ANONYMOUS, -1, 0);
}

static void skip_row(void)
{
    char *line_end = memchr(row, '\n', end - row);
    row = line_end ? line_end + 1 : end;
    number++;
}

__attribute__((constructor)) static void start(void)
{
    long first = 0, size;
    const char *from = getenv("FROM"), *mode = getenv("REFUSE"), *limit = getenv("MOST");
    rows = end = row = room(ROWS);
    answer = room(ANSWER);
    while ((size = syscall(SYS_read, STDIN_FILENO, end, rows + ROWS - end)) > 0)
        end += size;
    most = limit ? atol(limit) : most;
    rest = mode && !strcmp(mode, "rest");
    if (from)
        sscanf(from, "%ld %ld %ld %ld", &first, &turn, &step, &all);
    while (number < first)
        skip_row();
    next = row;
}

// Tells of the round that is done, and goes on to the next one, or to the next row where none is left.
static void go_on(void)
{
    char told[128];
    if (turn == 0) {
        all = made;
        step = all > most ? (all + most - 1) / most : 1;
    }
    int size = snprintf(told, sizeof told, "%ld\t%ld\t%ld\t%ld\t%ld\t%zu\t", number, turn, step, all, held, asked);
    syscall(SYS_write, STDOUT_FILENO, told, (size_t)size);
    syscall(SYS_write, STDOUT_FILENO, answer, answered);
    if (turn * step >= all) {
        skip_row();
        turn = 0;
    } else {
        turn++;
    }
    next = row;
    made = 0;
    answered = asked = 0;
}

// A byte of the row: all of it where that is asked for, no byte behind it.
ssize_t read(int descriptor, void *bytes, size_t size)
{
    if (descriptor != STDIN_FILENO)
        return syscall(SYS_read, descriptor, bytes, size);
    if (answered)
        go_on();
    size_t given = 0;
    while (given < size && next < end && !counts) {
        ((char *)bytes)[given++] = *next;
        counts = *next++ == '\n';
    }
    return given;
}

ssize_t write(int descriptor, const void *bytes, size_t size)
{
    if (descriptor != STDOUT_FILENO)
        return syscall(SYS_write, descriptor, bytes, size);
    counts = 0;
    if (answered + size > ANSWER)
        abort();
    memcpy(answer + answered, bytes, size);
    answered += size;
    return size;
}

static int refuses(size_t size)
{
    if (!counts)
        return 0;
    long refused = turn ? (turn - 1) * step + 1 : 0;
    made++;
    if (!refused || made < refused || (made > refused && !rest))
        return 0;
    if (made == refused)
        asked = size;
    errno = ENOMEM;
    return 1;
}

static void *kept(void *block)
{
    held += block != NULL;
    return block;
}

void *malloc(size_t size) { return refuses(size) ? NULL : kept(__libc_malloc(size)); }
void *calloc(size_t count, size_t size) { return refuses(count * size) ? NULL : kept(__libc_calloc(count, size)); }

void *realloc(void *old, size_t size)
{
    if (refuses(size))
        return NULL;
    held -= old != NULL;
    return kept(__libc_realloc(old, size));
}

void free(void *block)
{
    held -= block != NULL;
    __libc_free(block);
}
