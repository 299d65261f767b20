/* A library for LD_PRELOAD which counts how often a program asks for memory: see test_memory_requests.py. At the program's end
   it adds a line of four numbers to the file that COUNTS names: how often the program had asked when it first opened a file;
   when it first opened one that it makes; at the end (-1: it opened none); and how many calls, of those to copy, to clear and to
   write bytes, it made from the second of these moments on. In the one of these calls whose number is ASK_IN the library asks
   for memory itself. */
#define _GNU_SOURCE
#include <dlfcn.h>
#include <fcntl.h>
#include <stdarg.h>
#include <stdint.h>
#include <stdio.h>
#include <stdlib.h>
#include <sys/mman.h>
#include <unistd.h>

static long asked, calls, ask_in, at_open = -1, at_made = -1;
static void *(*true_malloc)(size_t), *(*true_calloc)(size_t, size_t), *(*true_realloc)(void *, size_t);
static void *(*true_aligned)(size_t, size_t), *(*true_mmap)(void *, size_t, int, int, int, off_t), *(*true_sbrk)(intptr_t);
static int (*true_posix)(void **, size_t, size_t), (*true_open)(const char *, int, ...);
static void *(*true_copy)(void *, const void *, size_t), *(*true_move)(void *, const void *, size_t);
static void *(*true_set)(void *, int, size_t);
static ssize_t (*true_write)(int, const void *, size_t);

static void *behind(const char *name)
{
    return dlsym(RTLD_NEXT, name);
}

__attribute__((constructor)) static void begin(void)
{
    const char *number = getenv("ASK_IN");

    true_malloc = behind("malloc");
    true_calloc = behind("calloc");
    true_realloc = behind("realloc");
    true_aligned = behind("aligned_alloc");
    true_posix = behind("posix_memalign");
    true_mmap = behind("mmap");
    true_sbrk = behind("sbrk");
    true_open = behind("open");
    true_set = behind("memset");
    true_copy = behind("memcpy");
    true_move = behind("memmove");
    true_write = behind("write");
    ask_in = number ? atol(number) : 0;
    asked = 0;
}

__attribute__((destructor)) static void end(void)
{
    char line[100];
    const char *name = getenv("COUNTS");
    int length = snprintf(line, sizeof line, "%ld %ld %ld %ld\n", at_open, at_made, asked, calls);
    int file = name ? true_open(name, O_WRONLY | O_CREAT | O_APPEND, 0666) : -1;

    if (file < 0 || true_write(file, line, length) != length)
        _exit(99);
}

void *malloc(size_t size)
{
    asked++;
    return true_malloc(size);
}

void *calloc(size_t count, size_t size)
{
    asked++;
    return true_calloc ? true_calloc(count, size) : 0;
}

void *realloc(void *old, size_t size)
{
    asked++;
    return true_realloc(old, size);
}

void *aligned_alloc(size_t at, size_t size)
{
    asked++;
    return true_aligned(at, size);
}

int posix_memalign(void **to, size_t at, size_t size)
{
    asked++;
    return true_posix(to, at, size);
}

void *mmap(void *at, size_t size, int may, int how, int file, off_t from)
{
    asked++;
    return true_mmap(at, size, may, how, file, from);
}

void *sbrk(intptr_t more)
{
    asked++;
    return true_sbrk(more);
}

int open(const char *name, int how, ...)
{
    va_list more;
    int mode;

    va_start(more, how);
    mode = how & O_CREAT ? va_arg(more, int) : 0;
    va_end(more);
    at_open = at_open < 0 ? asked : at_open;
    at_made = at_made < 0 && how & O_CREAT ? asked : at_made;
    return true_open(name, how, mode);
}

/* The program has made a call after it opened a file that it makes. */
static void called(void)
{
    if (at_made >= 0 && ++calls == ask_in)
        free(malloc(1));
}

void *memset(void *to, int byte, size_t count)
{
    called();
    return true_set(to, byte, count);
}

void *memcpy(void *to, const void *from, size_t count)
{
    called();
    return true_copy(to, from, count);
}

void *memmove(void *to, const void *from, size_t count)
{
    called();
    return true_move(to, from, count);
}

ssize_t write(int file, const void *from, size_t count)
{
    called();
    return true_write(file, from, count);
}
