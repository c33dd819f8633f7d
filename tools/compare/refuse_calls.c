/* Makes one call of the C library fail in a program that this is loaded into (LD_PRELOAD): the one with the number of the variable
   REFUSE_MEMORY among those that ask for memory (malloc, calloc, realloc and the aligned ones), or of REFUSE_READ or REFUSE_WRITE among
   reads and writes. Numbers count from 1, over all threads. At the end the numbers of calls are written to the file that REFUSE_COUNTS
   names: "memory M reads R writes W". tools/compare/refuse_memory.py builds and uses it. */
#define _GNU_SOURCE
#include <errno.h>
#include <fcntl.h>
#include <stdatomic.h>
#include <stddef.h>
#include <stdio.h>
#include <stdlib.h>
#include <sys/syscall.h>
#include <unistd.h>

void *__libc_malloc(size_t size);
void *__libc_calloc(size_t count, size_t size);
void *__libc_realloc(void *old, size_t size);
void *__libc_memalign(size_t align, size_t size);

struct kind {
    const char *variable;
    atomic_long calls;
    long refused;
};

static struct kind memory = {"REFUSE_MEMORY", 0, 0};
static struct kind reads = {"REFUSE_READ", 0, 0};
static struct kind writes = {"REFUSE_WRITE", 0, 0};
static atomic_int counts;

static void begin_kind(struct kind *kind)
{
    const char *number = getenv(kind->variable);
    kind->refused = number ? atol(number) : 0;
}

/* What was asked for before the program's own code isn't counted. */
__attribute__((constructor)) static void begin(void)
{
    begin_kind(&memory);
    begin_kind(&reads);
    begin_kind(&writes);
    atomic_store(&counts, 1);
}

/* Where the program returns from main. */
__attribute__((destructor)) static void end(void)
{
    const char *path = getenv("REFUSE_COUNTS");
    char text[100];
    atomic_store(&counts, 0);
    int file = path ? open(path, O_WRONLY | O_CREAT | O_TRUNC, 0600) : -1;
    if (file < 0)
        return;
    int len = snprintf(text, sizeof text, "memory %ld reads %ld writes %ld\n", atomic_load(&memory.calls), atomic_load(&reads.calls),
                       atomic_load(&writes.calls));
    syscall(SYS_write, file, text, len);
    close(file);
}

/* Where it ends at once. */
__attribute__((noreturn)) void _exit(int status)
{
    end();
    for (;;)
        syscall(SYS_exit_group, status);
}

static int is_refused(struct kind *kind)
{
    return atomic_load(&counts) && atomic_fetch_add(&kind->calls, 1) + 1 == kind->refused;
}

static void *no_memory(void)
{
    errno = ENOMEM;
    return NULL;
}

void *malloc(size_t size) { return is_refused(&memory) ? no_memory() : __libc_malloc(size); }

void *calloc(size_t count, size_t size) { return is_refused(&memory) ? no_memory() : __libc_calloc(count, size); }

void *realloc(void *old, size_t size) { return is_refused(&memory) ? no_memory() : __libc_realloc(old, size); }

void *memalign(size_t align, size_t size) { return is_refused(&memory) ? no_memory() : __libc_memalign(align, size); }

void *aligned_alloc(size_t align, size_t size) { return memalign(align, size); }

int posix_memalign(void **found, size_t align, size_t size)
{
    void *memory_found = memalign(align, size);
    if (!memory_found)
        return ENOMEM;
    *found = memory_found;
    return 0;
}

static ssize_t fault(void)
{
    errno = EIO;
    return -1;
}

ssize_t read(int file, void *to, size_t size) { return is_refused(&reads) ? fault() : syscall(SYS_read, file, to, size); }

ssize_t write(int file, const void *from, size_t size) { return is_refused(&writes) ? fault() : syscall(SYS_write, file, from, size); }
