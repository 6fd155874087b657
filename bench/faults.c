/* Faults for a program that it is loaded before (LD_PRELOAD), each by a variable of the environment:
 *
 * NO_MEMORY=N    the allocation of that number, from 1, is refused
 * NO_MORE=N      and so are all behind it
 * BAD_READ=N, BAD_WRITE=N     the read or the write of that number fails
 * NO_WRITE=N     and so do all writes behind it
 * BUSY_READ=N, BUSY_WRITE=N   each one whose number N divides is interrupted
 * MOST=N         a read and a write take N bytes at most
 *
 * With TELL=FD a byte is written to that descriptor at each fault. */
#define _GNU_SOURCE
#include <errno.h>
#include <stdatomic.h>
#include <stddef.h>
#include <stdlib.h>
#include <sys/syscall.h>
#include <unistd.h>

void *__libc_malloc(size_t size);
void *__libc_calloc(size_t count, size_t size);
void *__libc_realloc(void *old, size_t size);
void *__libc_memalign(size_t align, size_t size);

static unsigned long no_memory, no_more, bad_read, bad_write, no_write, busy_read, busy_write, most;
static long tell = -1;
static atomic_ulong allocations, reads, writes;

static unsigned long number(const char *name, unsigned long without)
{
    const char *text = getenv(name);
    return text ? strtoul(text, NULL, 10) : without;
}

__attribute__((constructor)) static void begin(void)
{
    no_memory = number("NO_MEMORY", 0);
    no_more = number("NO_MORE", 0);
    bad_read = number("BAD_READ", 0);
    bad_write = number("BAD_WRITE", 0);
    no_write = number("NO_WRITE", 0);
    busy_read = number("BUSY_READ", 0);
    busy_write = number("BUSY_WRITE", 0);
    most = number("MOST", 0);
    tell = (long)number("TELL", -1ul);
    allocations = reads = writes = 0;
}

static int fault(int error)
{
    if (tell >= 0)
        syscall(SYS_write, tell, "!", 1);
    errno = error;
    return 1;
}

static int refused(void)
{
    unsigned long call = ++allocations;
    return (call == no_memory || (no_more && call >= no_more)) && fault(ENOMEM);
}

void *malloc(size_t size) { return refused() ? NULL : __libc_malloc(size); }
void *calloc(size_t count, size_t size) { return refused() ? NULL : __libc_calloc(count, size); }
void *realloc(void *old, size_t size) { return refused() ? NULL : __libc_realloc(old, size); }
void *memalign(size_t align, size_t size) { return refused() ? NULL : __libc_memalign(align, size); }
void *aligned_alloc(size_t align, size_t size) { return memalign(align, size); }

int posix_memalign(void **out, size_t align, size_t size)
{
    *out = memalign(align, size);
    return *out ? 0 : ENOMEM;
}

static int stopped(unsigned long call, unsigned long bad, unsigned long end, unsigned long busy)
{
    return call == bad || (end && call >= end) ? fault(EIO) : busy && call % busy == 0 && fault(EINTR);
}

static size_t piece(size_t size) { return most && size > most ? most : size; }

ssize_t read(int file, void *bytes, size_t size)
{
    return stopped(++reads, bad_read, 0, busy_read) ? -1 : syscall(SYS_read, file, bytes, piece(size));
}

ssize_t write(int file, const void *bytes, size_t size)
{
    return stopped(++writes, bad_write, no_write, busy_write) ? -1 : syscall(SYS_write, file, bytes, piece(size));
}

ssize_t __write(int file, const void *bytes, size_t size) { return write(file, bytes, size); }
