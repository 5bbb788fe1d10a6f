/* Loaded before a program (LD_PRELOAD), refuses one of its allocations: that with the number in REFUSE, counted
   from 1, and where REFUSE_ALL is set each one after it too. At the end the file that REFUSE_COUNT names gets how many
   there were, and how many files were opened, reads and writes made after the first refusal, those of standard error
   aside. Allocations are calls of malloc and realloc, once the C library has begun. */
#define _GNU_SOURCE
#include <errno.h>
#include <fcntl.h>
#include <stdarg.h>
#include <stddef.h>
#include <stdio.h>
#include <stdlib.h>
#include <sys/syscall.h>
#include <unistd.h>

extern void *__libc_malloc(size_t size);
extern void *__libc_realloc(void *block, size_t size);

static unsigned long count;
static unsigned long refused;
static unsigned long later;
static int counts;
static int all;

__attribute__((constructor)) static void begin(void)
{
    const char *number = getenv("REFUSE");
    refused = number == NULL ? 0 : strtoul(number, NULL, 10);
    all = getenv("REFUSE_ALL") != NULL;
    counts = 1;
}

__attribute__((destructor)) static void end(void)
{
    counts = 0;
    const char *name = getenv("REFUSE_COUNT");
    int file = name == NULL ? -1 : open(name, O_WRONLY | O_CREAT | O_TRUNC, 0600);
    if (file >= 0) {
        char line[64];
        int length = snprintf(line, sizeof line, "%lu %lu\n", count, later);
        if (write(file, line, length) != length)
            unlink(name);
        close(file);
    }
}

static int is_refused(void)
{
    if (!counts)
        return 0;
    count += 1;
    if (refused == 0 || count < refused || (count > refused && !all))
        return 0;
    errno = ENOMEM;
    return 1;
}

void *malloc(size_t size)
{
    return is_refused() ? NULL : __libc_malloc(size);
}

void *realloc(void *block, size_t size)
{
    return is_refused() ? NULL : __libc_realloc(block, size);
}

static void notice(int file)
{
    if (counts && refused != 0 && count >= refused && file != STDERR_FILENO)
        later += 1;
}

int open(const char *name, int flags, ...)
{
    va_list rest;
    va_start(rest, flags);
    int mode = flags & (O_CREAT | O_TMPFILE) ? va_arg(rest, int) : 0;
    va_end(rest);
    notice(-1);
    return syscall(SYS_openat, AT_FDCWD, name, flags, mode);
}

ssize_t read(int file, void *bytes, size_t size)
{
    notice(file);
    return syscall(SYS_read, file, bytes, size);
}

ssize_t write(int file, const void *bytes, size_t size)
{
    notice(file);
    return syscall(SYS_write, file, bytes, size);
}

ssize_t __write(int file, const void *bytes, size_t size)
{
    return write(file, bytes, size);
}
