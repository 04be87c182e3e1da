/* Stands before the C library of a program: refuses one growth of its memory, one read of its standard
   input or one write of its standard output, or makes each read and write short.

   REFUSE_GROWTH=N, REFUSE_READ=N, REFUSE_WRITE=N: the Nth is refused, counted from 1.
   SHORT=1: each read and each write is of one octet.
   REFUSE_REPORT=FILE: how many growths, reads and writes were asked for is written there at the end. */
#define _GNU_SOURCE
#include <errno.h>
#include <fcntl.h>
#include <stdio.h>
#include <stdlib.h>
#include <sys/syscall.h>
#include <unistd.h>

extern void *__libc_malloc(size_t);
extern void *__libc_calloc(size_t, size_t);
extern void *__libc_realloc(void *, size_t);

static long refuse_growth, refuse_read, refuse_write, is_short, growths, reads, writes;
static const char *report;
static int ready;

static long number(const char *name) {
    const char *text = getenv(name);
    return text ? atol(text) : 0;
}

__attribute__((constructor)) static void begin(void) {
    refuse_growth = number("REFUSE_GROWTH");
    refuse_read = number("REFUSE_READ");
    refuse_write = number("REFUSE_WRITE");
    is_short = number("SHORT");
    report = getenv("REFUSE_REPORT");
    ready = 1;
}

__attribute__((destructor)) static void end(void) {
    if (!report) return;
    char line[96];
    int len = snprintf(line, sizeof line, "%ld %ld %ld\n", growths, reads, writes);
    int file = open(report, O_WRONLY | O_CREAT | O_TRUNC, 0644);
    if (file >= 0) {
        syscall(SYS_write, file, line, len);
        close(file);
    }
}

/* A program that ends at once runs no destructor. */
void _exit(int status) {
    end();
    syscall(SYS_exit_group, status);
    __builtin_unreachable();
}

void _Exit(int status) { _exit(status); }

static int refused(void) {
    if (!ready || __atomic_add_fetch(&growths, 1, __ATOMIC_SEQ_CST) != refuse_growth) return 0;
    errno = ENOMEM;
    return 1;
}

void *malloc(size_t size) { return refused() ? NULL : __libc_malloc(size); }
void *calloc(size_t count, size_t size) { return refused() ? NULL : __libc_calloc(count, size); }
void *realloc(void *old, size_t size) { return refused() ? NULL : __libc_realloc(old, size); }

ssize_t read(int file, void *to, size_t size) {
    if (file == STDIN_FILENO && ready) {
        if (++reads == refuse_read) {
            errno = EIO;
            return -1;
        }
        if (is_short && size > 1) size = 1;
    }
    return syscall(SYS_read, file, to, size);
}

ssize_t write(int file, const void *from, size_t size) {
    if (file == STDOUT_FILENO && ready) {
        if (++writes == refuse_write) {
            errno = EIO;
            return -1;
        }
        if (is_short && size > 1) size = 1;
    }
    return syscall(SYS_write, file, from, size);
}
