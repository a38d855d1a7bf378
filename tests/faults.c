/*
 * Reads and writes that fail, for tests: a library to preload. FAULTS says what happens in the program that FAULTS_IN
 * names: a list of words, one for each call of read on standard input and of write on standard output:
 *
 *     r4      a read moves at most 4 bytes       w4      a write moves at most 4 bytes
 *     rEINTR  a read fails with EINTR            wEINTR  a write fails so; EAGAIN, EIO, ENOSPC likewise
 *
 * The last word of each kind holds for all later calls. Other descriptors and programs are left alone.
 */
#define _GNU_SOURCE
#include <dlfcn.h>
#include <errno.h>
#include <stdlib.h>
#include <string.h>
#include <unistd.h>

/* The word for the call-th call of this kind; its length in *length. NULL where there is none. */
static const char *word_for(char kind, unsigned call, size_t *length)
{
    const char *at = getenv("FAULTS");
    const char *here = getenv("FAULTS_IN");
    const char *last = NULL;
    unsigned seen = 0;

    if (!at || !here || strcmp(here, program_invocation_short_name) != 0)
        return NULL;
    while (*at) {
        size_t n = strcspn(at, " ");
        if (*at == kind && (!last || seen <= call)) {
            last = at;
            *length = n;
            seen++;
        }
        at += n + (at[n] == ' ');
    }
    return last;
}

/* The bytes that may be moved, or -1 with errno set. */
static ssize_t allowed(char kind, unsigned call, size_t count)
{
    size_t length = 0;
    const char *word = word_for(kind, call, &length);
    size_t most;

    if (!word)
        return (ssize_t)count;
    if (strncmp(word + 1, "EINTR", length - 1) == 0) {
        errno = EINTR;
        return -1;
    }
    if (strncmp(word + 1, "EAGAIN", length - 1) == 0) {
        errno = EAGAIN;
        return -1;
    }
    if (strncmp(word + 1, "EIO", length - 1) == 0) {
        errno = EIO;
        return -1;
    }
    if (strncmp(word + 1, "ENOSPC", length - 1) == 0) {
        errno = ENOSPC;
        return -1;
    }
    most = strtoul(word + 1, NULL, 10);
    return (ssize_t)(count < most ? count : most);
}

ssize_t read(int fd, void *buffer, size_t count)
{
    static ssize_t (*next)(int, void *, size_t);
    static unsigned calls;
    ssize_t most = (ssize_t)count;

    if (!next)
        *(void **)&next = dlsym(RTLD_NEXT, "read");
    if (fd == STDIN_FILENO)
        most = allowed('r', calls++, count);
    return most < 0 ? -1 : next(fd, buffer, (size_t)most);
}

ssize_t write(int fd, const void *buffer, size_t count)
{
    static ssize_t (*next)(int, const void *, size_t);
    static unsigned calls;
    ssize_t most = (ssize_t)count;

    if (!next)
        *(void **)&next = dlsym(RTLD_NEXT, "write");
    if (fd == STDOUT_FILENO)
        most = allowed('w', calls++, count);
    return most < 0 ? -1 : next(fd, buffer, (size_t)most);
}
