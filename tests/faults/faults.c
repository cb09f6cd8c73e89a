/* Faults for tests/faults/run.py, preloaded in front of the C library's read of descriptor 0 and write of descriptor 1.

   FAULTS in the environment is a list, "CALL KIND FROM ERROR COUNT; ..": CALL is read or write, FROM counts its calls from 1.

   fail   COUNT calls fail with the errno ERROR
   wait   for COUNT ms each call fails with ERROR
   short  each call moves at most COUNT bytes
   cut    one call moves COUNT bytes, and each behind it fails with ERROR
   zero   each call answers 0 and moves nothing */
#define _GNU_SOURCE
#include <errno.h>
#include <stdint.h>
#include <stdio.h>
#include <stdlib.h>
#include <string.h>
#include <sys/syscall.h>
#include <time.h>
#include <unistd.h>

static long now_ms(void)
{
    struct timespec time;
    clock_gettime(CLOCK_MONOTONIC, &time);
    return time.tv_sec * 1000 + time.tv_nsec / 1000000;
}

/* Whether a fault makes this call fail; it may move the limit on its bytes down. */
static int fails(const char *kind, long call, long from, long count, size_t *most)
{
    static long began;
    if (call < from)
        return 0;
    if (strcmp(kind, "wait") == 0) {
        if (began == 0)
            began = now_ms();
        return now_ms() < began + count;
    }
    if (strcmp(kind, "cut") == 0 && call > from)
        return 1;
    if (strcmp(kind, "short") == 0 || strcmp(kind, "cut") == 0)
        *most = *most < (size_t)count ? *most : (size_t)count;
    if (strcmp(kind, "zero") == 0)
        *most = 0;
    return strcmp(kind, "fail") == 0 && call < from + count;
}

/* A call that does not fail leaves errno as it was: sscanf would not. */
static ssize_t moved(const char *name, int number, long call, int fd, uintptr_t bytes, size_t most)
{
    int before = errno;
    const char *list = getenv("FAULTS");
    char which[8], kind[8];
    long from, error, count;
    size_t asked = most;
    int length;
    while (list && sscanf(list, " %7s %7s %ld %ld %ld%n", which, kind, &from, &error, &count, &length) == 5) {
        if (strcmp(which, name) == 0 && fails(kind, call, from, count, &most)) {
            errno = (int)error;
            return -1;
        }
        list += length;
        list += *list == ';';
    }
    errno = before;
    return most == 0 && asked > 0 ? 0 : syscall(number, fd, bytes, most);
}

ssize_t read(int fd, void *bytes, size_t most)
{
    static long calls;
    return fd == 0 ? moved("read", SYS_read, ++calls, fd, (uintptr_t)bytes, most) : syscall(SYS_read, fd, bytes, most);
}

ssize_t write(int fd, const void *bytes, size_t most)
{
    static long calls;
    return fd == 1 ? moved("write", SYS_write, ++calls, fd, (uintptr_t)bytes, most) : syscall(SYS_write, fd, bytes, most);
}
