// Makes standard input and output of a program that it is preloaded into worse than pipes are.
//
// READ_MOST: each read of standard input returns at most this many bytes. READ_INTERRUPTED: the first read of it, and each
// second one from there on, is interrupted. READ_FAILS: when the input ends, the read fails. WRITE_ROOM: standard output takes
// this many bytes, and then each write of it fails.
#include <errno.h>
#include <stdlib.h>
#include <sys/syscall.h>
#include <unistd.h>

static int is_interrupted;
static size_t written;

static ssize_t fail(int reason) {
    errno = reason;
    return -1;
}

ssize_t read(int file, void *bytes, size_t size) {
    const char *most = getenv("READ_MOST");
    if (file != STDIN_FILENO)
        return syscall(SYS_read, file, bytes, size);
    is_interrupted = !is_interrupted;
    if (is_interrupted && getenv("READ_INTERRUPTED") != NULL)
        return fail(EINTR);
    if (most != NULL && size > (size_t)atol(most))
        size = (size_t)atol(most);
    ssize_t count = syscall(SYS_read, file, bytes, size);
    return count == 0 && size > 0 && getenv("READ_FAILS") != NULL ? fail(EIO) : count;
}

ssize_t write(int file, const void *bytes, size_t size) {
    const char *room = getenv("WRITE_ROOM");
    if (file != STDOUT_FILENO || room == NULL)
        return syscall(SYS_write, file, bytes, size);
    size_t left = (size_t)atol(room) - written;
    if (size > 0 && left == 0)
        return fail(ENOSPC);
    ssize_t count = syscall(SYS_write, file, bytes, size < left ? size : left);
    written += count > 0 ? (size_t)count : 0;
    return count;
}
