// Counts the requests for memory of a program that it is preloaded into, refuses them, and says what was never given back.
//
// The program marks each call by a write of no bytes to standard output, right before it, and one that may be refused memory by
// two. From the mark to the end of the line that it writes then, its requests are counted. The line gets two fields more,
// ` | requests N | peak BYTES`: the peak is how many bytes more than before the call were granted at a time. A block that gets
// another size counts twice meanwhile. Of the requests of a call that was marked twice those from REFUSE_FROM to REFUSE_TO,
// counted from 1 in the call, return NULL.
//
// With REFUSE_UNMARKED nothing is marked: all requests of the program are counted, from its start. Those from REFUSE_FROM to
// REFUSE_TO return NULL, and a line on standard error tells of each.
//
// A request is a `malloc`, a `calloc`, or a `realloc` to a size above 0. If the program ends and has not freed all blocks that
// it was granted, the last line of its output is `kept N blocks`.
#include <errno.h>
#include <stdio.h>
#include <stdlib.h>
#include <string.h>
#include <sys/syscall.h>
#include <unistd.h>

extern void *__libc_malloc(size_t size);
extern void __libc_free(void *block);

// How often the call was marked whose line is not yet written to its end, and the requests since.
static int marks;
static long requests;
// How many blocks are granted and not freed, and their bytes.
static long blocks, granted;
// These bytes when the call was marked, and the most that they were since.
static long granted_before, most_granted;
// Before each block stands its size, in as many bytes as blocks are aligned to.
enum { HEAD = 16 };

// The number that a variable of the environment gives, or 0.
static long number(const char *name) {
    const char *text = getenv(name);
    return text == NULL ? 0 : atol(text);
}

static int is_refused(void) {
    int is_unmarked = number("REFUSE_UNMARKED");
    requests++;
    if ((!is_unmarked && marks < 2) || requests < number("REFUSE_FROM") || requests > number("REFUSE_TO"))
        return 0;
    if (is_unmarked)
        syscall(SYS_write, STDERR_FILENO, "refused\n", 8);
    errno = ENOMEM;
    return 1;
}

void *malloc(size_t size) {
    long *head = is_refused() ? NULL : __libc_malloc(HEAD + size);
    if (head == NULL)
        return NULL;
    *head = size;
    blocks++;
    granted += size;
    if (most_granted < granted)
        most_granted = granted;
    return (char *)head + HEAD;
}

void *calloc(size_t count, size_t size) {
    void *block = malloc(count * size);
    return block == NULL ? NULL : memset(block, 0, count * size);
}

void free(void *block) {
    long *head = (long *)((char *)block - HEAD);
    if (block == NULL)
        return;
    blocks--;
    granted -= *head;
    __libc_free(head);
}

void *realloc(void *block, size_t size) {
    if (size == 0) {
        free(block);
        return NULL;
    }
    void *moved = malloc(size);
    if (moved != NULL && block != NULL) {
        long before = *(long *)((char *)block - HEAD);
        memcpy(moved, block, before < (long)size ? before : (long)size);
        free(block);
    }
    return moved;
}

static int write_all(const char *bytes, size_t size) {
    while (size > 0) {
        ssize_t written = syscall(SYS_write, STDOUT_FILENO, bytes, size);
        if (written < 0)
            return 0;
        bytes += written;
        size -= written;
    }
    return 1;
}

// Writes bytes that have the end of the line of the marked call, with its requests and its peak before that end.
static ssize_t write_with_fields(const char *bytes, size_t size, const char *end) {
    char fields[80];
    int length = snprintf(fields, sizeof fields, " | requests %ld | peak %ld", requests, most_granted - granted_before);
    marks = 0;
    int is_written = write_all(bytes, end - bytes) && write_all(fields, length) && write_all(end, bytes + size - end);
    return is_written ? (ssize_t)size : -1;
}

ssize_t write(int file, const void *bytes, size_t size) {
    if (file != STDOUT_FILENO || number("REFUSE_UNMARKED"))
        return syscall(SYS_write, file, bytes, size);
    if (size == 0) {
        marks++;
        requests = 0;
        granted_before = most_granted = granted;
        return 0;
    }
    const char *end = marks > 0 ? memchr(bytes, '\n', size) : NULL;
    return end == NULL ? syscall(SYS_write, file, bytes, size) : write_with_fields(bytes, size, end);
}

__attribute__((destructor)) static void tell_what_is_kept(void) {
    char line[40];
    if (blocks != 0)
        write_all(line, snprintf(line, sizeof line, "kept %ld blocks\n", blocks));
}
