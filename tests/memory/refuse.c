/* Counts a program's requests for memory, and refuses one of them. Built as a shared library and named by LD_PRELOAD.
 *
 * REFUSE=n          the n-th malloc, calloc or realloc answers null
 * REFUSE_AFTER=line requests count only once this line was written to the standard output
 * REFUSE_UNTIL=line and only until this line was written
 * REFUSE_TELL=file  gets the count of requests, the greatest and the sum of all, in bytes, at the end
 */
#define _GNU_SOURCE
#include <dlfcn.h>
#include <stdio.h>
#include <stdlib.h>
#include <string.h>
#include <unistd.h>

extern void *__libc_malloc(size_t);
extern void *__libc_calloc(size_t, size_t);
extern void *__libc_realloc(void *, size_t);

static unsigned long refused, count, greatest, sum;
static const char *after, *until;
static int counts;
static ssize_t (*next_write)(int, const void *, size_t);

__attribute__((constructor)) static void begin(void) {
    const char *n = getenv("REFUSE");
    next_write = (ssize_t (*)(int, const void *, size_t))dlsym(RTLD_NEXT, "write");
    refused = n ? strtoul(n, NULL, 10) : 0;
    after = getenv("REFUSE_AFTER");
    until = getenv("REFUSE_UNTIL");
    counts = !after;
}

/* Counts a request, and says whether it is refused. */
static int refuses(size_t size) {
    if (!counts) return 0;
    count++;
    sum += size;
    if (size > greatest) greatest = size;
    return count == refused;
}

void *malloc(size_t size) { return refuses(size) ? NULL : __libc_malloc(size); }
void *calloc(size_t n, size_t size) { return refuses(n * size) ? NULL : __libc_calloc(n, size); }
void *realloc(void *old, size_t size) { return refuses(size) ? NULL : __libc_realloc(old, size); }

/* Whether these bytes are the line. */
static int is_line(const char *line, const char *bytes, size_t n) {
    return line && n == strlen(line) + 1 && !memcmp(line, bytes, n - 1) && bytes[n - 1] == '\n';
}

ssize_t write(int file, const void *bytes, size_t n) {
    if (file == STDOUT_FILENO && is_line(after, bytes, n)) counts = 1;
    if (file == STDOUT_FILENO && is_line(until, bytes, n)) counts = 0;
    return next_write(file, bytes, n);
}

__attribute__((destructor)) static void end(void) {
    const char *path = getenv("REFUSE_TELL");
    counts = 0;
    FILE *told = path ? fopen(path, "w") : NULL;
    if (!told) return;
    fprintf(told, "%lu %lu %lu\n", count, greatest, sum);
    fclose(told);
}
