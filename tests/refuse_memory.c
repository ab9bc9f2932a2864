// Refuses memory to the program that it is loaded before (LD_PRELOAD), and tells how often memory was asked for.
//
// REFUSE_FROM is the number, from 1, of the first call that is refused, and REFUSE_TO that of the last one. Nothing is refused where
// REFUSE_FROM isn't given, and all calls from that one on where REFUSE_TO isn't.
//
// Each call of malloc, calloc, realloc, reallocarray, posix_memalign, aligned_alloc and memalign counts, whatever its size, also one that makes
// a block smaller; a realloc to size 0 doesn't, since it gives memory back. Calls count from the start of this object, which comes after the
// loader's work and before any function of the program, to its end, which comes after `main`. A refused call gives NULL and sets ENOMEM
// (posix_memalign gives ENOMEM); the block that a refused realloc was to change is left alone. All else, and `free`, is the C library's.
//
// REFUSE_TOLD is a file that is made at the end. It has one line: the number of calls, a space, and how many of them were refused.
//
// The C library's own names are called (__libc_malloc and others of glibc), since a look-up of them might ask for memory.

#include <errno.h>
#include <limits.h>
#include <stdbool.h>
#include <stddef.h>
#include <stdint.h>
#include <stdio.h>
#include <stdlib.h>
#include <unistd.h>

void *__libc_malloc(size_t size);
void *__libc_calloc(size_t count, size_t size);
void *__libc_realloc(void *block, size_t size);
void *__libc_memalign(size_t alignment, size_t size);

// Not in the headers of C11 and POSIX.
void *memalign(size_t alignment, size_t size);
void *reallocarray(void *block, size_t count, size_t size);

static bool counting;
static unsigned long calls;
static unsigned long refusals;
static unsigned long first;
static unsigned long last;

static unsigned long number_in(const char *variable, unsigned long otherwise) {
    const char *text = getenv(variable);
    return text ? strtoul(text, NULL, 10) : otherwise;
}

__attribute__((constructor)) static void start(void) {
    first = number_in("REFUSE_FROM", ULONG_MAX);
    last = number_in("REFUSE_TO", ULONG_MAX);
    counting = true;
}

__attribute__((destructor)) static void tell(void) {
    counting = false;
    const char *told = getenv("REFUSE_TOLD");
    if (!told) return;
    FILE *file = fopen(told, "w");
    if (!file || fprintf(file, "%lu %lu\n", calls, refusals) < 0 || fclose(file)) _exit(99);
}

// Counts a call, and says whether it is refused.
static bool refuses(void) {
    if (!counting) return false;
    calls++;
    if (calls < first || calls > last) return false;
    refusals++;
    errno = ENOMEM;
    return true;
}

void *malloc(size_t size) {
    return refuses() ? NULL : __libc_malloc(size);
}

void *calloc(size_t count, size_t size) {
    return refuses() ? NULL : __libc_calloc(count, size);
}

void *realloc(void *block, size_t size) {
    if (block && size == 0) return __libc_realloc(block, size);
    return refuses() ? NULL : __libc_realloc(block, size);
}

void *reallocarray(void *block, size_t count, size_t size) {
    if (size && count > SIZE_MAX / size) {
        errno = ENOMEM;
        return NULL;
    }
    return realloc(block, count * size);
}

void *memalign(size_t alignment, size_t size) {
    return refuses() ? NULL : __libc_memalign(alignment, size);
}

void *aligned_alloc(size_t alignment, size_t size) {
    return memalign(alignment, size);
}

int posix_memalign(void **block, size_t alignment, size_t size) {
    if (alignment < sizeof(void *) || (alignment & (alignment - 1))) return EINVAL;
    const int before = errno;
    void *const memory = memalign(alignment, size);
    errno = before;
    if (!memory) return ENOMEM;
    *block = memory;
    return 0;
}
