/* Stands before the C library's calls for memory (LD_PRELOAD), counts them once the program runs, and refuses some.
 *
 * REFUSE_AT=N: the call N is refused, counted from 1, and with REFUSE_ALL=1 all behind it too. REFUSE_COUNT=FILE: the number of calls
 * stands in the eight bytes of that file at any time, so that it is there however the program ends. */
#define _GNU_SOURCE
#include <errno.h>
#include <fcntl.h>
#include <stdatomic.h>
#include <stdint.h>
#include <stdlib.h>
#include <sys/mman.h>
#include <sys/syscall.h>
#include <unistd.h>

extern void *__libc_malloc(size_t);
extern void *__libc_calloc(size_t, size_t);
extern void *__libc_realloc(void *, size_t);
extern void *__libc_memalign(size_t, size_t);

static _Atomic uint64_t *count;
static uint64_t refused;
static int all_behind;

__attribute__((constructor)) static void begin(void) {
    const char *at = getenv("REFUSE_AT"), *all = getenv("REFUSE_ALL"), *name = getenv("REFUSE_COUNT");
    int file = name ? open(name, O_RDWR | O_CLOEXEC) : -1;
    if (file < 0) _exit(99);
    void *room = (void *)syscall(SYS_mmap, NULL, 8, PROT_READ | PROT_WRITE, MAP_SHARED, file, 0);
    if (room == MAP_FAILED) _exit(99);
    close(file);
    refused = at ? strtoull(at, NULL, 10) : 0;
    all_behind = all && *all == '1';
    count = room;
}

static int is_refused(void) {
    if (!count) return 0;
    uint64_t number = atomic_fetch_add(count, 1) + 1;
    return refused && (all_behind ? number >= refused : number == refused);
}

static void *no_memory(void) {
    errno = ENOMEM;
    return NULL;
}

void *malloc(size_t size) {
    return is_refused() ? no_memory() : __libc_malloc(size);
}

void *calloc(size_t number, size_t size) {
    return is_refused() ? no_memory() : __libc_calloc(number, size);
}

void *realloc(void *block, size_t size) {
    return is_refused() ? no_memory() : __libc_realloc(block, size);
}

void *aligned_alloc(size_t alignment, size_t size) {
    return is_refused() ? no_memory() : __libc_memalign(alignment, size);
}

void *memalign(size_t alignment, size_t size) {
    return is_refused() ? no_memory() : __libc_memalign(alignment, size);
}

int posix_memalign(void **block, size_t alignment, size_t size) {
    void *made = is_refused() ? NULL : __libc_memalign(alignment, size);
    if (!made) return ENOMEM;
    *block = made;
    return 0;
}
