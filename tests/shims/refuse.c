/* A library that stands before malloc and refuses requests for memory (tests/outside/memory).
 *
 * REFUSE_AT=n refuses the n-th request of the process, from 1; 0 refuses none. REFUSE_ALL=1 refuses every later one too.
 * REFUSE_TO is a file of at least 16 bytes: the number of requests and that of refusals are kept there, however the process ends.
 *
 * A request is a call of malloc, calloc, realloc, aligned_alloc or posix_memalign, of the program or of the C library for it,
 * from any thread. A reallocation to no bytes frees, and isn't counted.
 */
#include <errno.h>
#include <fcntl.h>
#include <stdatomic.h>
#include <stddef.h>
#include <stdlib.h>
#include <sys/mman.h>
#include <unistd.h>

extern void *__libc_malloc(size_t), *__libc_calloc(size_t, size_t);
extern void *__libc_realloc(void *, size_t), *__libc_memalign(size_t, size_t);

static struct counts { atomic_ulong requests, refusals; } *counts;
static unsigned long at;
static int all;

/* Without its file the process ends at once, so that no run passes for one without refusals. */
__attribute__((constructor)) static void start(void) {
    const char *number = getenv("REFUSE_AT"), *path = getenv("REFUSE_TO");
    int file = path ? open(path, O_RDWR | O_CLOEXEC) : -1;
    void *place = mmap(NULL, sizeof *counts, PROT_READ | PROT_WRITE, MAP_SHARED, file, 0);
    if (place == MAP_FAILED || close(file)) _exit(99);
    at = number ? strtoul(number, NULL, 10) : 0;
    all = getenv("REFUSE_ALL") != NULL;
    counts = place;
}

static int refuses(void) {
    if (!counts) return 0;
    unsigned long number = atomic_fetch_add(&counts->requests, 1) + 1;
    if (!at || number < at || (number > at && !all)) return 0;
    atomic_fetch_add(&counts->refusals, 1);
    errno = ENOMEM;
    return 1;
}

void *malloc(size_t size) { return refuses() ? NULL : __libc_malloc(size); }
void *calloc(size_t count, size_t size) { return refuses() ? NULL : __libc_calloc(count, size); }
void *realloc(void *old, size_t size) { return size && refuses() ? NULL : __libc_realloc(old, size); }
void *aligned_alloc(size_t alignment, size_t size) { return refuses() ? NULL : __libc_memalign(alignment, size); }

int posix_memalign(void **place, size_t alignment, size_t size) {
    void *made = refuses() ? NULL : __libc_memalign(alignment, size);
    if (!made) return ENOMEM;
    *place = made;
    return 0;
}
