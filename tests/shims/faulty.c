/* A library that stands before read and write and lets calls fail (tests/outside/devices).
 *
 * FAULTY_CALL is 'read' or 'write', FAULTY_AT=n the n-th such call of the process, from 1; 0 is none. FAULTY_KIND says what
 * becomes of it: 'error' is EIO, 'none' is no byte; with 'one' it moves one byte at most, and so does every later one.
 * FAULTY_TO is a file of at least 16 bytes: the number of calls and of those that were changed are kept there, however the
 * process ends.
 */
#include <errno.h>
#include <fcntl.h>
#include <stdatomic.h>
#include <stdlib.h>
#include <string.h>
#include <sys/mman.h>
#include <sys/syscall.h>
#include <unistd.h>

static struct counts { atomic_ulong calls, faults; } *counts;
static unsigned long at;
static char call, kind;

/* Without its words the process ends at once, so that no run passes for one without a fault. */
__attribute__((constructor)) static void start(void) {
    const char *path = getenv("FAULTY_TO"), *number = getenv("FAULTY_AT");
    const char *which = getenv("FAULTY_CALL"), *how = getenv("FAULTY_KIND");
    int file = path ? open(path, O_RDWR | O_CLOEXEC) : -1;
    void *place = mmap(NULL, sizeof *counts, PROT_READ | PROT_WRITE, MAP_SHARED, file, 0);
    if (place == MAP_FAILED || close(file) || !number || !which || !how) _exit(99);
    at = strtoul(number, NULL, 10);
    call = which[0];
    kind = how[0];
    counts = place;
}

/* How many bytes a call may move; -1 where it fails, with errno. */
static ssize_t allowed(char which, size_t size) {
    if (!counts || which != call) return (ssize_t)size;
    unsigned long number = atomic_fetch_add(&counts->calls, 1) + 1;
    if (!at || number < at || (number > at && kind != 'o')) return (ssize_t)size;
    atomic_fetch_add(&counts->faults, 1);
    errno = EIO;
    return kind == 'o' ? size > 0 : kind == 'n' ? 0 : -1;
}

ssize_t read(int file, void *to, size_t size) {
    ssize_t most = allowed('r', size);
    return most <= 0 ? most : syscall(SYS_read, file, to, (size_t)most);
}

ssize_t write(int file, const void *from, size_t size) {
    ssize_t most = allowed('w', size);
    return most <= 0 ? most : syscall(SYS_write, file, from, (size_t)most);
}

ssize_t __write(int file, const void *from, size_t size) { return write(file, from, size); }
