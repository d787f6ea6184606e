/* Loaded before the C library into a program under test, which it makes fail where the file FAULTS says so.
 *
 * tests/faults.py compiles it, and writes and reads the fields of the file. A count of 3 lets the third call from then on
 * fail, and no other; 0 lets none fail. */
#define _GNU_SOURCE
#include <errno.h>
#include <fcntl.h>
#include <malloc.h>
#include <stdatomic.h>
#include <stdio.h>
#include <stdlib.h>
#include <string.h>
#include <sys/mman.h>
#include <sys/stat.h>
#include <sys/syscall.h>
#include <unistd.h>

struct faults {
    atomic_long allocations; /* of all threads where `everywhere` is 1, else of those that have read something */
    atomic_long everywhere;
    atomic_long syncs;
    atomic_long writes; /* to files: those to sockets and pipes are not counted */
    atomic_long failed; /* how many calls have failed */
    atomic_long synced; /* the length of the file p.pad that the last sync of it found */
    atomic_long error; /* of the write that fails; 0 is EIO */
    atomic_long room; /* the bytes that files have room for, and one more; 0 sets no bound */
    atomic_long syncs_made;
    atomic_long large; /* the bytes of all blocks of at least LARGE bytes that are not freed */
    atomic_long held; /* syncs wait until it is 0, and make it 2 if it is 1 */
};

#define LARGE (1 << 20)

/* The most bytes that are kept of a client's room while nothing comes. */
#define KEPT_IDLE 1024

static struct faults *faults;
static __thread int has_read __attribute__((tls_model("initial-exec")));

void *__libc_malloc(size_t size);
void *__libc_realloc(void *block, size_t size);
void *__libc_calloc(size_t count, size_t size);
void __libc_free(void *block);

__attribute__((constructor)) static void open_faults(void)
{
    const char *path = getenv("FAULTS");
    int file = path ? open(path, O_RDWR | O_CLOEXEC) : -1;
    if (file < 0)
        abort();
    void *at = mmap(NULL, sizeof *faults, PROT_READ | PROT_WRITE, MAP_SHARED, file, 0);
    if (at == MAP_FAILED)
        abort();
    close(file);
    faults = at;
}

/* Whether this call is the one that is to fail. */
static int fails(atomic_long *count)
{
    long left = atomic_load(count);
    while (left > 0)
        if (atomic_compare_exchange_weak(count, &left, left - 1)) {
            if (left == 1)
                atomic_fetch_add(&faults->failed, 1);
            return left == 1;
        }
    return 0;
}

static int is_refused(void)
{
    return faults && (has_read || atomic_load(&faults->everywhere)) && fails(&faults->allocations);
}

/* The bytes of a block, if it is a large one. */
static long large_size(void *block)
{
    long size = block ? malloc_usable_size(block) : 0;
    return size >= LARGE ? size : 0;
}

static void *counted(void *block)
{
    long size = large_size(block);
    if (faults && size > 0)
        atomic_fetch_add(&faults->large, size);
    return block;
}

void free(void *block)
{
    long size = large_size(block);
    if (faults && size > 0)
        atomic_fetch_sub(&faults->large, size);
    __libc_free(block);
}

void *calloc(size_t count, size_t size)
{
    return counted(__libc_calloc(count, size));
}

void *malloc(size_t size)
{
    if (is_refused()) {
        errno = ENOMEM;
        return NULL;
    }
    return counted(__libc_malloc(size));
}

/* Whether a call gives room back that a client does not need while nothing comes. A worker does that once a second, at any
 * time, so it is never refused: what is refused is then a request's own. */
static int gives_back(void *block, size_t size)
{
    return block && size <= KEPT_IDLE && size <= malloc_usable_size(block);
}

void *realloc(void *block, size_t size)
{
    if (size > 0 && !gives_back(block, size) && is_refused()) {
        errno = ENOMEM;
        return NULL;
    }
    long before = large_size(block);
    void *moved = __libc_realloc(block, size);
    if (!moved && size > 0)
        return NULL;
    if (faults && before > 0)
        atomic_fetch_sub(&faults->large, before);
    return counted(moved);
}

ssize_t read(int file, void *to, size_t size)
{
    ssize_t count = syscall(SYS_read, file, to, size);
    has_read |= count > 0;
    return count;
}

ssize_t recv(int file, void *to, size_t size, int flags)
{
    ssize_t count = syscall(SYS_recvfrom, file, to, size, flags, NULL, NULL);
    has_read |= count > 0;
    return count;
}

/* The length of a file on the disk; -1 for a pipe, a socket or a device. */
static long length_of_file(int file)
{
    struct stat state;
    return fstat(file, &state) == 0 && S_ISREG(state.st_mode) ? state.st_size : -1;
}

/* How many of so many bytes there is room for, which are then taken. */
static long take_room(long size)
{
    long room = atomic_load(&faults->room);
    while (room > 0) {
        long taken = size < room - 1 ? size : room - 1;
        if (atomic_compare_exchange_weak(&faults->room, &room, room - taken))
            return taken;
    }
    return size;
}

ssize_t write(int file, const void *from, size_t size)
{
    if (faults && size > 0 && (atomic_load(&faults->writes) > 0 || atomic_load(&faults->room) > 0) && length_of_file(file) >= 0) {
        if (fails(&faults->writes)) {
            errno = atomic_load(&faults->error) ? atomic_load(&faults->error) : EIO;
            return -1;
        }
        size = take_room(size);
        if (size == 0) {
            errno = ENOSPC;
            return -1;
        }
    }
    return syscall(SYS_write, file, from, size);
}

/* Gives the room of what is cut off back. */
static int cut(int file, off_t length)
{
    long before = length_of_file(file);
    int result = syscall(SYS_ftruncate, file, length);
    if (faults && result == 0 && before > length && atomic_load(&faults->room) > 0)
        atomic_fetch_add(&faults->room, before - length);
    return result;
}

int ftruncate(int file, off_t length)
{
    return cut(file, length);
}

int ftruncate64(int file, off_t length)
{
    return cut(file, length);
}

/* The length of a file, if it is p.pad, else 0. */
static long length_of_pad(int file)
{
    char link[64], path[4096];
    struct stat state;
    snprintf(link, sizeof link, "/proc/self/fd/%d", file);
    ssize_t length = readlink(link, path, sizeof path - 1);
    if (length < 6 || fstat(file, &state) != 0)
        return 0;
    path[length] = 0;
    return strcmp(path + length - 6, "/p.pad") == 0 ? state.st_size : 0;
}

static void wait_while_held(void)
{
    while (faults && atomic_load(&faults->held) != 0) {
        long one = 1;
        atomic_compare_exchange_strong(&faults->held, &one, 2);
        usleep(1000);
    }
}

static int sync_by(long call, int file)
{
    wait_while_held();
    if (faults && fails(&faults->syncs)) {
        errno = EIO;
        return -1;
    }
    long length = length_of_pad(file);
    int result = syscall(call, file);
    if (faults)
        atomic_fetch_add(&faults->syncs_made, 1);
    if (faults && result == 0 && length > atomic_load(&faults->synced))
        atomic_store(&faults->synced, length);
    return result;
}

int fsync(int file)
{
    return sync_by(SYS_fsync, file);
}

int fdatasync(int file)
{
    return sync_by(SYS_fdatasync, file);
}
