// Stands between a program and the C library, and makes some of its calls fail. hostile.py compiles it, preloads it, and says by the environment
// what is to fail.
//
// HOSTILE_KIND   which calls count: memory (also a thread that is to be made), device (calls of a file), source (reads of standard input), sink
//                (writes of standard output)
// HOSTILE_FIRST  the first of these that fails, from 1
// HOSTILE_LAST   the last one that does
// HOSTILE_TORN   1: a write of a file that fails writes its first half, and a short stream takes one byte in place of failing
// HOSTILE_TOLD   a file of 16 bytes that gets two counters: the calls, and how many of them failed
#define _GNU_SOURCE
#include <dlfcn.h>
#include <errno.h>
#include <fcntl.h>
#include <pthread.h>
#include <stdarg.h>
#include <stdint.h>
#include <stdlib.h>
#include <string.h>
#include <sys/file.h>
#include <sys/mman.h>
#include <sys/stat.h>
#include <sys/syscall.h>
#include <unistd.h>

enum kind { NONE, MEMORY, DEVICE, SOURCE, SINK };

static enum kind kind = NONE;
static uint64_t first, last;
static int torn;
static uint64_t *told;
static int (*make_thread)(pthread_t *, const pthread_attr_t *, void *(*)(void *), void *);

extern void *__libc_malloc(size_t);
extern void *__libc_calloc(size_t, size_t);
extern void *__libc_realloc(void *, size_t);
extern void *__libc_memalign(size_t, size_t);

static uint64_t number(const char *name) {
    const char *text = getenv(name);
    return text ? strtoull(text, NULL, 10) : 0;
}

__attribute__((constructor)) static void begin(void) {
    const char *text = getenv("HOSTILE_KIND");
    const char *path = getenv("HOSTILE_TOLD");
    if (!text || !path) {
        return;
    }
    first = number("HOSTILE_FIRST");
    last = number("HOSTILE_LAST");
    torn = number("HOSTILE_TORN") == 1;
    make_thread = dlsym(RTLD_NEXT, "pthread_create");
    int file = (int)syscall(SYS_openat, AT_FDCWD, path, O_RDWR, 0);
    void *at = (void *)syscall(SYS_mmap, NULL, 16, PROT_READ | PROT_WRITE, MAP_SHARED, file, 0);
    syscall(SYS_close, file);
    if ((uintptr_t)at >= -(uintptr_t)4096) {
        abort();
    }
    told = at;
    kind = !strcmp(text, "memory") ? MEMORY : !strcmp(text, "device") ? DEVICE : !strcmp(text, "source") ? SOURCE : SINK;
}

// Counts a call, and answers whether it is to fail.
static int fails(enum kind of) {
    if (of != kind) {
        return 0;
    }
    uint64_t count = __atomic_add_fetch(&told[0], 1, __ATOMIC_SEQ_CST);
    if (count < first || last < count) {
        return 0;
    }
    __atomic_add_fetch(&told[1], 1, __ATOMIC_SEQ_CST);
    return 1;
}

static long failed(int why) {
    errno = why;
    return -1;
}

static void *no_memory(void) {
    errno = ENOMEM;
    return NULL;
}

// ---- memory

void *malloc(size_t size) { return fails(MEMORY) ? no_memory() : __libc_malloc(size); }

void *calloc(size_t count, size_t size) { return fails(MEMORY) ? no_memory() : __libc_calloc(count, size); }

void *realloc(void *old, size_t size) { return fails(MEMORY) ? no_memory() : __libc_realloc(old, size); }

void *memalign(size_t align, size_t size) { return fails(MEMORY) ? no_memory() : __libc_memalign(align, size); }

void *aligned_alloc(size_t align, size_t size) { return fails(MEMORY) ? no_memory() : __libc_memalign(align, size); }

int posix_memalign(void **at, size_t align, size_t size) {
    void *found = fails(MEMORY) ? NULL : __libc_memalign(align, size);
    if (!found) {
        return ENOMEM;
    }
    *at = found;
    return 0;
}

int pthread_create(pthread_t *at, const pthread_attr_t *how, void *(*job)(void *), void *with) {
    return fails(MEMORY) ? EAGAIN : make_thread(at, how, job, with);
}

// ---- calls of a file

ssize_t pread64(int file, void *into, size_t count, off64_t at) { return fails(DEVICE) ? failed(EIO) : syscall(SYS_pread64, file, into, count, at); }

ssize_t pread(int file, void *into, size_t count, off_t at) { return pread64(file, into, count, at); }

ssize_t pwrite64(int file, const void *from, size_t count, off64_t at) {
    if (fails(DEVICE)) {
        if (torn) {
            syscall(SYS_pwrite64, file, from, count / 2, at);
        }
        return failed(EIO);
    }
    return syscall(SYS_pwrite64, file, from, count, at);
}

ssize_t pwrite(int file, const void *from, size_t count, off_t at) { return pwrite64(file, from, count, at); }

int fdatasync(int file) { return (int)(fails(DEVICE) ? failed(EIO) : syscall(SYS_fdatasync, file)); }

int fsync(int file) { return (int)(fails(DEVICE) ? failed(EIO) : syscall(SYS_fsync, file)); }

int flock(int file, int how) { return (int)(fails(DEVICE) ? failed(EIO) : syscall(SYS_flock, file, how)); }

int fstat(int file, struct stat *into) { return (int)(fails(DEVICE) ? failed(EIO) : syscall(SYS_fstat, file, into)); }

int fstat64(int file, struct stat64 *into) { return (int)(fails(DEVICE) ? failed(EIO) : syscall(SYS_fstat, file, into)); }

int statx(int folder, const char *path, int flags, unsigned mask, struct statx *into) {
    return (int)(fails(DEVICE) ? failed(EIO) : syscall(SYS_statx, folder, path, flags, mask, into));
}

// ---- streams

ssize_t read(int file, void *into, size_t count) {
    if (file == 0 && fails(SOURCE)) {
        return torn && count ? syscall(SYS_read, file, into, 1) : failed(EIO);
    }
    return syscall(SYS_read, file, into, count);
}

ssize_t write(int file, const void *from, size_t count) {
    if (file == 1 && fails(SINK)) {
        return torn && count ? syscall(SYS_write, file, from, 1) : failed(EIO);
    }
    return syscall(SYS_write, file, from, count);
}

ssize_t __write(int file, const void *from, size_t count) { return write(file, from, count); }
