/* Refuses one request for memory of a program, the one whose number, from 1 on, REFUSE has; or one
   thread, the one whose number REFUSE_THREAD has. It counts both, as two numbers of 64 bits in the
   file that REFUSE_COUNT names, which stay there however the program ends. It is loaded in front of
   the C library (LD_PRELOAD), by refusals.sh. */
#define _GNU_SOURCE
#include <dlfcn.h>
#include <errno.h>
#include <fcntl.h>
#include <pthread.h>
#include <stdlib.h>
#include <sys/mman.h>
#include <unistd.h>

extern void *__libc_malloc(size_t), *__libc_calloc(size_t, size_t), *__libc_realloc(void *, size_t);
extern void *__libc_memalign(size_t, size_t);
static unsigned long unshared[2], *counts = unshared, refused, refused_thread;

__attribute__((constructor)) static void begin(void) {
    const char *name = getenv("REFUSE_COUNT"), *number = getenv("REFUSE"), *thread = getenv("REFUSE_THREAD");
    int file = name ? open(name, O_RDWR | O_CREAT | O_TRUNC, 0644) : -1;
    if (file >= 0 && ftruncate(file, sizeof unshared) == 0) {
        void *at = mmap(NULL, sizeof unshared, PROT_READ | PROT_WRITE, MAP_SHARED, file, 0);
        if (at != MAP_FAILED) counts = at;
    }
    refused = number ? strtoul(number, NULL, 10) : 0;
    refused_thread = thread ? strtoul(thread, NULL, 10) : 0;
}

static int is_next(int which, unsigned long number) {
    return __atomic_add_fetch(&counts[which], 1, __ATOMIC_RELAXED) == number;
}

static int is_refused(void) {
    if (!is_next(0, refused)) return 0;
    errno = ENOMEM;
    return 1;
}

void *malloc(size_t size) { return is_refused() ? NULL : __libc_malloc(size); }

void *realloc(void *old, size_t size) { return is_refused() ? NULL : __libc_realloc(old, size); }

void *calloc(size_t count, size_t size) { return is_refused() ? NULL : __libc_calloc(count, size); }

int posix_memalign(void **room, size_t align, size_t size) {
    if (is_refused()) return 12;
    *room = __libc_memalign(align, size);
    return *room ? 0 : 12;
}

void *aligned_alloc(size_t align, size_t size) { return is_refused() ? NULL : __libc_memalign(align, size); }

typedef int creates(pthread_t *, const pthread_attr_t *, void *(*)(void *), void *);

int pthread_create(pthread_t *thread, const pthread_attr_t *how, void *(*run)(void *), void *with) {
    creates *create = (creates *)dlsym(RTLD_NEXT, "pthread_create");
    return is_next(1, refused_thread) ? EAGAIN : create(thread, how, run, with);
}
