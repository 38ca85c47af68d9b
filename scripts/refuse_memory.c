/* Refuses memory and threads to the program that it is loaded ahead of (LD_PRELOAD), as the file says whose name is
 * in REFUSED. It has eight numbers, four of calls of malloc and realloc and four of calls that start a thread: how many
 * were made, which one is refused, from which one on all are, and how many were. Calls are counted from 1; where the
 * second or the third number is 0 it refuses none. Who has the file mapped may change them while the program runs. It
 * wants glibc. */

#define _GNU_SOURCE
#include <dlfcn.h>
#include <errno.h>
#include <fcntl.h>
#include <pthread.h>
#include <stdatomic.h>
#include <stdlib.h>
#include <sys/mman.h>
#include <unistd.h>

struct calls {
    atomic_long made, at, from, refused;
};

extern void *__libc_malloc(size_t size);
extern void *__libc_realloc(void *block, size_t size);

typedef int start(pthread_t *thread, const pthread_attr_t *how, void *(*work)(void *), void *with);

static struct calls nobodys[2];
static struct calls *memory = nobodys, *threads = nobodys + 1;
static start *start_thread;

__attribute__((constructor)) static void begin(void) {
    start_thread = (start *)dlsym(RTLD_NEXT, "pthread_create");
    const char *name = getenv("REFUSED");
    int file = name ? open(name, O_RDWR | O_CLOEXEC) : -1;
    if (file < 0) return;
    struct calls *both = mmap(NULL, sizeof nobodys, PROT_READ | PROT_WRITE, MAP_SHARED, file, 0);
    close(file);
    if (both == MAP_FAILED) return;
    memory = both;
    threads = both + 1;
}

static int is_refused(struct calls *calls) {
    long number = atomic_fetch_add(&calls->made, 1) + 1;
    long from = atomic_load(&calls->from);
    if (number != atomic_load(&calls->at) && (!from || number < from)) return 0;
    atomic_fetch_add(&calls->refused, 1);
    return 1;
}

void *malloc(size_t size) {
    if (!is_refused(memory)) return __libc_malloc(size);
    errno = ENOMEM;
    return NULL;
}

void *realloc(void *block, size_t size) {
    if (!is_refused(memory)) return __libc_realloc(block, size);
    errno = ENOMEM;
    return NULL;
}

int pthread_create(pthread_t *thread, const pthread_attr_t *how, void *(*work)(void *), void *with) {
    return is_refused(threads) ? EAGAIN : start_thread(thread, how, work, with);
}
