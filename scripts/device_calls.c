/* Has a call on a device fail, or all of them move few bytes, for the program that it is loaded ahead of (LD_PRELOAD),
 * as the file says whose name is in DEVICES. It has six numbers, and then the name of the call that failed: of which
 * device calls are counted (1 input, 2 output, 3 file, 4 connections, 5 port, 6 clock; 0 none), how many were made, the
 * number of the one that fails, with which error, how many failed, and how many bytes a call of any device moves at
 * most; 0 where it moves what it is asked to. Calls are counted from 1. Who has the file mapped may change it while the
 * program runs. It wants 64-bit Linux. */

#define _GNU_SOURCE
#include <errno.h>
#include <fcntl.h>
#include <stdarg.h>
#include <stdatomic.h>
#include <stdlib.h>
#include <string.h>
#include <sys/epoll.h>
#include <sys/mman.h>
#include <sys/socket.h>
#include <sys/stat.h>
#include <sys/syscall.h>
#include <time.h>
#include <unistd.h>

enum device { NONE, INPUT, OUTPUT, FILES, LINKS, PORT, CLOCK };

struct told {
    atomic_long device, made, at, error, failed, most;
    char name[16];
};

static struct told nobodys;
static struct told *told = &nobodys;

__attribute__((constructor)) static void begin(void) {
    const char *name = getenv("DEVICES");
    int file = name ? (int)syscall(SYS_open, name, O_RDWR | O_CLOEXEC) : -1;
    if (file < 0) return;
    void *mapped = mmap(NULL, sizeof nobodys, PROT_READ | PROT_WRITE, MAP_SHARED, file, 0);
    syscall(SYS_close, file);
    if (mapped != MAP_FAILED) told = mapped;
}

static int fails(enum device device, const char *name) {
    if (atomic_load(&told->device) != (long)device) return 0;
    if (atomic_fetch_add(&told->made, 1) + 1 != atomic_load(&told->at)) return 0;
    atomic_fetch_add(&told->failed, 1);
    strncpy(told->name, name, sizeof told->name - 1);
    errno = (int)atomic_load(&told->error);
    return 1;
}

static enum device device_of(int file) {
    struct stat what;
    if (file <= 1) return file ? OUTPUT : INPUT;
    return !syscall(SYS_fstat, file, &what) && S_ISSOCK(what.st_mode) ? LINKS : FILES;
}

/* How many bytes a call moves that is asked to move so many. */
static size_t moved(size_t bytes) {
    size_t most = (size_t)atomic_load(&told->most);
    return most && most < bytes ? most : bytes;
}

ssize_t read(int file, void *into, size_t bytes) {
    return fails(device_of(file), "read") ? -1 : syscall(SYS_read, file, into, moved(bytes));
}

ssize_t write(int file, const void *from, size_t bytes) {
    return fails(device_of(file), "write") ? -1 : syscall(SYS_write, file, from, moved(bytes));
}

ssize_t pread(int file, void *into, size_t bytes, off_t at) {
    return fails(FILES, "pread") ? -1 : syscall(SYS_pread64, file, into, moved(bytes), at);
}

ssize_t pwrite(int file, const void *from, size_t bytes, off_t at) {
    return fails(FILES, "pwrite") ? -1 : syscall(SYS_pwrite64, file, from, moved(bytes), at);
}

ssize_t recv(int file, void *into, size_t bytes, int how) {
    return fails(LINKS, "recv") ? -1 : syscall(SYS_recvfrom, file, into, moved(bytes), how, NULL, NULL);
}

ssize_t send(int file, const void *from, size_t bytes, int how) {
    return fails(LINKS, "send") ? -1 : syscall(SYS_sendto, file, from, moved(bytes), how, NULL, 0);
}

int fsync(int file) {
    return fails(FILES, "fsync") ? -1 : (int)syscall(SYS_fsync, file);
}

int flock(int file, int how) {
    return fails(FILES, "flock") ? -1 : (int)syscall(SYS_flock, file, how);
}

int statx(int file, const char *name, int how, unsigned what, struct statx *into) {
    return fails(FILES, "statx") ? -1 : (int)syscall(SYS_statx, file, name, how, what, into);
}

int open(const char *name, int how, ...) {
    va_list more;
    va_start(more, how);
    int mode = how & O_CREAT ? va_arg(more, int) : 0;
    va_end(more);
    return fails(FILES, "open") ? -1 : (int)syscall(SYS_open, name, how, mode);
}

int fcntl(int file, int what, ...) {
    va_list more;
    va_start(more, what);
    long with = va_arg(more, long);
    va_end(more);
    return what == F_DUPFD_CLOEXEC && fails(FILES, "fcntl") ? -1 : (int)syscall(SYS_fcntl, file, what, with);
}

int socket(int domain, int type, int protocol) {
    return fails(PORT, "socket") ? -1 : (int)syscall(SYS_socket, domain, type, protocol);
}

int bind(int file, const struct sockaddr *address, socklen_t length) {
    return fails(PORT, "bind") ? -1 : (int)syscall(SYS_bind, file, address, length);
}

int listen(int file, int most) {
    return fails(PORT, "listen") ? -1 : (int)syscall(SYS_listen, file, most);
}

int accept4(int file, struct sockaddr *address, socklen_t *length, int how) {
    return fails(PORT, "accept4") ? -1 : (int)syscall(SYS_accept4, file, address, length, how);
}

int epoll_create1(int how) {
    return fails(PORT, "epoll_create1") ? -1 : (int)syscall(SYS_epoll_create1, how);
}

int epoll_ctl(int of, int what, int file, struct epoll_event *event) {
    return fails(PORT, "epoll_ctl") ? -1 : (int)syscall(SYS_epoll_ctl, of, what, file, event);
}

int epoll_wait(int of, struct epoll_event *events, int most, int patience) {
    return fails(PORT, "epoll_wait") ? -1 : (int)syscall(SYS_epoll_wait, of, events, most, patience);
}

int setsockopt(int file, int level, int name, const void *value, socklen_t length) {
    return fails(device_of(file) == LINKS ? LINKS : PORT, "setsockopt") ? -1 : (int)syscall(SYS_setsockopt, file, level, name, value, length);
}

int shutdown(int file, int how) {
    return fails(LINKS, "shutdown") ? -1 : (int)syscall(SYS_shutdown, file, how);
}

int clock_gettime(clockid_t clock, struct timespec *into) {
    return fails(CLOCK, "clock_gettime") ? -1 : (int)syscall(SYS_clock_gettime, clock, into);
}
