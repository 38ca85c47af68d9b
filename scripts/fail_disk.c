/* Has calls on the journal's file fail, or be slow, for the program that it is loaded ahead of (LD_PRELOAD). The
 * calls that read, write, cut or sync a file named grundbuch.journal are counted from 1. FAIL_CALLS of them, from
 * the number FAIL_AT on, fail with the error FAIL_WITH; where that is 0, the program is killed before the first.
 * Where FAIL_SHORT is more than 0, the first write from FAIL_AT on that has more bytes than that writes so many and
 * says so, and the calls after it fail. Each call adds a line to the file FAIL_LOG: its name, and then `failed`,
 * `killed` or `short` where it was. Before each call FAIL_SLOW microseconds pass. It wants 64-bit Linux. */

#include <errno.h>
#include <fcntl.h>
#include <signal.h>
#include <stdatomic.h>
#include <stdio.h>
#include <stdlib.h>
#include <string.h>
#include <sys/syscall.h>
#include <sys/types.h>
#include <unistd.h>

enum answer { AS_EVER, SHORT, FAILED };

static const char *const JOURNAL = "/grundbuch.journal";

static atomic_long calls;
static long fail_at, fail_calls, fail_short, fail_slow;
static int fail_with, will_be_short, notes;

static long number_in(const char *name) {
    const char *text = getenv(name);
    return text ? strtol(text, NULL, 10) : 0;
}

__attribute__((constructor)) static void begin(void) {
    const char *name = getenv("FAIL_LOG");
    fail_at = number_in("FAIL_AT");
    fail_calls = number_in("FAIL_CALLS");
    fail_short = number_in("FAIL_SHORT");
    fail_slow = number_in("FAIL_SLOW");
    will_be_short = fail_short > 0;
    fail_with = (int)number_in("FAIL_WITH");
    /* Beside the numbers that the program's own files get. */
    int file = name ? open(name, O_WRONLY | O_CREAT | O_APPEND, 0600) : -1;
    notes = file < 0 ? -1 : fcntl(file, F_DUPFD_CLOEXEC, 100);
    if (file >= 0) close(file);
}

static int is_journal(int file) {
    char link[64], path[4096];
    snprintf(link, sizeof link, "/proc/self/fd/%d", file);
    ssize_t length = readlink(link, path, sizeof path);
    ssize_t name = (ssize_t)strlen(JOURNAL);
    return length >= name && !memcmp(path + length - name, JOURNAL, (size_t)name);
}

/* How the next call on the journal's file is answered; `bytes` is how many it writes. */
static enum answer answer_of(int file, const char *name, size_t bytes) {
    if (file == notes || !is_journal(file)) return AS_EVER;
    long number = atomic_fetch_add(&calls, 1) + 1;
    if (fail_slow > 0) usleep((useconds_t)fail_slow);
    int is_short = will_be_short && number >= fail_at && bytes > (size_t)fail_short;
    int fails = !will_be_short && fail_at > 0 && number >= fail_at && number - fail_at < fail_calls;
    if (is_short) {
        will_be_short = 0;
        fail_at = number + 1;
    }
    dprintf(notes, "%s%s\n", name, is_short ? " short" : !fails ? "" : fail_with ? " failed" : " killed");
    if (fails && !fail_with) kill(getpid(), SIGKILL);
    if (fails) errno = fail_with;
    return is_short ? SHORT : fails ? FAILED : AS_EVER;
}

static ssize_t written_at(int file, const void *from, size_t bytes, off_t at) {
    enum answer answer = answer_of(file, "pwrite", bytes);
    if (answer == FAILED) return -1;
    return syscall(SYS_pwrite64, file, from, answer == SHORT ? (size_t)fail_short : bytes, at);
}

ssize_t pwrite(int file, const void *from, size_t bytes, off_t at) {
    return written_at(file, from, bytes, at);
}

ssize_t pwrite64(int file, const void *from, size_t bytes, off_t at) {
    return written_at(file, from, bytes, at);
}

ssize_t write(int file, const void *from, size_t bytes) {
    enum answer answer = answer_of(file, "write", bytes);
    if (answer == FAILED) return -1;
    return syscall(SYS_write, file, from, answer == SHORT ? (size_t)fail_short : bytes);
}

static ssize_t read_at(int file, void *into, size_t bytes, off_t at) {
    return answer_of(file, "pread", 0) == FAILED ? -1 : syscall(SYS_pread64, file, into, bytes, at);
}

ssize_t pread(int file, void *into, size_t bytes, off_t at) {
    return read_at(file, into, bytes, at);
}

ssize_t pread64(int file, void *into, size_t bytes, off_t at) {
    return read_at(file, into, bytes, at);
}

int fsync(int file) {
    return answer_of(file, "fsync", 0) == FAILED ? -1 : (int)syscall(SYS_fsync, file);
}

int fdatasync(int file) {
    return answer_of(file, "fdatasync", 0) == FAILED ? -1 : (int)syscall(SYS_fdatasync, file);
}

int ftruncate(int file, off_t length) {
    return answer_of(file, "ftruncate", 0) == FAILED ? -1 : (int)syscall(SYS_ftruncate, file, length);
}

int ftruncate64(int file, off_t length) {
    return answer_of(file, "ftruncate", 0) == FAILED ? -1 : (int)syscall(SYS_ftruncate, file, length);
}
