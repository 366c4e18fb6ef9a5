// Stands before the C library of a ledger that is tested. It notes each write and each sync that is done in the file that LOG names,
// and each answer; from the call on whose number AT names, the calls of KIND (w: writes into files, s: syncs) fail with the error
// ERROR; and as long as there is a file HOLD, a sync of the file with the inode HELD does not end.
#define _GNU_SOURCE
#include <dlfcn.h>
#include <errno.h>
#include <fcntl.h>
#include <pthread.h>
#include <stdint.h>
#include <stdlib.h>
#include <string.h>
#include <sys/stat.h>
#include <unistd.h>

static pthread_mutex_t lock = PTHREAD_MUTEX_INITIALIZER;
static int log_file = -2;
static int calls = 0;

static ssize_t really_write(int fd, const void *bytes, size_t length) {
    static ssize_t (*real)(int, const void *, size_t);
    if (!real) real = dlsym(RTLD_NEXT, "write");
    return real(fd, bytes, length);
}

// What was done: a letter, which file, from where on, and the bytes.
static void note(char kind, int fd, uint64_t at, const void *bytes, uint64_t length) {
    const char *name = getenv("LOG");
    struct stat file;
    unsigned char head[32];
    if (!name) return;
    memset(head, 0, sizeof head);
    if (fstat(fd, &file) != 0) return;
    head[0] = (unsigned char)kind;
    uint64_t inode = file.st_ino;
    memcpy(head + 8, &inode, 8);
    memcpy(head + 16, &at, 8);
    memcpy(head + 24, &length, 8);
    pthread_mutex_lock(&lock);
    if (log_file == -2) log_file = open(name, O_WRONLY | O_CREAT | O_APPEND, 0644);
    if (log_file >= 0) {
        really_write(log_file, head, sizeof head);
        if (length) really_write(log_file, bytes, length);
    }
    pthread_mutex_unlock(&lock);
}

// Whether this call fails.
static int fails(char kind) {
    const char *which = getenv("KIND"), *at = getenv("AT"), *error = getenv("ERROR");
    if (!which || !at || which[0] != kind) return 0;
    if (__sync_add_and_fetch(&calls, 1) < atoi(at)) return 0;
    errno = error ? atoi(error) : EIO;
    return 1;
}

// Waits as long as this file is held.
static void hold(int fd) {
    const char *hold = getenv("HOLD"), *held = getenv("HELD");
    struct stat file;
    if (!hold || !held || fstat(fd, &file) != 0 || file.st_ino != strtoull(held, NULL, 10)) return;
    while (access(hold, F_OK) == 0) usleep(1000);
}

static int synced(const char *name, int fd) {
    int (*real)(int) = (int (*)(int))dlsym(RTLD_NEXT, name);
    hold(fd);
    if (fails('s')) return -1;
    int result = real(fd);
    if (result == 0) note('s', fd, 0, NULL, 0);
    return result;
}

int fdatasync(int fd) { return synced("fdatasync", fd); }
int fsync(int fd) { return synced("fsync", fd); }

static ssize_t written(const char *name, int fd, const void *bytes, size_t length, off_t at) {
    ssize_t (*real)(int, const void *, size_t, off_t) = (ssize_t (*)(int, const void *, size_t, off_t))dlsym(RTLD_NEXT, name);
    if (fails('w')) return -1;
    ssize_t result = real(fd, bytes, length, at);
    if (result > 0) note('w', fd, (uint64_t)at, bytes, (uint64_t)result);
    return result;
}

ssize_t pwrite(int fd, const void *bytes, size_t length, off_t at) { return written("pwrite", fd, bytes, length, at); }
ssize_t pwrite64(int fd, const void *bytes, size_t length, off_t at) { return written("pwrite64", fd, bytes, length, at); }

ssize_t write(int fd, const void *bytes, size_t length) {
    ssize_t result = really_write(fd, bytes, length);
    if (fd == 1 && result > 0) note('a', fd, 0, bytes, (uint64_t)result);
    return result;
}
