/* Stands before the C library, and refuses requests for memory, or for threads. It is loaded by LD_PRELOAD.

     REFUSING_COUNTS=FILE    a file of three words of 64 bits: how many requests were met, how many refused, and how many files
                             were brought to the disk
     REFUSING_AT=K           refuses the K-th request
     REFUSING_ONCE_TOLD=1    refuses every request from the first write to standard output on, and counts no other
     REFUSING_THREADS=1      requests are starts of threads; else they are those for memory

   It includes nothing, so that the kit's own clang, which has no headers, builds it. */

typedef unsigned long size_t;

extern void *__libc_malloc(size_t size);
extern void *__libc_calloc(size_t count, size_t size);
extern void *__libc_realloc(void *old, size_t size);
extern void *__libc_memalign(size_t alignment, size_t size);
extern char *getenv(const char *name);
extern int *__errno_location(void);
extern void *dlsym(void *library, const char *name);
extern int open(const char *path, int flags, ...);
extern int close(int file);
extern void *mmap(void *at, size_t length, int protection, int flags, int file, long offset);
extern unsigned long strtoul(const char *text, char **end, int base);
extern void abort(void);
extern long syscall(long number, ...);

enum { TRY_AGAIN = 11, OUT_OF_MEMORY = 12, SYSTEM_WRITE = 1, SYSTEM_FSYNC = 74, READ_WRITE = 2, READABLE_WRITABLE = 3, SHARED = 1 };

/* What a request is for. */
enum resource { MEMORY, THREAD };

typedef int starting(void *thread, const void *attributes, void *(*run)(void *), void *given);

static struct counts {
    unsigned long met, refused, synced;
} *counts;
static unsigned long refused_at;
static int refuses_once_told, was_told;
static enum resource refused;
static starting *start;

__attribute__((constructor)) static void begin(void) {
    const char *path = getenv("REFUSING_COUNTS"), *at = getenv("REFUSING_AT");
    start = (starting *)dlsym((void *)-1L, "pthread_create");
    if (!start)
        abort();
    if (!path)
        return;
    refused_at = at ? strtoul(at, 0, 10) : 0;
    refuses_once_told = getenv("REFUSING_ONCE_TOLD") != 0;
    refused = getenv("REFUSING_THREADS") ? THREAD : MEMORY;
    int file = open(path, READ_WRITE);
    void *shared = mmap(0, sizeof *counts, READABLE_WRITABLE, SHARED, file, 0);
    if (file < 0 || shared == (void *)-1)
        abort();
    close(file);
    counts = shared;
}

/* Counts a request, and says whether it is refused. */
static int is_refused(enum resource wanted) {
    if (!counts || wanted != refused || (refuses_once_told && !__atomic_load_n(&was_told, __ATOMIC_SEQ_CST)))
        return 0;
    unsigned long number = __atomic_add_fetch(&counts->met, 1, __ATOMIC_SEQ_CST);
    if (!refuses_once_told && number != refused_at)
        return 0;
    __atomic_add_fetch(&counts->refused, 1, __ATOMIC_SEQ_CST);
    *__errno_location() = OUT_OF_MEMORY;
    return 1;
}

void *malloc(size_t size) { return is_refused(MEMORY) ? 0 : __libc_malloc(size); }

void *calloc(size_t count, size_t size) { return is_refused(MEMORY) ? 0 : __libc_calloc(count, size); }

void *realloc(void *old, size_t size) { return is_refused(MEMORY) ? 0 : __libc_realloc(old, size); }

void *memalign(size_t alignment, size_t size) { return is_refused(MEMORY) ? 0 : __libc_memalign(alignment, size); }

void *aligned_alloc(size_t alignment, size_t size) { return memalign(alignment, size); }

int posix_memalign(void **place, size_t alignment, size_t size) {
    void *given = memalign(alignment, size);
    if (!given)
        return OUT_OF_MEMORY;
    *place = given;
    return 0;
}

int pthread_create(void *thread, const void *attributes, void *(*run)(void *), void *given) {
    return is_refused(THREAD) ? TRY_AGAIN : start(thread, attributes, run, given);
}

int fsync(int file) {
    if (counts)
        __atomic_add_fetch(&counts->synced, 1, __ATOMIC_SEQ_CST);
    return (int)syscall(SYSTEM_FSYNC, file);
}

long write(int file, const void *bytes, size_t length) {
    if (file == 1)
        __atomic_store_n(&was_told, 1, __ATOMIC_SEQ_CST);
    return syscall(SYSTEM_WRITE, file, bytes, length);
}
