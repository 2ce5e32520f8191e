// Stands between a program and its C library, for bench/refuse: it counts the program's requests for memory, its reads, its writes and its starts of threads, and has the one
// fail that the environment names. The counts lie in the file REFUSE_COUNTS, which is shared with whoever reads it.
#define _GNU_SOURCE
#include <dlfcn.h>
#include <errno.h>
#include <fcntl.h>
#include <pthread.h>
#include <stdatomic.h>
#include <stdlib.h>
#include <string.h>
#include <sys/mman.h>
#include <sys/syscall.h>
#include <unistd.h>

extern void *__libc_malloc(size_t);
extern void *__libc_realloc(void *, size_t);
extern void __libc_free(void *);

enum { MEMORY, READS, WRITES, TOLD, THREADS, SORTS };
static const char *const names[SORTS] = {"memory", "reads", "writes", "told", "threads"};

// The counts of each sort, and behind them how many blocks of memory are live.
static atomic_long *counts;
static long failing = -1, at;
static const char *how = "";

// The blocks that are live, so that what the C library allocates for itself is not counted.
enum { PLACES = 1 << 16 };
static void *live[PLACES];
static pthread_mutex_t lock = PTHREAD_MUTEX_INITIALIZER;

__attribute__((constructor)) static void begin(void) {
    const char *path = getenv("REFUSE_COUNTS"), *sort = getenv("REFUSE_SORT"), *number = getenv("REFUSE_AT");
    if (path == NULL) return;
    int file = open(path, O_RDWR);
    void *memory = file < 0 ? MAP_FAILED : mmap(NULL, sizeof(long) * (SORTS + 1), PROT_READ | PROT_WRITE, MAP_SHARED, file, 0);
    if (memory == MAP_FAILED) return;
    for (int each = 0; sort != NULL && each < SORTS; each++)
        if (strcmp(sort, names[each]) == 0) failing = each;
    at = number == NULL ? 0 : atol(number);
    if (getenv("REFUSE_HOW") != NULL) how = getenv("REFUSE_HOW");
    counts = memory;
}

// Whether this call of the sort, the next one, is the one that fails.
static int fails(int sort) {
    if (counts == NULL) return 0;
    return atomic_fetch_add(&counts[sort], 1) + 1 == at && failing == sort;
}

static void note(void *block, int more) {
    if (counts == NULL || block == NULL) return;
    pthread_mutex_lock(&lock);
    size_t place = ((size_t)block >> 4) % PLACES;
    for (size_t looks = 0; looks < PLACES; looks++, place = (place + 1) % PLACES) {
        if (live[place] == (more ? NULL : block)) {
            live[place] = more ? block : NULL;
            atomic_fetch_add(&counts[SORTS], more ? 1 : -1);
            break;
        }
    }
    pthread_mutex_unlock(&lock);
}

void *malloc(size_t size) {
    if (fails(MEMORY)) return errno = ENOMEM, NULL;
    void *block = __libc_malloc(size);
    note(block, 1);
    return block;
}

void *realloc(void *old, size_t size) {
    if (fails(MEMORY)) return errno = ENOMEM, NULL;
    note(old, 0);
    void *block = __libc_realloc(old, size);
    note(block, 1);
    return block;
}

void free(void *block) {
    note(block, 0);
    __libc_free(block);
}

// What a call that moves bytes does where it is the one that fails: the count of bytes that it may move, or -1 with an error.
static ssize_t instead(size_t size) {
    if (strcmp(how, "short") == 0) return size < 1 ? 0 : 1;
    if (strcmp(how, "nothing") == 0) return 0;
    errno = strcmp(how, "again") == 0 ? EINTR : strcmp(how, "memory") == 0 ? ENOMEM : strcmp(how, "busy") == 0 ? EAGAIN : EIO;
    return -1;
}

ssize_t read(int file, void *bytes, size_t size) {
    if (fails(READS)) {
        ssize_t room = instead(size);
        if (room <= 0) return room;
        size = room;
    }
    return syscall(SYS_read, file, bytes, size);
}

ssize_t write(int file, const void *bytes, size_t size) {
    if (fails(file == 2 ? TOLD : WRITES)) {
        ssize_t room = instead(size);
        if (room <= 0) return room;
        size = room;
    }
    return syscall(SYS_write, file, bytes, size);
}

int pthread_create(pthread_t *thread, const pthread_attr_t *attr, void *(*run)(void *), void *given) {
    static int (*create)(pthread_t *, const pthread_attr_t *, void *(*)(void *), void *);
    if (create == NULL) create = dlsym(RTLD_NEXT, "pthread_create");
    return fails(THREADS) ? EAGAIN : create(thread, attr, run, given);
}
