// Loaded before a program, this library counts what the program asks of the C library, and refuses or cuts some of that.
//
// REFUSED_COUNTS names a file of five counters of 64 bits, which go up by one at each request of a kind. REFUSED says what is
// refused, as parts KIND:FIRST:LAST:HOW with a blank between them: the requests of a kind from the first to the last, counted
// from 1, either fail, or give none, or move one byte. The last part that fits a request holds.
#define _GNU_SOURCE
#include <dlfcn.h>
#include <errno.h>
#include <fcntl.h>
#include <pthread.h>
#include <stdatomic.h>
#include <stdint.h>
#include <stdio.h>
#include <stdlib.h>
#include <string.h>
#include <sys/mman.h>
#include <sys/syscall.h>
#include <unistd.h>

enum kind { MEMORY, THREAD, READ, WRITE, TELL, KINDS };
enum how { ALLOW, FAIL, NONE, ONE };

static const char *const KIND_NAMES[KINDS] = {"memory", "thread", "read", "write", "tell"};
static const char *const HOW_NAMES[] = {"allow", "fail", "none", "one"};

static struct part {
    enum kind kind;
    uint64_t first, last;
    enum how how;
} parts[8];
static int part_count;
static _Atomic uint64_t *counts;

void *__libc_malloc(size_t size);
void *__libc_realloc(void *old, size_t size);

static int index_of(const char *const *names, int count, const char *name) {
    for (int i = 0; i < count; i++)
        if (strcmp(names[i], name) == 0) return i;
    _exit(125);
}

__attribute__((constructor)) static void begin(void) {
    const char *text = getenv("REFUSED");
    char kind[16], how[16];
    unsigned long first, last;
    int length;
    while (text && part_count < 8 && sscanf(text, " %15[a-z]:%lu:%lu:%15[a-z]%n", kind, &first, &last, how, &length) == 4) {
        parts[part_count++] = (struct part){index_of(KIND_NAMES, KINDS, kind), first, last, index_of(HOW_NAMES, 4, how)};
        text += length;
    }
    int file = open(getenv("REFUSED_COUNTS"), O_RDWR);
    void *mapped = mmap(NULL, KINDS * sizeof *counts, PROT_READ | PROT_WRITE, MAP_SHARED, file, 0);
    close(file);
    if (mapped == MAP_FAILED) _exit(125);
    counts = mapped;
}

// Counts a request, and says how it ends. What is asked before the program begins isn't counted.
static enum how ask(enum kind kind) {
    if (!counts) return ALLOW;
    uint64_t number = atomic_fetch_add(&counts[kind], 1) + 1;
    for (int i = part_count - 1; i >= 0; i--)
        if (parts[i].kind == kind && parts[i].first <= number && number <= parts[i].last) return parts[i].how;
    return ALLOW;
}

void *malloc(size_t size) {
    if (ask(MEMORY) == ALLOW) return __libc_malloc(size);
    errno = ENOMEM;
    return NULL;
}

void *realloc(void *old, size_t size) {
    if (ask(MEMORY) == ALLOW) return __libc_realloc(old, size);
    errno = ENOMEM;
    return NULL;
}

int pthread_create(pthread_t *thread, const pthread_attr_t *attributes, void *(*run)(void *), void *argument) {
    static int (*create)(pthread_t *, const pthread_attr_t *, void *(*)(void *), void *);
    if (ask(THREAD) != ALLOW) return EAGAIN;
    if (!create) create = dlsym(RTLD_NEXT, "pthread_create");
    return create(thread, attributes, run, argument);
}

static ssize_t move(long call, enum how how, int file, const void *bytes, size_t count) {
    switch (how) {
    case FAIL: errno = EIO; return -1;
    case NONE: return 0;
    case ONE: count = count < 1 ? count : 1; break;
    default: break;
    }
    return syscall(call, file, bytes, count);
}

ssize_t read(int file, void *bytes, size_t count) {
    return move(SYS_read, file == 0 ? ask(READ) : ALLOW, file, bytes, count);
}

// A write of no bytes asks for nothing.
ssize_t write(int file, const void *bytes, size_t count) {
    enum how how = count == 0 ? ALLOW : file == 1 ? ask(WRITE) : file == 2 ? ask(TELL) : ALLOW;
    return move(SYS_write, how, file, bytes, count);
}
