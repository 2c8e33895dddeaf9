// Loaded before the C library, it refuses one request of a call that is tried: the one whose number, counted from 1, stands
// in the environment's REFUSED, among those of the call whose name stands in REFUSED_CALL. The program tells on standard
// output where a call begins, by the line "call NAME", and where it has ended, by the line "back". What it asks for in
// between is counted, by all its threads: a block of memory, also where the C library asks for it, as for a new thread, and
// the start of a thread, which takes a stack. Of calls with one name the numbers go on. Where REFUSED_CALL is "all", everything
// that the program asks for is one call of that name.
//
// As the program ends, it tells on standard error how many requests the calls of each name have made, a line "NUMBER NAME"
// each, and by a last line "refused" that one was refused.
#include <dlfcn.h>
#include <errno.h>
#include <pthread.h>
#include <stdatomic.h>
#include <stddef.h>
#include <stdio.h>
#include <stdlib.h>
#include <string.h>
#include <sys/syscall.h>
#include <unistd.h>

#define NAMES 32
#define LENGTH 64

extern void *__libc_malloc(size_t size);
extern void *__libc_calloc(size_t count, size_t size);
extern void *__libc_realloc(void *block, size_t size);

typedef int start_thread(pthread_t *, const pthread_attr_t *, void *(*)(void *), void *);

struct call {
    char name[LENGTH];
    atomic_long requests;
};

static struct call calls[NAMES];
static int known;
static _Atomic(struct call *) under_way;
static const char *refused_call;
static long refused;
static atomic_int was_refused;
static start_thread *next_start;

// The call of this name, where there is room for one more.
static struct call *call_of(const char *name, size_t length) {
    for (int i = 0; i < known; i++) {
        if (strlen(calls[i].name) == length && memcmp(calls[i].name, name, length) == 0) {
            return &calls[i];
        }
    }
    if (known == NAMES || length >= LENGTH) {
        abort();
    }
    memcpy(calls[known].name, name, length);
    return &calls[known++];
}

__attribute__((constructor)) static void begin(void) {
    const char *number = getenv("REFUSED");
    refused = number == NULL ? 0 : atol(number);
    refused_call = getenv("REFUSED_CALL");
    next_start = (start_thread *)dlsym(RTLD_NEXT, "pthread_create");
    if (refused_call != NULL && strcmp(refused_call, "all") == 0) {
        atomic_store(&under_way, call_of("all", 3));
    }
}

// Whether this request is the one.
static int is_refused(void) {
    struct call *call = atomic_load(&under_way);
    if (call == NULL) {
        return 0;
    }
    long number = atomic_fetch_add(&call->requests, 1) + 1;
    if (number != refused || refused_call == NULL || strcmp(call->name, refused_call) != 0) {
        return 0;
    }
    atomic_store(&was_refused, 1);
    return 1;
}

static int is_refused_block(void) {
    if (!is_refused()) {
        return 0;
    }
    errno = ENOMEM;
    return 1;
}

void *malloc(size_t size) {
    return is_refused_block() ? NULL : __libc_malloc(size);
}

void *calloc(size_t count, size_t size) {
    return is_refused_block() ? NULL : __libc_calloc(count, size);
}

void *realloc(void *block, size_t size) {
    return is_refused_block() ? NULL : __libc_realloc(block, size);
}

int pthread_create(pthread_t *thread, const pthread_attr_t *attributes, void *(*run)(void *), void *with) {
    return is_refused() ? EAGAIN : next_start(thread, attributes, run, with);
}

// What the program writes, read for the lines that tell of a call. A line is written at once.
static void look_at(int file, const char *text, size_t size) {
    if (file != STDOUT_FILENO) {
        return;
    }
    if (size > 6 && memcmp(text, "call ", 5) == 0 && text[size - 1] == '\n') {
        atomic_store(&under_way, call_of(text + 5, size - 6));
    } else if (size == 5 && memcmp(text, "back\n", 5) == 0) {
        atomic_store(&under_way, NULL);
    }
}

ssize_t write(int file, const void *text, size_t size) {
    look_at(file, text, size);
    return syscall(SYS_write, file, text, size);
}

ssize_t __write(int file, const void *text, size_t size) {
    return write(file, text, size);
}

__attribute__((destructor)) static void tell(void) {
    atomic_store(&under_way, NULL);
    for (int i = 0; i < known; i++) {
        dprintf(STDERR_FILENO, "%ld %s\n", atomic_load(&calls[i].requests), calls[i].name);
    }
    if (atomic_load(&was_refused)) {
        dprintf(STDERR_FILENO, "refused\n");
    }
}

// A program with threads ends by this call, which runs no destructor.
void _exit(int status) {
    tell();
    syscall(SYS_exit_group, status);
    __builtin_unreachable();
}
