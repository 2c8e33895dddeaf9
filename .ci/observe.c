// Loaded before the C library, it counts what a program asks for: the threads that it starts, its requests for memory, and their bytes. As
// the program ends it tells the three numbers on standard error, in a line "observed THREADS REQUESTS BYTES".
#include <dlfcn.h>
#include <pthread.h>
#include <stdatomic.h>
#include <stddef.h>
#include <stdio.h>
#include <sys/syscall.h>
#include <unistd.h>

extern void *__libc_malloc(size_t size);
extern void *__libc_calloc(size_t count, size_t size);
extern void *__libc_realloc(void *block, size_t size);

typedef int start_thread(pthread_t *, const pthread_attr_t *, void *(*)(void *), void *);

static atomic_long threads;
static atomic_long requests;
static atomic_long bytes;

static void count(size_t size) {
    atomic_fetch_add(&requests, 1);
    atomic_fetch_add(&bytes, (long)size);
}

void *malloc(size_t size) {
    count(size);
    return __libc_malloc(size);
}

void *calloc(size_t number, size_t size) {
    count(number * size);
    return __libc_calloc(number, size);
}

void *realloc(void *block, size_t size) {
    count(size);
    return __libc_realloc(block, size);
}

int pthread_create(pthread_t *thread, const pthread_attr_t *attributes, void *(*run)(void *), void *with) {
    static start_thread *next;
    if (next == NULL) {
        next = (start_thread *)dlsym(RTLD_NEXT, "pthread_create");
    }
    atomic_fetch_add(&threads, 1);
    return next(thread, attributes, run, with);
}

// A program with threads ends by this call, which runs no destructor.
void _exit(int status) {
    dprintf(STDERR_FILENO, "observed %ld %ld %ld\n", atomic_load(&threads), atomic_load(&requests), atomic_load(&bytes));
    syscall(SYS_exit_group, status);
    __builtin_unreachable();
}
