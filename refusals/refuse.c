/*
 * Preloaded into a program, this refuses it one request for memory, or one start of a thread: that of the number in the
 * variable REFUSED_REQUEST, or REFUSED_THREAD, from 1. When it has done so it makes the file that the variable
 * REFUSAL_TOLD names.
 */
#define _GNU_SOURCE
#include <dlfcn.h>
#include <errno.h>
#include <fcntl.h>
#include <pthread.h>
#include <stdatomic.h>
#include <stdlib.h>
#include <unistd.h>

void *__libc_malloc(size_t size);
void *__libc_realloc(void *block, size_t size);

static atomic_long requests, threads;
static long refused_request, refused_thread; /* 0: none */

static long number_in(const char *name) {
    const char *text = getenv(name);
    return text ? atol(text) : 0;
}

/* Runs before main, so requests of the system's own beginning are not counted. */
__attribute__((constructor)) static void begin(void) {
    refused_thread = number_in("REFUSED_THREAD");
    atomic_store(&requests, 0);
    refused_request = number_in("REFUSED_REQUEST");
}

static void tell(void) {
    const char *name = getenv("REFUSAL_TOLD");
    int file = name ? open(name, O_WRONLY | O_CREAT, 0644) : -1;
    if (file >= 0) close(file);
}

static int is_refused(void) {
    int is = refused_request != 0 && atomic_fetch_add(&requests, 1) + 1 == refused_request;
    if (is) tell();
    return is;
}

void *malloc(size_t size) {
    if (!is_refused()) return __libc_malloc(size);
    errno = ENOMEM;
    return NULL;
}

void *realloc(void *block, size_t size) {
    if (!is_refused()) return __libc_realloc(block, size);
    errno = ENOMEM;
    return NULL;
}

int pthread_create(pthread_t *thread, const pthread_attr_t *how, void *(*start)(void *), void *argument) {
    typedef int (*create)(pthread_t *, const pthread_attr_t *, void *(*)(void *), void *);
    static create real;
    if (!real) real = (create)dlsym(RTLD_NEXT, "pthread_create");
    if (refused_thread == 0 || atomic_fetch_add(&threads, 1) + 1 != refused_thread)
        return real(thread, how, start, argument);
    tell();
    return EAGAIN;
}
