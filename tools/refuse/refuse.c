/* Refuses one request of a program: the REFUSE_MEMORY-th for memory, or the REFUSE_THREAD-th start of a thread, counted from 1.
   It is put before the C library by LD_PRELOAD. It writes `begun ` to the file REFUSE_SAID, and `refused` once it refused. */
#define _GNU_SOURCE
#include <dlfcn.h>
#include <errno.h>
#include <fcntl.h>
#include <pthread.h>
#include <stdatomic.h>
#include <stdlib.h>
#include <unistd.h>

extern void *__libc_malloc(size_t);
extern void *__libc_realloc(void *, size_t);

static long memory_wanted, thread_wanted;
static atomic_long memory_seen, thread_seen;
static int said = -1;

static void say(const char *word, size_t length) {
    /* Where it can't be written the reader finds it missing. */
    if (said >= 0 && write(said, word, length) < 0)
        said = -1;
}

static int refuses(long wanted, atomic_long *seen) {
    if (wanted == 0 || atomic_fetch_add(seen, 1) + 1 != wanted)
        return 0;
    say("refused", 7);
    return 1;
}

static long number(const char *name) {
    const char *text = getenv(name);
    return text ? atol(text) : 0;
}

/* What was asked for before this is the C library's own. */
__attribute__((constructor)) static void begin(void) {
    const char *name = getenv("REFUSE_SAID");
    said = name ? open(name, O_WRONLY | O_CREAT | O_TRUNC | O_CLOEXEC, 0600) : -1;
    say("begun ", 6);
    thread_wanted = number("REFUSE_THREAD");
    memory_wanted = number("REFUSE_MEMORY");
}

void *malloc(size_t size) {
    if (refuses(memory_wanted, &memory_seen)) {
        errno = ENOMEM;
        return NULL;
    }
    return __libc_malloc(size);
}

void *realloc(void *block, size_t size) {
    if (refuses(memory_wanted, &memory_seen)) {
        errno = ENOMEM;
        return NULL;
    }
    return __libc_realloc(block, size);
}

int pthread_create(pthread_t *thread, const pthread_attr_t *settings, void *(*start)(void *), void *given) {
    static int (*next)(pthread_t *, const pthread_attr_t *, void *(*)(void *), void *);
    if (!next)
        next = (int (*)(pthread_t *, const pthread_attr_t *, void *(*)(void *), void *))dlsym(RTLD_NEXT, "pthread_create");
    if (refuses(thread_wanted, &thread_seen))
        return EAGAIN;
    return next(thread, settings, start, given);
}
