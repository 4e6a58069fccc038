/*
 * Preloaded to a program, this refuses one of its requests for memory: the one whose number stands in the environment
 * as REFUSED_REQUEST, counted from 1, or the start of a thread whose number among the starts stands there as
 * REFUSED_START. As it does so, it writes a byte to the file whose number is REFUSAL_NOTE, so that
 * a test can tell whether the program made so many requests, and of what kind this one was: `t` for the start of a thread, `m` for a
 * request of the thread that does the work, which is the first one or the one that it starts for that, and `w` for one of any other.
 * The start of a thread is a request too, since a thread has memory of its own, which the C library takes from the system.
 *
 * The count begins with the constructors of libraries, where main is about to begin: what the loader and the C library
 * ask for before is not the program's. All threads count together.
 */
#define _GNU_SOURCE
#include <dlfcn.h>
#include <errno.h>
#include <pthread.h>
#include <stddef.h>
#include <stdlib.h>
#include <sys/syscall.h>
#include <unistd.h>

void *__libc_malloc(size_t size);
void *__libc_calloc(size_t count, size_t size);
void *__libc_realloc(void *block, size_t size);
void *__libc_memalign(size_t alignment, size_t size);

typedef int start_thread(pthread_t *thread, const pthread_attr_t *attributes, void *(*body)(void *), void *argument);

static start_thread *start;
static long refused_request;
static long refused_start;
static long requests;
static long starts;
static long working;
static int note;

__attribute__((constructor)) static void begin_to_count(void)
{
    const char *request = getenv("REFUSED_REQUEST");
    const char *begun = getenv("REFUSED_START");
    const char *file = getenv("REFUSAL_NOTE");
    *(void **)&start = dlsym(RTLD_NEXT, "pthread_create");
    if (file != NULL) {
        note = atoi(file);
        refused_request = request != NULL ? atol(request) : 0;
        refused_start = begun != NULL ? atol(begun) : 0;
    }
}

/* Counts one more, and tells whether it is the one that is refused, which none is where that is 0. */
static int is_due(long *count, long refused)
{
    return refused != 0 && __atomic_add_fetch(count, 1, __ATOMIC_SEQ_CST) == refused;
}

/* Tells whether this thread does the work. Besides the first thread that is the first other one that comes here: each other is started by it. */
static int is_working(void)
{
    long self = syscall(SYS_gettid);
    long none = 0;
    if (self == getpid()) {
        return 1;
    }
    __atomic_compare_exchange_n(&working, &none, self, 0, __ATOMIC_SEQ_CST, __ATOMIC_SEQ_CST);
    return __atomic_load_n(&working, __ATOMIC_SEQ_CST) == self;
}

static int is_refused(int is_start)
{
    int works = is_working();
    if (!is_due(&requests, refused_request) && !(is_start && is_due(&starts, refused_start))) {
        return 0;
    }
    const char *kind = is_start ? "t" : works ? "m" : "w";
    if (write(note, kind, 1) != 1) {
        _exit(99);
    }
    errno = ENOMEM;
    return 1;
}

void *malloc(size_t size)
{
    return is_refused(0) ? NULL : __libc_malloc(size);
}

void *calloc(size_t count, size_t size)
{
    return is_refused(0) ? NULL : __libc_calloc(count, size);
}

void *realloc(void *block, size_t size)
{
    return is_refused(0) ? NULL : __libc_realloc(block, size);
}

void *aligned_alloc(size_t alignment, size_t size)
{
    return is_refused(0) ? NULL : __libc_memalign(alignment, size);
}

int posix_memalign(void **block, size_t alignment, size_t size)
{
    void *made = is_refused(0) ? NULL : __libc_memalign(alignment, size);
    if (made == NULL) {
        return ENOMEM;
    }
    *block = made;
    return 0;
}

int pthread_create(pthread_t *thread, const pthread_attr_t *attributes, void *(*body)(void *), void *argument)
{
    return is_refused(1) ? EAGAIN : start(thread, attributes, body, argument);
}
