/*
 * Preloaded to a program, this has each read of standard input and each write to standard output move as many bytes at most as the
 * environment says by MOST_BYTES, and has one of these calls fail: the read whose number is BROKEN_READ, counted from 1, or the write whose
 * number is BROKEN_WRITE. A number that isn't in the environment breaks no call. Other files are read and written as ever.
 */
#include <errno.h>
#include <stdlib.h>
#include <sys/syscall.h>
#include <unistd.h>

static long most_bytes;
static long broken_read;
static long broken_write;
static long reads;
static long writes;

static long number_of(const char *name)
{
    const char *value = getenv(name);
    return value != NULL ? atol(value) : 0;
}

__attribute__((constructor)) static void begin_to_count(void)
{
    most_bytes = number_of("MOST_BYTES");
    broken_read = number_of("BROKEN_READ");
    broken_write = number_of("BROKEN_WRITE");
}

/* Counts one more call, and tells whether it is the one that fails. */
static int is_broken(long *calls, long broken)
{
    return __atomic_add_fetch(calls, 1, __ATOMIC_SEQ_CST) == broken;
}

static size_t at_most(size_t length)
{
    return most_bytes > 0 && length > (size_t)most_bytes ? (size_t)most_bytes : length;
}

ssize_t read(int file, void *bytes, size_t length)
{
    if (file == STDIN_FILENO) {
        if (is_broken(&reads, broken_read)) {
            errno = EIO;
            return -1;
        }
        length = at_most(length);
    }
    return syscall(SYS_read, file, bytes, length);
}

ssize_t write(int file, const void *bytes, size_t length)
{
    if (file == STDOUT_FILENO) {
        if (is_broken(&writes, broken_write)) {
            errno = EIO;
            return -1;
        }
        length = at_most(length);
    }
    return syscall(SYS_write, file, bytes, length);
}
