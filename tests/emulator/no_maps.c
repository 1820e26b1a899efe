/* For programs of Rust under an emulator that fails when /proc/self/maps is opened. Rust asks the C library for the
 * bounds of its stack at the start, and that looks there. This says what the C library says on a machine without
 * /proc, and Rust goes on without the bounds. It is loaded before the program, which is itself not changed. */
#define _GNU_SOURCE
#include <errno.h>
#include <pthread.h>

int pthread_getattr_np(pthread_t thread, pthread_attr_t *attributes)
{
    (void)thread;
    (void)attributes;
    return ENOENT;
}
