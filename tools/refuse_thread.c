/* Loaded before the C library: refuses to start one thread of a program, the one whose number, counted from 1, stands in
   REFUSE_THREAD. */
#define _GNU_SOURCE
#include <dlfcn.h>
#include <errno.h>
#include <pthread.h>
#include <stdatomic.h>
#include <stdlib.h>

typedef int Create(pthread_t *, const pthread_attr_t *, void *(*)(void *), void *);

static atomic_ulong asked;

int pthread_create(pthread_t *thread, const pthread_attr_t *attributes, void *(*start)(void *), void *argument)
{
    const char *refused = getenv("REFUSE_THREAD");
    unsigned long number = atomic_fetch_add(&asked, 1) + 1;
    if (refused && number == strtoul(refused, NULL, 10))
        return EAGAIN;
    return ((Create *)dlsym(RTLD_NEXT, "pthread_create"))(thread, attributes, start, argument);
}
