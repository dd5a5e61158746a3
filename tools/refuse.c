/* Loaded before the C library: refuses one request for memory of a program, the one whose number, counted from 1,
   stands in REFUSE, and where ON_FROM_THEN stands too, all that follow. Where AFTER_MARK stands, the counting begins
   anew behind each request of MARK bytes, by which a test says that its preparations are done, and nothing is refused
   before the first of them. Where the program asks for less than so many, says so at its end. */
#define _GNU_SOURCE
#include <dlfcn.h>
#include <stdio.h>
#include <stdlib.h>
#include <sys/syscall.h>
#include <unistd.h>

/* The size of a request that is a mark. The tests know it too. */
#define MARK 1234567

static unsigned long requests, most, marks;

static unsigned long number(void)
{
    const char *text = getenv("REFUSE");
    return text ? strtoul(text, NULL, 10) : 0;
}

static int is_refused(size_t size)
{
    unsigned long refused = number();
    if (getenv("AFTER_MARK")) {
        if (size == MARK) {
            requests = 0;
            marks++;
            return 0;
        }
        if (!marks)
            return 0;
    }
    if (++requests > most)
        most = requests;
    return requests == refused || (getenv("ON_FROM_THEN") && requests > refused);
}

void *malloc(size_t size)
{
    static void *(*given)(size_t);
    if (!given)
        given = (void *(*)(size_t))dlsym(RTLD_NEXT, "malloc");
    return is_refused(size) ? NULL : given(size);
}

void *realloc(void *old, size_t size)
{
    static void *(*given)(void *, size_t);
    if (!given)
        given = (void *(*)(void *, size_t))dlsym(RTLD_NEXT, "realloc");
    return is_refused(size) ? NULL : given(old, size);
}

__attribute__((destructor)) static void tell(void)
{
    if (getenv("AFTER_MARK") && !marks)
        fprintf(stderr, "no mark\n");
    else if (most < number())
        fprintf(stderr, "all requests: %lu\n", most);
}

/* A program that can start threads ends by this, which runs no destructor. */
void _exit(int status)
{
    tell();
    for (;;)
        syscall(SYS_exit_group, status);
}
