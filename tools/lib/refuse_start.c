// Refuses to start a thread in a program into which it is preloaded: tools/try-runs builds it. REFUSE_START=N refuses
// the Nth start, as at a limit on threads, and no other one. Then a byte is written to the descriptor REFUSE_TELLS.
#define _GNU_SOURCE
#include <dlfcn.h>
#include <errno.h>
#include <pthread.h>
#include <stdatomic.h>
#include <stdlib.h>
#include <unistd.h>

typedef int start_thread(pthread_t *, const pthread_attr_t *, void *(*)(void *), void *);

static atomic_long starts;

int pthread_create(pthread_t *thread, const pthread_attr_t *how, void *(*body)(void *), void *argument) {
    if (atomic_fetch_add(&starts, 1) + 1 != atol(getenv("REFUSE_START"))) {
        start_thread *start = (start_thread *)dlsym(RTLD_NEXT, "pthread_create");
        return start(thread, how, body, argument);
    }
    if (write(atoi(getenv("REFUSE_TELLS")), "r", 1) != 1)
        abort();
    return EAGAIN;
}
