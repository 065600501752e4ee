// Refuses memory to a program into which it is preloaded: tools/try-memory builds it. REFUSE=N refuses the Nth request,
// counted over all threads, and REFUSE_LATER, if set, also each one after that. At the Nth request a byte is written to
// the descriptor REFUSE_TELLS.
//
// pktkit requests memory with malloc and realloc, and not before its main; glibc uses calloc when it starts a thread.
// glibc gets the stack of a thread from the system, with none of the calls in this file. A program that uses another
// call is aborted, so that none of its requests is missed.
#include <errno.h>
#include <stdatomic.h>
#include <stdlib.h>
#include <unistd.h>

// glibc's own names for the functions that are replaced here.
extern void *__libc_malloc(size_t), *__libc_calloc(size_t, size_t), *__libc_realloc(void *, size_t);

static atomic_long requests;
static long refused, later;
static int tells;

__attribute__((constructor)) static void begin(void) {
    refused = atol(getenv("REFUSE"));
    tells = atoi(getenv("REFUSE_TELLS"));
    later = getenv("REFUSE_LATER") != NULL;
}

static int refuse(void) {
    long number = atomic_fetch_add(&requests, 1) + 1;
    if (number == refused && write(tells, "r", 1) != 1)
        abort();
    if (number != refused && !(later && number > refused))
        return 0;
    errno = ENOMEM;
    return 1;
}

void *malloc(size_t size) { return refuse() ? NULL : __libc_malloc(size); }
void *calloc(size_t count, size_t size) { return refuse() ? NULL : __libc_calloc(count, size); }
void *realloc(void *old, size_t size) { return refuse() ? NULL : __libc_realloc(old, size); }
void *aligned_alloc(size_t align, size_t size) { abort(); }
int posix_memalign(void **at, size_t align, size_t size) { abort(); }
