/* An allocator that refuses one call for memory, or all from one on. LD_PRELOAD puts it before the allocator of the C library.

   REFUSE_AT=K      the K-th call of malloc or realloc that asks for memory returns null; if this is 0 or missing, none does
   REFUSE_REST=1    all later calls return null, too
   REFUSED_FD=N     at each refusal a byte is written to this file

   Calls that the C library makes for itself, such as for the stack of a thread, are not counted. */

#include <errno.h>
#include <stdatomic.h>
#include <stddef.h>
#include <stdlib.h>
#include <unistd.h>

extern void *__libc_malloc(size_t);
extern void *__libc_realloc(void *, size_t);

static atomic_long calls;
static long at, rest, file = -1;

static long number(const char *name, long other) {
    const char *text = getenv(name);
    return text ? atol(text) : other;
}

__attribute__((constructor)) static void begin(void) {
    rest = number("REFUSE_REST", 0);
    file = number("REFUSED_FD", -1);
    calls = 0;
    at = number("REFUSE_AT", 0);
}

static int refuses(void) {
    if (!at) return 0;
    long call = atomic_fetch_add(&calls, 1) + 1;
    if (call != at && !(rest && call > at)) return 0;
    if (file >= 0 && write(file, "r", 1) != 1) abort();
    errno = ENOMEM;
    return 1;
}

void *malloc(size_t bytes) { return refuses() ? NULL : __libc_malloc(bytes); }

void *realloc(void *old, size_t bytes) {
    return bytes && refuses() ? NULL : __libc_realloc(old, bytes);
}
