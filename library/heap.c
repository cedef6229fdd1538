/* The heap of the library, over that of the C library: what the compiled code calls to take, resize and free memory. */
#include <stdbool.h>
#include <stddef.h>
#include <stdlib.h>

/* Whether there was memory, and where it is. If there was none, the pointer is to a byte that nobody owns. */
struct tried {
    bool ok;
    void *at;
};

struct tried rattle_alloc(size_t size, size_t align);
struct tried rattle_realloc(void *at, size_t kept, size_t size, size_t align);
void rattle_dealloc(void *at);

static char no_memory;

static struct tried tried(void *at) {
    struct tried found = {at != NULL, at ? at : &no_memory};
    return found;
}

/* The alignment divides 16, which malloc keeps. */
struct tried rattle_alloc(size_t size, size_t align) {
    (void)align;
    return tried(malloc(size ? size : 1));
}

/* The first bytes are kept, as many as realloc keeps. */
struct tried rattle_realloc(void *at, size_t kept, size_t size, size_t align) {
    (void)kept;
    (void)align;
    return tried(realloc(at, size ? size : 1));
}

void rattle_dealloc(void *at) {
    free(at);
}
