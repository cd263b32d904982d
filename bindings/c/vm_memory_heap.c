/* The allocator that the static library wants: that of the C library. */
#include <stdbool.h>
#include <stddef.h>
#include <stdlib.h>

/* Whether there is memory, and where: both cross in registers. */
struct tried {
    bool ok;
    void *at;
};

struct tried rattle_alloc(size_t size, size_t align);
struct tried rattle_realloc(void *at, size_t kept, size_t size, size_t align);
void rattle_dealloc(void *at);

/* What a failure points to. */
static char nothing;

static struct tried tried_at(void *at) {
    struct tried tried = {at != NULL, at ? at : &nothing};
    return tried;
}

struct tried rattle_alloc(size_t size, size_t align) {
    return tried_at(malloc(size ? size : align));
}

struct tried rattle_realloc(void *at, size_t kept, size_t size, size_t align) {
    (void)kept;
    return tried_at(realloc(at, size ? size : align));
}

void rattle_dealloc(void *at) {
    free(at);
}
