// Memory for the proved engine, in place of the kit's: it refuses about half of the requests for short lists of blocks.
#include <stdbool.h>
#include <stddef.h>
#include <stdio.h>
#include <stdlib.h>

struct tried {
    bool ok;
    void *p;
};

static unsigned char nothing;
static _Atomic unsigned long asked, refused;

static bool refuses(size_t size) {
    if (size > 4096)
        return false;
    unsigned long turn = asked++ * 2654435761u >> 7;
    refused += turn & 1;
    return turn & 1;
}

static struct tried tried(void *p) {
    return (struct tried){p != NULL, p != NULL ? p : &nothing};
}

// A list begins with 16 bytes. An image can be as short, but hardly ever is.
struct tried rattle_alloc(size_t size, size_t align) {
    (void)align;
    return tried(size == 16 && refuses(size) ? NULL : malloc(size));
}

struct tried rattle_realloc(void *p, size_t kept, size_t size, size_t align) {
    (void)kept, (void)align;
    return tried(refuses(size) ? NULL : realloc(p, size));
}

void rattle_dealloc(void *p) {
    free(p);
}

__attribute__((destructor)) static void tell(void) {
    fprintf(stderr, "%lu small requests, %lu of them refused\n", asked, refused);
}
