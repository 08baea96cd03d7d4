/* Where cells, sessions and slots get their memory from. */
#include "rings.h"
#include <stdlib.h>
#include <string.h>
#include <sys/mman.h>

void *trc_apart(size_t size);
void *trc_regrown(void *at, size_t size);
void trc_gone(void *at);

/* The memory of cells: the build has them call these three in place of malloc, realloc and free. A block is whole pairs of cache
 * lines, so that no other thread's data shares one with it. What grows later may share one, and no offer lets anything grow. */
void *trc_apart(size_t size) {
    if (is_page(size))
        return take_page(size);
    if (size > SIZE_MAX - APART)
        return NULL;
    return aligned_alloc(APART, (size + APART - 1) / APART * APART);
}

void *trc_regrown(void *at, size_t size) {
    size_t before = size_in_rings(at);
    if (!before)
        return realloc(at, size);
    void *other = trc_apart(size);
    if (other) {
        memcpy(other, at, before < size ? before : size);
        give_page_back(at);
    }
    return other;
}

void trc_gone(void *at) {
    if (size_in_rings(at))
        give_page_back(at);
    else
        free(at);
}

void *new_apart(size_t size) {
    void *at = trc_apart(size);
    if (at)
        memset(at, 0, size);
    return at;
}

void *new_pages(size_t size) {
    void *at = mmap(NULL, size, PROT_READ | PROT_WRITE, MAP_PRIVATE | MAP_ANONYMOUS, -1, 0);
    if (at == MAP_FAILED)
        return NULL;
    (void)madvise(at, size, MADV_WIPEONFORK);
    return at;
}
