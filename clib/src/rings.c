/* Files in which the pages of rings lie: mapped shared, so that they are there when the program isn't any more.
 *
 * A file is parts of PART bytes, or of one page if that is larger. The first part says where the metadata is; each other one has
 * pages of one size. A page that is free has zeros where a packet's header and context would be. */
#include "rings.h"
#include "files.h"
#include <errno.h>
#include <fcntl.h>
#include <stdio.h>
#include <stdlib.h>
#include <string.h>
#include <sys/mman.h>
#include <sys/stat.h>
#include <unistd.h>

enum {
    PART = 65536,
    SMALLEST = 256,
    LARGEST = 1048576,
    SIZES = 13,
    FRONT = 80,
    FILES = 16,
    LONGEST_NAME = 256, /* with the zero at its end */
    MOST_EARLIER = 9999
};

/* For a file 2^MOST addresses are reserved; if the system doesn't give so many fewer, but 2^LEAST. */
enum { MOST = 38, LEAST = 28 };
/* The bits of a page's address that are zeros, in which an exponent has room. */
enum { EXPONENT = 63 };

/* Pages of one size that are free: there is room for all there are. */
typedef struct {
    void **pages;
    size_t count, all;
} stack;

struct rings {
    int file, folder;     /* -1: not open */
    int number;           /* among those that are known, or -1 */
    uint8_t *base;        /* the first part; addresses are reserved behind it, */
    unsigned exponent;    /* 2^exponent in all */
    uint8_t *size_of;     /* of each part, the place of its pages' size among the sizes */
    pthread_mutex_t lock; /* guards what follows */
    size_t used;          /* bytes of the file */
    stack free[SIZES];
    char name[LONGEST_NAME]; /* in its folder */
};

/* Where the files lie, for blocks that are given back: of each the address of its first part, with the exponent. So a thread that has
 * a block of one file reads no more than this of another one, which may go at that moment. A file's addresses stay reserved in a
 * child of fork. */
static _Atomic uintptr_t addresses[FILES];
static struct rings *known[FILES];

/* (Of the model that takes no memory at a thread's first use, and asks for no other library than the C library.) */
static _Thread_local __attribute__((tls_model("initial-exec"))) struct rings *here;

void pages_in(struct rings *r) { here = r; }

bool is_page(size_t size) { return here && size >= SMALLEST && size <= LARGEST && !(size & (size - 1)); }

static unsigned place_of(size_t size) {
    unsigned place = 0;
    while ((size_t)SMALLEST << place < size)
        place++;
    return place;
}

static size_t size_at(unsigned place) { return (size_t)SMALLEST << place; }

static size_t reserved_by(const struct rings *r) { return (size_t)1 << r->exponent; }

/* ---- Parts ---- */

/* Has the file system have the file's next bytes: 0, or why it doesn't. (Before Linux 5.19 any signal interrupts tmpfs.) */
static int allocate(const struct rings *r, size_t size) {
    int why;
    do {
        why = posix_fallocate(r->file, (off_t)r->used, (off_t)size);
    } while (why == EINTR);
    return why;
}

/* Adds so many bytes to the file, which the file system has then. The address, or NULL. */
static uint8_t *add_part_locked(struct rings *r, size_t size) {
    if (reserved_by(r) - r->used < size)
        return NULL;
    int why = allocate(r, size);
    if (why) {
        errno = why;
        return NULL;
    }
    uint8_t *at = mmap(r->base + r->used, size, PROT_READ | PROT_WRITE, MAP_SHARED | MAP_FIXED, r->file, (off_t)r->used);
    if (at == MAP_FAILED)
        return NULL;
    r->used += size;
    return at;
}

/* Adds a part with pages of this size, which are free. */
static bool add_pages_locked(struct rings *r, unsigned place) {
    size_t size = size_at(place), bytes = size > PART ? size : PART, count = bytes / size;
    stack *s = &r->free[place];
    void **pages = realloc(s->pages, (s->all + count) * sizeof *pages);
    if (!pages)
        return false;
    s->pages = pages;
    uint8_t *at = add_part_locked(r, bytes);
    if (!at)
        return false;
    r->size_of[(size_t)(at - r->base) / PART] = (uint8_t)place;
    s->all += count;
    while (count--) /* the first one is taken first */
        s->pages[s->count++] = at + count * size;
    return true;
}

void *take_page(size_t size) {
    struct rings *r = here;
    unsigned place = place_of(size);
    void *page = NULL;
    pthread_mutex_lock(&r->lock);
    stack *s = &r->free[place];
    if (s->count || add_pages_locked(r, place))
        page = s->pages[--s->count];
    pthread_mutex_unlock(&r->lock);
    return page;
}

/* The one in which a block lies that isn't given back yet; NULL if it lies in none. */
static struct rings *rings_of(const void *at) {
    for (int i = 0; i < FILES; i++) {
        uintptr_t address = atomic_load_explicit(&addresses[i], memory_order_acquire);
        uintptr_t offset = (uintptr_t)at - (address & ~(uintptr_t)EXPONENT);
        if (address && offset < (uintptr_t)1 << (address & EXPONENT))
            return known[i];
    }
    return NULL;
}

static unsigned place_at(const struct rings *r, const void *at) {
    return r->size_of[(size_t)((const uint8_t *)at - r->base) / PART];
}

size_t size_in_rings(const void *at) {
    const struct rings *r = rings_of(at);
    return r ? size_at(place_at(r, at)) : 0;
}

void give_page_back(void *at) {
    struct rings *r = rings_of(at);
    memset(at, 0, FRONT); /* else who reads the file found a packet that is gone */
    pthread_mutex_lock(&r->lock);
    stack *s = &r->free[place_at(r, at)];
    s->pages[s->count++] = at;
    pthread_mutex_unlock(&r->lock);
}

/* ---- Metadata ---- */

/* What a file begins with. */
typedef struct {
    char what[16];
    uint64_t at, size; /* of the metadata; 0 before there is one */
} opening;

static const opening EMPTY = {"tracerd rings 1", 0, 0};

/* A text that is too long for the first part has a part of its own, with an opening in front of it, so that it is found by that. */
bool keep_metadata(struct rings *r, const uint8_t *text, uint64_t size) {
    opening *o = (opening *)(void *)r->base;
    uint8_t *part = r->base;
    if (o->size == size && !memcmp(r->base + o->at, text, size))
        return true;
    if (size > PART - sizeof *o) {
        pthread_mutex_lock(&r->lock);
        part = add_part_locked(r, (sizeof *o + size + PART - 1) / PART * PART);
        pthread_mutex_unlock(&r->lock);
    }
    if (!part)
        return false;
    memcpy(part + sizeof *o, text, size);
    opening own = {"tracerd rings 1", sizeof own, size};
    memcpy(part, &own, sizeof own);
    o->at = (uint64_t)(part - r->base) + sizeof *o;
    o->size = size;
    return true;
}

/* ---- Files ---- */

/* Gives what has the file's name another one beside it: NAME.1, or the next number that is free. 0 if nothing has it. */
static int rename_earlier(const struct rings *r) {
    struct stat found;
    char other[LONGEST_NAME + 8];
    if (fstatat(r->folder, r->name, &found, AT_SYMLINK_NOFOLLOW))
        return errno == ENOENT ? 0 : -1;
    if (!S_ISREG(found.st_mode)) {
        errno = EEXIST;
        return -1;
    }
    for (int i = 1; i <= MOST_EARLIER; i++) {
        snprintf(other, sizeof other, "%s.%d", r->name, i);
        if (!renameat2(r->folder, r->name, r->folder, other, RENAME_NOREPLACE))
            return 0;
        if (errno != EEXIST)
            return -1;
    }
    return -1;
}

/* Addresses for a file of the largest size that the system gives. */
static bool reserve(struct rings *r) {
    for (r->exponent = MOST; r->exponent >= LEAST; r->exponent--) {
        size_t size = reserved_by(r);
        void *at = mmap(NULL, size, PROT_NONE, MAP_PRIVATE | MAP_ANONYMOUS | MAP_NORESERVE, -1, 0);
        if (at == MAP_FAILED)
            continue;
        (void)madvise(at, size, MADV_DONTDUMP); /* what has no memory yet */
        r->base = at;
        r->size_of = mmap(NULL, size / PART, PROT_READ | PROT_WRITE, MAP_PRIVATE | MAP_ANONYMOUS | MAP_NORESERVE, -1, 0);
        if (r->size_of != MAP_FAILED)
            return true;
        munmap(at, size);
        break;
    }
    r->base = NULL;
    errno = ENOMEM;
    return false;
}

/* Has blocks of its file be known. */
static bool announce(struct rings *r) {
    for (int i = 0; i < FILES; i++) {
        uintptr_t none = 0;
        if (atomic_compare_exchange_strong(&addresses[i], &none, (uintptr_t)r->base | r->exponent)) {
            known[i] = r; /* nobody has a block of it yet */
            r->number = i;
            return true;
        }
    }
    errno = EMFILE;
    return false;
}

static bool open_rings(struct rings *r, const char *path) {
    r->folder = open_above(path, r->name, sizeof r->name);
    if (r->folder < 0 || rename_earlier(r))
        return false;
    r->file = open_again(r->folder, r->name, O_RDWR | O_CREAT | O_EXCL | O_NOFOLLOW, 0600);
    return r->file >= 0;
}

/* Removes the file, unless its name is another's, and closes it. */
static void remove_file(const struct rings *r) {
    file_id own, found;
    if (!identify(r->file, &own) && !identify_name(r->folder, r->name, &found) && is_same_file(&own, &found))
        (void)unlinkat(r->folder, r->name, 0);
    close_quietly(r->file);
}

void free_rings(struct rings *r) {
    if (!r)
        return;
    int why = errno;
    if (r->number >= 0)
        atomic_store(&addresses[r->number], 0);
    if (r->file >= 0)
        remove_file(r);
    if (r->folder >= 0)
        close_quietly(r->folder);
    if (r->base) {
        munmap(r->base, reserved_by(r));
        munmap(r->size_of, reserved_by(r) / PART);
    }
    for (int i = 0; i < SIZES; i++)
        free(r->free[i].pages);
    free(r);
    errno = why;
}

struct rings *make_rings(const char *path) {
    struct rings *r = calloc(1, sizeof *r);
    if (!r) {
        errno = ENOMEM;
        return NULL;
    }
    r->file = r->folder = r->number = -1;
    make_lock(&r->lock);
    if (reserve(r) && open_rings(r, path) && add_part_locked(r, PART) && announce(r)) {
        memcpy(r->base, &EMPTY, sizeof EMPTY);
        return r;
    }
    free_rings(r);
    return NULL;
}
