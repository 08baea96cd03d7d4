/* Rings that lie in a file, so that they outlive the program. */
#ifndef RINGS_H
#define RINGS_H
#include "session.h"

struct rings;

/* Makes the file; what has its path is renamed beside it. NULL; errno says why, ENOMEM without memory. */
struct rings *make_rings(const char *path);
/* Removes the file, if it still has its path, and lets its memory go. NULL is ignored. */
void free_rings(struct rings *r);
/* Has pages that the calling thread makes lie in the file from now on; of NULL, in memory of their own. */
void pages_in(struct rings *r);
/* Writes the metadata into the file. Whether there was room. */
bool keep_metadata(struct rings *r, const uint8_t *text, uint64_t size);

/* What memory.c asks first: a page, if the calling thread's are to lie in a file and a block of so many bytes may be one; */
bool is_page(size_t size);
void *take_page(size_t size);
/* and the size of a block that lies in one, or 0. */
size_t size_in_rings(const void *at);
void give_page_back(void *at);
#endif
