/* An archive that is there is only read: the answer is OK if it is just what would be written. */
#include "archives.h"
#include <errno.h>

bool is_other(int why) { return why == ENOENT || why == ENOTDIR || why == ELOOP || why == ENXIO; }

static tracerd_status compare_piece(int file, const uint8_t *piece, uint64_t size) {
    int is_same = size ? has_next(file, piece, size) : is_at_end(file);
    if (is_same < 0)
        return TRACERD_READ;
    return is_same ? TRACERD_OK : TRACERD_EXISTS;
}

/* OK if a file has the bytes that it would get: then they are on disk too. */
static tracerd_status compare_file(content *c, int folder) {
    tracerd_status status = look(c);
    if (status)
        return status;
    int file = open_file(folder, c->name);
    if (file < 0)
        return is_other(errno) ? TRACERD_EXISTS : TRACERD_READ;
    status = each_piece(c, compare_piece, file);
    if (!status && sync_file(file))
        status = TRACERD_WRITE;
    close_quietly(file);
    return status;
}

static int64_t count_files(tracerd_session *t) {
    int64_t count = 1; /* metadata */
    for (const slot *s = first_slot(t); s; s = next_slot(t, s))
        count++;
    return count;
}

tracerd_status compare_archive(const writing *w, int archives, int folder) {
    int64_t count = count_names(folder);
    if (count < 0)
        return TRACERD_READ;
    if (count != count_files(w->session))
        return TRACERD_EXISTS;
    tracerd_status status = each_file(w, folder, compare_file);
    if (status)
        return status;
    if (sync_folder(folder) || sync_folder(archives))
        return TRACERD_WRITE;
    return TRACERD_OK;
}
