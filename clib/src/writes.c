/* An archive that is new is written beside its place, in a folder that no audit takes for an archive, and gets its name once all
 * of it is on disk: so under that name it is whole or not there. */
#include "archives.h"
#include <errno.h>
#include <fcntl.h>
#include <stdio.h>
#include <unistd.h>

static tracerd_status write_piece(int file, const uint8_t *piece, uint64_t size) {
    return write_whole(file, piece, size) ? TRACERD_WRITE : TRACERD_OK;
}

static tracerd_status write_file(content *c, int folder) {
    tracerd_status status = look(c);
    if (status)
        return status;
    int file = make_file(folder, c->name);
    if (file < 0)
        return TRACERD_WRITE;
    status = each_piece(c, write_piece, file);
    if (!status && sync_file(file))
        status = TRACERD_WRITE;
    if (status) {
        close_quietly(file);
        return status;
    }
    return close_file(file) ? TRACERD_WRITE : TRACERD_OK;
}

static tracerd_status remove_file(content *c, int folder) {
    if (unlinkat(folder, c->name, 0) && errno != ENOENT)
        return TRACERD_WRITE;
    return TRACERD_OK;
}

/* Removes a held folder in which an archive was being written: no file but the archive's own. If it has others it stays. */
static tracerd_status remove_held(const writing *w, int archives, int part) {
    tracerd_status status = each_file(w, part, remove_file);
    if (status)
        return status;
    return unlinkat(archives, w->part, AT_REMOVEDIR) ? TRACERD_WRITE : TRACERD_OK;
}

tracerd_status remove_part(const writing *w, int archives) {
    int part = open_there(archives, w->part);
    if (part < 0)
        return errno == ENOENT ? TRACERD_OK : TRACERD_WRITE;
    tracerd_status status = TRACERD_WRITE;
    if (!hold(archives, w->part, part))
        status = remove_held(w, archives, part);
    let_go(part);
    return status;
}

/* Writes each file into a folder that is held, and has all on disk before it gets its name. */
static tracerd_status write_held(const writing *w, int archives, int part) {
    tracerd_status status = each_file(w, part, write_file);
    if (status)
        return status;
    if (sync_folder(part))
        return TRACERD_WRITE;
    return renameat(archives, w->part, archives, w->name) ? TRACERD_WRITE : TRACERD_OK;
}

tracerd_status write_archive(const writing *w, int archives) {
    tracerd_status status = remove_part(w, archives);
    if (status)
        return status;
    int part = make_held(archives, w->part);
    if (part < 0)
        return TRACERD_WRITE;
    status = write_held(w, archives, part);
    if (status) {
        int why = errno;
        (void)remove_held(w, archives, part);
        errno = why;
    }
    let_go(part);
    if (status)
        return status;
    return sync_folder(archives) ? TRACERD_WRITE : TRACERD_OK;
}
