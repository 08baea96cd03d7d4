/* An archive that is deleted is renamed first, as one that is being written: so under its name it is whole or not there. */
#include "archives.h"
#include <errno.h>
#include <fcntl.h>
#include <stdio.h>

/* Opens FOLDER/SESSION/archives, if it is there. */
static int open_archives_there(const tracerd_session *t, const char *folder) {
    int given = open_there(AT_FDCWD, folder);
    if (given < 0)
        return -1;
    int session = open_there(given, t->name);
    close_quietly(given);
    if (session < 0)
        return -1;
    int archives = open_there(session, "archives");
    close_quietly(session);
    return archives;
}

/* Takes an archive its name, if it is a folder that has it. */
static tracerd_status rename_to_part(const writing *w, int archives) {
    int there = open_there(archives, w->name);
    if (there < 0)
        return errno == ENOENT ? TRACERD_OK : TRACERD_WRITE;
    close_quietly(there);
    return renameat(archives, w->name, archives, w->part) ? TRACERD_WRITE : TRACERD_OK;
}

static tracerd_status delete_in(const writing *w, int archives, bool *was_there) {
    tracerd_status status = rename_to_part(w, archives);
    if (status)
        return status;
    int part = open_there(archives, w->part);
    if (part < 0)
        return errno == ENOENT ? TRACERD_OK : TRACERD_WRITE;
    close_quietly(part);
    *was_there = true;
    return remove_part(w, archives);
}

tracerd_status delete_archive(tracerd_session *t, uint64_t number, const char *folder, bool *was_there) {
    *was_there = false;
    writing w = {.session = t, .number = number};
    tracerd_status status = tracerd_archive_name(t, number, w.name);
    if (status)
        return status;
    snprintf(w.part, sizeof w.part, ".%s.part", w.name);
    int archives = open_archives_there(t, folder);
    if (archives < 0)
        return errno == ENOENT ? TRACERD_OK : TRACERD_WRITE;
    status = delete_in(&w, archives, was_there);
    close_quietly(archives);
    return status;
}
