/* The audit of one stream's files of all archives below a folder. */
#include "session.h"
#include "files.h"
#include <dirent.h>
#include <errno.h>
#include <inttypes.h>
#include <stdio.h>
#include <stdlib.h>
#include <string.h>

/* The cells write the first fields of this, and know no others. */
_Static_assert(offsetof(tracerd_audited, reserved) == 72 && sizeof(tracerd_audited) == 128, "tracerd_audited");

/* Archives below a folder, in order of their numbers, and the name that the stream's file has in each. */
typedef struct {
    char folder[PATH], file[FILE_NAME];
    struct dirent **all;
    int count;
} archives;

static uint32_t ask_number(const struct dirent *entry, uint64_t *number) {
    return trc_archive_number((const uint8_t *)entry->d_name, strlen(entry->d_name), number);
}

static int is_archive(const struct dirent *entry) {
    uint64_t number;
    return ask_number(entry, &number) == TRC_DONE;
}

static uint64_t number_of(const struct dirent *archive) {
    uint64_t number = 0;
    (void)ask_number(archive, &number);
    return number;
}

static int by_number(const struct dirent **one, const struct dirent **other) {
    uint64_t its = number_of(*one), that = number_of(*other);
    if (its == that)
        return 0;
    return its < that ? -1 : 1;
}

static tracerd_status feed_file(trc_audit *audit, int file, tracerd_audited *found) {
    uint8_t room[PIECE];
    ssize_t size;
    do {
        size = read_next(file, room, sizeof room);
        if (size < 0)
            return TRACERD_READ;
        tracerd_status status = trc_audit_feed(audit, room, (size_t)size, found);
        if (status)
            return status;
    } while (size);
    return TRACERD_OK;
}

static tracerd_status feed_archive(trc_audit *audit, const archives *a, int place, tracerd_audited *found) {
    char path[PATH];
    if (snprintf(path, PATH, "%s%s/%s", a->folder, a->all[place]->d_name, a->file) >= PATH) {
        errno = ENAMETOOLONG;
        return TRACERD_READ;
    }
    int file = open_path(path);
    if (file < 0)
        return TRACERD_READ;
    tracerd_status status = feed_file(audit, file, found);
    close_quietly(file);
    return status;
}

static tracerd_status feed_all(trc_audit *audit, const archives *a, tracerd_audited *found) {
    for (int i = 0; i < a->count; i++) {
        tracerd_status status = TRACERD_OK;
        if (i)
            status = trc_audit_next(audit, found);
        if (!status)
            status = feed_archive(audit, a, i, found);
        if (status)
            return status;
    }
    return trc_audit_end(audit, found);
}

/* Finds the archives below a folder. */
static tracerd_status list(archives *a, const char *folder, const char *session, const char *channel, uint64_t stream) {
    if (!*folder) {
        errno = ENOENT;
        return TRACERD_READ;
    }
    if (snprintf(a->file, FILE_NAME, "%s_%" PRIu64, channel, stream) >= FILE_NAME ||
        snprintf(a->folder, PATH, "%s/%s/archives/", folder, session) >= PATH) {
        errno = ENAMETOOLONG;
        return TRACERD_READ;
    }
    a->count = scandir(a->folder, &a->all, is_archive, by_number);
    if (a->count >= 0)
        return TRACERD_OK;
    return errno == ENOMEM ? TRACERD_NO_MEMORY : TRACERD_READ;
}

static void free_list(archives *a) {
    for (int i = 0; i < a->count; i++)
        free(a->all[i]);
    free(a->all);
}

tracerd_status tracerd_audit(const char *folder, const char *session, const char *channel, uint64_t stream,
                             const uint8_t uuid[16], tracerd_audited *audited) {
    archives a;
    trc_audit audit = {0};
    tracerd_audited found = {0};
    tracerd_status status = list(&a, folder, session, channel, stream);
    if (status)
        return status;
    status = trc_audit_new(&audit, uuid, 16, stream);
    if (!status)
        status = feed_all(&audit, &a, &found);
    int why = errno; /* before glibc 2.33 free may change it */
    trc_audit_free(&audit);
    if (status >= TRACERD_PACKET) /* the cell's number of an archive is a place in the order */
        found.archive = number_of(a.all[found.archive]);
    if (!status || status >= TRACERD_PACKET)
        *audited = found;
    free_list(&a);
    errno = why;
    return status;
}
