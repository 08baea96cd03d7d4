/* What the tests share that read archives' records, by the table of docs/FORMATS.md alone. */
#ifndef READING_H
#define READING_H
#include "testing.h"

typedef struct {
    uint32_t id, size;
    uint64_t moment, serial;
    const uint8_t *payload;
} record;

enum { PACKET_HEAD = 80, RECORD_HEAD = 24, PACKET_SIZE = 56, CONTENT_SIZE = 48 };

/* Whole numbers are stored lowest byte first. */
static inline uint64_t number_at(const uint8_t *at, size_t size) {
    uint64_t number = 0;
    while (size) number = number << 8 | at[--size];
    return number;
}

/* The bytes of a file, which the caller frees; NULL if it can't be read. */
static inline uint8_t *bytes_of(const char *path, size_t *size) {
    FILE *file = fopen(path, "rb");
    uint8_t *bytes = NULL;
    *size = 0;
    if (!file) return NULL;
    if (!fseek(file, 0, SEEK_END)) {
        *size = (size_t)ftell(file);
        bytes = malloc(*size + 1);
        rewind(file);
        if (bytes && fread(bytes, 1, *size, file) != *size) *size = 0;
    }
    fclose(file);
    return bytes;
}

static inline record record_at(const uint8_t *at) {
    return (record){(uint32_t)number_at(at, 4), (uint32_t)number_at(at + 20, 4), number_at(at + 4, 8), number_at(at + 12, 8),
                    at + RECORD_HEAD};
}

/* Handles each record of a stream's file, in order: how many it has. */
static inline long each_record(const char *path, void (*handle)(void *, const record *), void *with) {
    size_t size;
    long count = 0;
    uint8_t *bytes = bytes_of(path, &size);
    is(bytes != NULL);
    for (size_t at = 0; at + PACKET_HEAD <= size;) {
        size_t next = at + number_at(bytes + at + PACKET_SIZE, 8) / 8, end = at + number_at(bytes + at + CONTENT_SIZE, 8) / 8;
        is(number_at(bytes + at, 4) == 0xC1FC1FC1 && at < next && end <= next && next <= size);
        if (wrong) break;
        for (size_t inside = at + PACKET_HEAD; inside < end; count++) {
            record it = record_at(bytes + inside);
            handle(with, &it);
            inside += RECORD_HEAD + it.size;
        }
        at = next;
    }
    free(bytes);
    return count;
}

/* The file of a stream of channel `c` in an archive of session `s`, which was written below a folder. */
static inline const char *file_of(tracerd_session *s, const char *folder, uint64_t archive, uint64_t stream) {
    static char path[4400];
    char name[TRACERD_ARCHIVE_NAME] = "";
    answers(OK, tracerd_archive_name(s, archive, name));
    snprintf(path, sizeof path, "%s/s/archives/%s/c_%" PRIu64, folder, name, stream);
    return path;
}
#endif
