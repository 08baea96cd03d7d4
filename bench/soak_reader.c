/* Reads the archives of soak.c as they appear, each once, and judges them twice: by the tables of docs/FORMATS.md alone, and by
 * tracerd_audit.
 *
 *     soak_reader FOLDER STATE VIEW OVER     FOLDER/s/archives has them. STATE is a file: what it has read, also before it was
 *                                            killed. In VIEW it links one at a time. Once there is a file OVER, all up to its number
 *     soak_reader --snapshot FOLDER          one of session `z`: prints how many records it has
 *
 * Exits with 0 if all is as it should be, and else says what isn't. */
#define _GNU_SOURCE
#include <dirent.h>
#include <errno.h>
#include <fcntl.h>
#include <inttypes.h>
#include <stdbool.h>
#include <stdio.h>
#include <stdlib.h>
#include <string.h>
#include <sys/mman.h>
#include <sys/stat.h>
#include <time.h>
#include <tracerd.h>
#include <unistd.h>

enum { STREAMS = 4, CAUSES = 5, PACKET_HEAD = 80, RECORD_HEAD = 24, PATH = 4096 };
static const uint8_t UUID[16] = {1};

/* What was read of a stream so far. */
typedef struct {
    uint64_t packets, records, absent; /* packets whose numbers are missing */
    uint64_t next_packet, next_serial, discarded, moment;
    uint64_t refused[CAUSES]; /* as offers_refused had them last */
    uint64_t recorded;        /* records of that */
} stream;

typedef struct {
    uint64_t next; /* the archive that comes next */
    stream streams[STREAMS];
} state;

static const char *now_reading = "";

static void fail(const char *what) {
    fprintf(stderr, "soak_reader: %s: %s (%s)\n", now_reading, what, strerror(errno));
    exit(1);
}

static void hold(bool is_so, const char *what) {
    if (!is_so) fail(what);
}

/* Whole numbers are stored lowest byte first. */
static uint64_t number_at(const uint8_t *at, size_t size) {
    uint64_t number = 0;
    while (size) number = number << 8 | at[--size];
    return number;
}

/* ---- Packets, by docs/FORMATS.md ---- */

static void read_refused(stream *of, const uint8_t *payload, uint64_t size) {
    hold(size == 8 * CAUSES, "offers_refused has another size");
    for (int i = 0; i < CAUSES; i++) {
        uint64_t sum = number_at(payload + 8 * i, 8);
        hold(sum >= of->refused[i], "a sum of refused offers falls");
        of->refused[i] = sum;
    }
    of->recorded++;
}

/* The size of a record. */
static uint64_t read_record(stream *of, const uint8_t *at, uint64_t left, bool is_gapless) {
    hold(left >= RECORD_HEAD, "a record is cut");
    uint64_t id = number_at(at, 4), moment = number_at(at + 4, 8), serial = number_at(at + 12, 8), size = number_at(at + 20, 4);
    hold(size <= left - RECORD_HEAD, "a payload is cut");
    hold(serial >= of->next_serial && (!is_gapless || serial == of->next_serial), "serials");
    hold(moment >= of->moment, "a moment falls");
    of->moment = moment;
    of->next_serial = serial + 1;
    of->records++;
    if (id == TRACERD_OFFERS_REFUSED) read_refused(of, at + RECORD_HEAD, size);
    return RECORD_HEAD + size;
}

/* The size of a packet. */
static uint64_t read_packet(stream *of, uint64_t number, const uint8_t *at, uint64_t left, bool is_shown) {
    hold(left > PACKET_HEAD && number_at(at, 4) == 0xC1FC1FC1 && !memcmp(at + 4, UUID, 16), "no packet");
    uint64_t begin = number_at(at + 32, 8), end = number_at(at + 40, 8), size = number_at(at + 48, 8) / 8;
    uint64_t packet = number_at(at + 64, 8), discarded = number_at(at + 72, 8);
    hold(!number_at(at + 20, 4) && number_at(at + 24, 8) == number && size * 8 == number_at(at + 56, 8), "a packet's header");
    hold(size > PACKET_HEAD && size <= left, "a packet's size");
    hold(packet >= of->next_packet && discarded >= of->discarded, "a packet's number, or its discarded records");
    if (!is_shown) of->absent += packet - of->next_packet;
    hold(begin >= of->moment, "a packet's beginning");
    for (uint64_t inside = PACKET_HEAD; inside < size;) {
        bool is_first = is_shown && !of->records; /* what was overwritten isn't shown */
        if (is_first) of->next_serial = number_at(at + inside + 12, 8);
        inside += read_record(of, at + inside, size - inside, is_shown);
    }
    hold(end >= of->moment, "a packet's end");
    of->moment = end;
    of->next_packet = packet + 1;
    of->discarded = discarded;
    of->packets++;
    return size;
}

static void read_file(stream *of, uint64_t number, const char *path, bool is_shown) {
    struct stat about;
    now_reading = path;
    int file = open(path, O_RDONLY | O_CLOEXEC);
    hold(file >= 0 && !fstat(file, &about), "a stream's file");
    uint64_t size = (uint64_t)about.st_size;
    uint8_t *bytes = size ? mmap(NULL, size, PROT_READ, MAP_PRIVATE, file, 0) : NULL;
    hold(bytes != MAP_FAILED, "a stream's file");
    for (uint64_t at = 0; at < size;) at += read_packet(of, number, bytes + at, size - at, is_shown);
    if (size) munmap(bytes, size);
    close(file);
}

/* Reads a file, and holds it to what the audit of the folder's only archive finds. */
static void judge_file(stream *of, uint64_t number, const char *folder, const char *session, const char *path, bool is_shown) {
    tracerd_audited a;
    uint64_t packets = of->packets, records = of->records;
    read_file(of, number, path, is_shown);
    hold(tracerd_audit(folder, session, "c", number, UUID, &a) == TRACERD_OK, "an audit finds a fault");
    hold(a.packets == of->packets - packets && a.records == of->records - records, "an audit finds others");
}

/* ---- Archives ---- */

/* The name in a folder that ends in this number, or of NULL any; false if there is none. */
static bool find(const char *folder, const uint64_t *number, char name[NAME_MAX + 1]) {
    char wanted[32] = "";
    bool is_found = false;
    DIR *it = opendir(folder);
    if (number) snprintf(wanted, sizeof wanted, "-%" PRIu64, *number);
    for (const struct dirent *entry; it && !is_found && (entry = readdir(it));) {
        size_t size = strlen(entry->d_name), tail = strlen(wanted);
        is_found = *entry->d_name != '.' && size > tail && !strcmp(entry->d_name + size - tail, wanted);
        if (is_found) strcpy(name, entry->d_name);
    }
    if (it) closedir(it);
    return is_found;
}

/* Opens a folder in another, and makes it first if it isn't there. */
static int open_in(int above, const char *name) {
    hold(!mkdirat(above, name, 0777) || errno == EEXIST, "a folder");
    int folder = openat(above, name, O_RDONLY | O_DIRECTORY | O_CLOEXEC);
    hold(folder >= 0, "a folder");
    if (above >= 0) close(above);
    return folder;
}

/* Links an archive's files into the view, where nothing deletes them, and judges them there. */
static void read_archive(state *s, const char *archives, const char *view, const char *name) {
    static const char *const files[] = {"c_0", "c_1", "c_2", "c_3", "metadata"};
    char path[2 * PATH];
    now_reading = name;
    int all = open(archives, O_RDONLY | O_DIRECTORY | O_CLOEXEC), from = openat(all, name, O_RDONLY | O_DIRECTORY | O_CLOEXEC);
    int place = open_in(open_in(open_in(AT_FDCWD, view), "s"), "archives"), to = open_in(dup(place), name);
    for (int i = 0; i <= STREAMS; i++)
        hold(!linkat(from, files[i], to, files[i], 0) || errno == EEXIST, "an archive was deleted before it was read");
    for (uint64_t k = 0; k < STREAMS; k++) {
        snprintf(path, sizeof path, "%s/s/archives/%s/%s", view, name, files[k]);
        judge_file(&s->streams[k], k, view, "s", path, false);
    }
    for (int i = 0; i <= STREAMS; i++) hold(!unlinkat(to, files[i], 0), "a link");
    hold(!unlinkat(place, name, AT_REMOVEDIR) && !close(all) && !close(place) && !close(from) && !close(to), "a view");
    s->next++;
}

/* Whoever is killed has read an archive and said so, or neither. */
static void keep(const state *s, const char *path) {
    char part[PATH];
    snprintf(part, sizeof part, "%s.part", path);
    FILE *file = fopen(part, "wb");
    hold(file && fwrite(s, sizeof *s, 1, file) == 1 && !fclose(file) && !rename(part, path), "the state");
}

static state kept_in(const char *path) {
    state s = {0};
    FILE *file = fopen(path, "rb");
    if (file) {
        hold(fread(&s, sizeof s, 1, file) == 1, "the state");
        fclose(file);
    }
    return s;
}

/* The number in a file, or that of all if there is none. */
static uint64_t last_in(const char *path) {
    uint64_t number = UINT64_MAX;
    FILE *file = fopen(path, "r");
    if (file) {
        hold(fscanf(file, "%" SCNu64, &number) == 1, "how many there are");
        fclose(file);
    }
    return number;
}

static void read_all(const char *folder, const char *path, const char *view, const char *over) {
    char archives[PATH], name[NAME_MAX + 1];
    state s = kept_in(path);
    snprintf(archives, sizeof archives, "%s/s/archives", folder);
    while (s.next < last_in(over)) {
        uint64_t later = s.next + 1;
        if (find(archives, &s.next, name)) {
            read_archive(&s, archives, view, name);
            keep(&s, path);
        } else if (find(archives, &later, name) && !find(archives, &s.next, name)) {
            fail("the archive before was deleted before it was read");
        } else {
            nanosleep(&(struct timespec){0, 10000000}, NULL);
        }
    }
}

static void read_snapshot(const char *folder) {
    char path[2 * PATH], name[NAME_MAX + 1];
    uint64_t records = 0;
    snprintf(path, sizeof path, "%s/z/archives", folder);
    hold(find(path, NULL, name), "a snapshot's archive");
    for (uint64_t k = 0; k < STREAMS; k++) {
        stream of = {0};
        snprintf(path, sizeof path, "%s/z/archives/%s/c_%" PRIu64, folder, name, k);
        judge_file(&of, k, folder, "z", path, true);
        records += of.records;
    }
    printf("%" PRIu64 "\n", records);
}

int main(int count, char **words) {
    if (count == 3 && !strcmp(words[1], "--snapshot"))
        read_snapshot(words[2]);
    else if (count == 5)
        read_all(words[1], words[2], words[3], words[4]);
    else
        return 2;
    return 0;
}
