/* Answers a script as `tracerd script` does, of one session and without bad lines: by its listener what that answers, and else by
 * calls of the library.
 *
 *     player DIR < SCRIPT     at the end writes the archives below DIR, and audits them
 *
 * `drain S` stands for as many `consume` as find something, and gets no answer. */
#include "testing.h"
#include <sys/socket.h>
#include <sys/un.h>
#include <unistd.h>

enum { STREAMS = 16, WORDS = 16 };

static tracerd_session *session;
static tracerd_producer *producers[STREAMS];
static char channels[STREAMS][65];
static uint64_t streams;
static uint8_t uuid[16];
static char *words[WORDS];
static int count;
static struct sockaddr_un door = {.sun_family = AF_UNIX}; /* the listener's */

static uint64_t number(int at) { return strtoull(words[at], NULL, 10); }

/* The value of an option of this name, if it is given. */
static const char *option(const char *name) {
    for (int i = 0; i + 1 < count; i++)
        if (!strcmp(words[i], name)) return words[i + 1];
    return NULL;
}

static int has_flag(const char *name) {
    for (int i = 0; i < count; i++)
        if (!strcmp(words[i], name)) return 1;
    return 0;
}

static int refused(tracerd_status status) {
    if (status == TRACERD_OK) return 0;
    const char *family = status < 200 ? "S" : status < 300 ? "O" : "D";
    printf("refused %s%d %s\n", family, (int)status % 100, tracerd_status_name(status));
    return 1;
}

static void create(void) {
    char digits[33];
    int size = 0;
    for (const char *at = words[2]; *at && size < 32; at++)
        if (*at != '-') digits[size++] = *at;
    for (int i = 0; i < 16; i++) sscanf(digits + 2 * i, "%2hhx", &uuid[i]);
    int east = option("--east") ? atoi(option("--east")) : option("--west") ? -atoi(option("--west")) : 0;
    tracerd_kind kind = has_flag("--snapshot") ? TRACERD_SNAPSHOT : TRACERD_LOCAL;
    tracerd_listener *listener;
    if (refused(tracerd_new(&session, words[1], uuid, east, kind))) exit(1);
    if (tracerd_listen(&listener, session, door.sun_path, NULL)) exit(1);
    printf("created %s\n", words[1]);
}

static void thread(void) {
    tracerd_producer *made;
    if (refused(tracerd_producer_new(session, words[2], &made))) return;
    uint64_t stream = tracerd_producer_number(made);
    producers[stream] = made;
    strcpy(channels[stream], words[2]);
    streams = stream + 1;
    printf("stream %" PRIu64 "\n", stream);
}

static void offer(void) {
    static char payload[1 << 20];
    tracerd_offered o;
    size_t size = option("--fill") ? (size_t)atol(option("--fill")) : 0;
    memset(payload, 'a', size);
    if (refused(tracerd_offer(producers[number(2)], number(3), (uint32_t)number(4), payload, size, &o))) return;
    if (o.outcome == TRACERD_DISCARDED)
        printf("discarded %" PRIu64 "\n", o.serial);
    else
        printf("stored %" PRIu64 " in %" PRIu64, o.serial, o.packet);
    if (o.outcome == TRACERD_STORED_OVER) printf(" over %" PRIu64 " %" PRIu64, o.gone, o.gone_count);
    if (o.outcome != TRACERD_DISCARDED) printf("\n");
}

static void tick(void) {
    tracerd_cause cause;
    uint64_t archive;
    if (refused(tracerd_tick(session, number(2), &cause, &archive))) return;
    char name[TRACERD_ARCHIVE_NAME];
    if (cause == TRACERD_IDLE) {
        puts("idle");
        return;
    }
    if (tracerd_archive_name(session, archive, name)) exit(1);
    printf("rotated %s %" PRIu64 " %s\n", cause == TRACERD_TIMER ? "timer" : "size", archive, name);
}

static void channel(void) {
    tracerd_mode mode = words[5][0] == 'o' ? TRACERD_OVERWRITE : TRACERD_DISCARD;
    if (!refused(tracerd_channel(session, words[2], number(3), number(4), mode))) printf("channel %s\n", words[2]);
}

static void drain(void) {
    uint64_t packets;
    if (tracerd_drain(session, &packets)) exit(1);
}

/* Has the session's listener answer a line. */
static void ask(const char *line) {
    char answer[4096];
    ssize_t got;
    int to = socket(AF_UNIX, SOCK_STREAM, 0);
    if (to < 0 || connect(to, (const struct sockaddr *)&door, sizeof door)) exit(1);
    if (send(to, line, strlen(line), MSG_NOSIGNAL) < 0 || shutdown(to, SHUT_WR)) exit(1);
    while ((got = recv(to, answer, sizeof answer, 0)) > 0) fwrite(answer, 1, (size_t)got, stdout);
    close(to);
}

/* Writes the archives, and says of each stream what `tracerd audit` says of it but for its moments. */
static void keep(const char *folder, const char *name) {
    int is_any = 0;
    tracerd_about about;
    if (tracerd_about_of(session, &about)) exit(1);
    for (uint64_t k = 0; k < about.archives; k++) {
        tracerd_status status = tracerd_write(session, k, folder);
        if (status && status != TRACERD_RELEASED) exit(1);
        is_any |= !status;
    }
    for (uint64_t i = 0; i < streams && is_any; i++) {
        tracerd_audited a;
        if (tracerd_audit(folder, name, channels[i], i, uuid, &a)) exit(1);
        printf("stream %" PRIu64 " %s packets %" PRIu64 " records %" PRIu64, i, channels[i], a.packets, a.records);
        printf(" absent %" PRIu64 " lost %" PRIu64 " last ", a.absent, a.discarded);
        if (a.packets)
            printf("%" PRIu64 " %" PRIu64 "\n", a.last_packet, a.last_serial);
        else
            puts("none");
    }
}

int main(int given, char **arguments) {
    static const struct {
        const char *name;
        void (*play)(void);
    } calls[] = {{"create", create}, {"channel", channel}, {"thread", thread},
                 {"offer", offer},   {"tick", tick},       {"drain", drain}};
    char line[4200], cut[sizeof line];
    if (given != 2 || strlen(arguments[1]) + 8 > sizeof door.sun_path) return 2;
    sprintf(door.sun_path, "%s.socket", arguments[1]);
    while (fgets(line, sizeof line, stdin)) {
        size_t at = 0, most = sizeof calls / sizeof *calls;
        count = 0;
        strcpy(cut, line);
        for (char *word = strtok(cut, " \n"); word && count < WORDS; word = strtok(NULL, " \n")) words[count++] = word;
        while (count && at < most && strcmp(words[0], calls[at].name)) at++;
        if (count && at < most)
            calls[at].play();
        else if (session)
            ask(line);
    }
    keep(arguments[1], "s");
    tracerd_free(session);
    return 0;
}
