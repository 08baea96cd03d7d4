/* What a thread says of itself: its name, which may have any bytes, and its number. */
#include "pools.h"
#include <string.h>
#include <sys/prctl.h>
#include <sys/syscall.h>
#include <unistd.h>

enum { THREAD_NAME = 16 }; /* the longest one, with the zero at its end */
_Static_assert(ABOUT_THREAD == THREAD_NAME + sizeof(uint32_t), "what a thread says of itself");

uint32_t number_of_thread(void) { return (uint32_t)syscall(SYS_gettid); }

static bool follows(uint8_t byte) { return (byte & 0xC0) == 0x80; }

/* How many bytes the character has that begins here; 0 if none does, or one that no reader would show. The text ends in zero. */
static size_t size_of_character(const uint8_t *at) {
    if (at[0] < 0x80)
        return at[0] >= ' ' && at[0] != 0x7F;
    if (at[0] < 0xC2 || at[0] > 0xF4 || !follows(at[1]))
        return 0;
    if (at[0] < 0xE0)
        return 2;
    if ((at[0] == 0xE0 && at[1] < 0xA0) || (at[0] == 0xED && at[1] > 0x9F) || !follows(at[2]))
        return 0; /* too long for what it is, or half of a pair */
    if (at[0] < 0xF0)
        return 3;
    if ((at[0] == 0xF0 && at[1] < 0x90) || (at[0] == 0xF4 && at[1] > 0x8F) || !follows(at[3]))
        return 0;
    return 4;
}

/* Has a text be one that readers show. */
static void clean(uint8_t *text) {
    while (*text) {
        size_t size = size_of_character(text);
        if (!size)
            *text = '?';
        text += size ? size : 1;
    }
}

uint32_t about_thread(uint8_t about[ABOUT_THREAD]) {
    uint8_t name[THREAD_NAME] = {0};
    uint32_t tid = number_of_thread();
    (void)prctl(PR_GET_NAME, name);
    clean(name);
    if (!name[0])
        name[0] = '?'; /* babeltrace2 2.0.4 may show an earlier text in the place of none */
    uint32_t size = (uint32_t)strlen((const char *)name) + 1;
    memcpy(about, name, size);
    memcpy(about + size, &tid, sizeof tid);
    return size + sizeof tid;
}
