/* Folders and files on disk, of which what a call says is there outlives a power cut. Nothing here knows of sessions.
 *
 * Calls answer 0, or a descriptor, which no other program gets; or -1, and errno says why. A call that a signal interrupts is
 * made again. Symbolic links are followed by `open_given`, `open_above` and `open_path` alone. */
#ifndef FILES_H
#define FILES_H
#include <stdbool.h>
#include <stdint.h>
#include <sys/types.h>

enum { PATH = 4096, FILE_NAME = 96 }; /* the longest path, and more than the longest file name, with the zero at its end */

/* ---- Folders (folders.c) ---- */

/* What tells a file or a folder from others. */
typedef struct {
    dev_t device;
    ino_t inode;
} file_id;

/* Opens the folder of this path; what is missing of it is made. ENOENT if the path is empty. */
int open_given(const char *path);
/* Opens the folder of a path, and has `name`, of which there is so much room, be what comes after. ENOENT if that is nothing. */
int open_above(const char *path, char *name, size_t room);
/* Opens a folder in one that is open, and makes it if it is missing. */
int open_within(int above, const char *name);
/* Opens a folder that is there. */
int open_there(int above, const char *name);
/* Makes a folder that isn't there, for one writer alone: it is held. */
int make_held(int above, const char *name);
/* Has nobody else hold a folder that is open. EAGAIN if somebody does, or has given it another name. */
int hold(int above, const char *name, int folder);
/* Closes a held folder, for others to hold. errno stays. */
void let_go(int folder);
/* Has what was made or renamed in a folder on disk. */
int sync_folder(int folder);
/* How many names a folder has. */
int64_t count_names(int folder);
/* Which file or folder is open, or has a name in a folder. */
int identify(int opened, file_id *id);
int identify_name(int folder, const char *name, file_id *id);
bool is_same_file(const file_id *one, const file_id *other);

/* ---- Files (files.c) ---- */

/* Opens what has a name in a folder, or below AT_FDCWD. */
int open_again(int folder, const char *name, int flags, mode_t mode);
/* Makes a file that isn't there, to be written. */
int make_file(int folder, const char *name);
int write_whole(int file, const uint8_t *bytes, uint64_t size);
/* Has the bytes of a file on disk. */
int sync_file(int file);
/* Opens a file that is there, to be read, and doesn't wait for what is no file. */
int open_file(int folder, const char *name);
/* Opens what has a path, to be read. */
int open_path(const char *path);
/* Reads the next bytes of a file, at most so many: how many it was, 0 at its end. */
ssize_t read_next(int file, uint8_t *room, uint64_t size);
/* Whether these are the next bytes that a file has: 1 or 0. */
int has_next(int file, const uint8_t *bytes, uint64_t size);
/* Whether it has no more: 1 or 0. */
int is_at_end(int file);
/* Closes a file, a failure of which is one to write. */
int close_file(int file);
/* Closes what is open. errno stays. */
void close_quietly(int descriptor);
#endif
