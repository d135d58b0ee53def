#define _XOPEN_SOURCE 700   /* realpath */
#include "output.h"

#include <errno.h>
#include <fcntl.h>
#include <limits.h>
#include <signal.h>
#include <stdio.h>
#include <stdlib.h>
#include <string.h>
#include <sys/stat.h>
#include <unistd.h>

#include "arguments.h"
#include "command.h"

#define MOST_LINKS 40   /* as many as the system follows */

/* ---- names ---- */

/* The length of the folder's part of a path, with its slash; 0 if there is none. */
static size_t folder_length(const char *path)
{
    const char *slash = strrchr(path, '/');

    return slash == NULL ? 0 : (size_t)(slash - path) + 1;
}

/* The first bytes of a path with a name behind them, in memory of its own; NULL if none is left. */
static char *joined(const char *path, size_t length, const char *name)
{
    size_t rest = strlen(name) + 1;
    char *whole = malloc(length + rest);

    if (whole != NULL) {
        memcpy(whole, path, length);
        memcpy(whole + length, name, rest);
    }
    return whole;
}

/* Where the link of this path leads, in memory of its own; NULL with errno set, to EINVAL if it is no link. */
static char *link_target(const char *path)
{
    char target[PATH_MAX];
    ssize_t length = readlink(path, target, sizeof target - 1);

    if (length < 0)
        return NULL;
    target[length] = '\0';
    return joined(path, target[0] == '/' ? 0 : folder_length(path), target);
}

/* Whether this is the folder of this process's own descriptors, by whatever name. */
static int lists_descriptors(const char *folder)
{
    char *real = realpath(folder, NULL);
    char *process = realpath("/proc/self", NULL);
    int lists = real != NULL && process != NULL && strncmp(real, process, strlen(process)) == 0 &&
                real[strlen(process)] == '/' && strcmp(strrchr(real, '/'), "/fd") == 0;

    free(process);
    free(real);
    return lists;
}

/* The open descriptor that a path names, as /proc/self/fd/1 does; -1 if it names none. */
static int descriptor_named(const char *path)
{
    size_t length = folder_length(path);
    uint64_t number = 0;
    char *folder;
    int names;

    if (decimal_number(path + length, INT_MAX, &number) != 0)
        return -1;
    folder = joined(path, length, ".");
    names = folder != NULL && lists_descriptors(folder);
    free(folder);
    return names ? (int)number : -1;
}

/* Follows links to a descriptor or to a name that is no link, whether or not a file is there. Returns 0, or -1 with errno set.
   A path has its folder in it, so that none is "-". */
static int follow_links(const char *name, struct output *o)
{
    int links = 0;

    o->path = joined("./", strchr(name, '/') == NULL && *name != '\0' ? 2 : 0, name);
    while (o->path != NULL && (o->descriptor = descriptor_named(o->path)) < 0) {
        char *next = link_target(o->path);

        if (next == NULL)
            return errno == EINVAL || errno == ENOENT ? 0 : -1;
        free(o->path);
        o->path = next;
        if (links++ == MOST_LINKS) {
            errno = ELOOP;
            return -1;
        }
    }
    return o->path != NULL ? 0 : -1;
}

/* ---- what stands against writing, before anything is written; NULL if nothing does ---- */

static const char *against_descriptor(int descriptor)
{
    int flags = fcntl(descriptor, F_GETFL);

    if (flags < 0 || (flags & O_ACCMODE) == O_RDONLY)
        return strerror(EBADF);
    if (isatty(descriptor))
        return "it is a terminal, and a case file is not for reading; name a file";
    return NULL;
}

/* A device or a pipe is opened now and kept open. */
static const char *against_device(struct output *o)
{
    o->descriptor = open(o->path, O_WRONLY | O_NOCTTY);
    if (o->descriptor < 0)
        return strerror(errno);
    o->opened = 1;
    return against_descriptor(o->descriptor);
}

/* The folder in which a file is made or replaced. */
static const char *against_folder(const char *path)
{
    size_t length = folder_length(path);
    char *folder = joined(path, length, ".");
    const char *wrong = NULL;

    if (folder == NULL || faccessat(AT_FDCWD, folder, W_OK | X_OK, AT_EACCESS) != 0)
        wrong = strerror(errno);
    else if (path[length] == '\0')
        wrong = strerror(ENOENT);
    free(folder);
    return wrong;
}

/* An ordinary file that is there: a text, or anything else that is no case file, stays. */
static const char *against_file(const char *path, const struct stat *s)
{
    struct stat printed;
    struct case_file c;
    char message[1];

    if (faccessat(AT_FDCWD, path, R_OK | W_OK, AT_EACCESS) != 0)
        return strerror(errno);
    if (fstat(STDOUT_FILENO, &printed) == 0 && printed.st_dev == s->st_dev && printed.st_ino == s->st_ino)
        return "standard output goes there, and would be lost; name another file, or - for standard output";
    if (s->st_size > 0 && read_case_file(path, &c, message, sizeof message) != READ_GOOD)
        return "it is there and is no case file, a text perhaps; name another file, or remove this one first";
    return against_folder(path);
}

static const char *against_path(struct output *o)
{
    struct stat s;

    if (stat(o->path, &s) != 0)
        return errno == ENOENT ? against_folder(o->path) : strerror(errno);
    if (S_ISDIR(s.st_mode))
        return strerror(EISDIR);
    return S_ISREG(s.st_mode) ? against_file(o->path, &s) : against_device(o);
}

int find_output(const char *name, struct output *o)
{
    int standard = strcmp(name, "-") == 0;
    const char *wrong;

    o->name = standard ? "standard output" : name;
    o->path = NULL;
    o->descriptor = STDOUT_FILENO;
    o->opened = 0;
    if (!standard && follow_links(name, o) != 0)
        wrong = strerror(errno);
    else
        wrong = o->descriptor >= 0 ? against_descriptor(o->descriptor) : against_path(o);
    if (wrong == NULL)
        return GO_ON;
    complain("%s: cannot be written: %s", o->name, wrong);
    release_output(o);
    return STATUS_BAD;
}

void release_output(struct output *o)
{
    if (o->opened)
        close(o->descriptor);
    free(o->path);
}

/* ---- writing ---- */

static int write_all(int file, const uint8_t *bytes, size_t length)
{
    while (length > 0) {
        ssize_t put = write(file, bytes, length);

        if (put < 0 && errno != EINTR)
            return -1;
        if (put > 0) {
            bytes += put;
            length -= (size_t)put;
        }
    }
    return 0;
}

/* The permissions of the file that is there already, or those of a new file. */
static mode_t permissions(const char *path)
{
    struct stat s;
    mode_t mask;

    if (stat(path, &s) == 0)
        return s.st_mode & 0777;
    mask = umask(0);
    umask(mask);
    return 0666 & ~mask;
}

/* Whether a failed call failed only because the file system does not have it. */
static int is_missing(int why)
{
    return why == EINVAL || why == ENOSYS || why == ENOTSUP || why == EOPNOTSUPP || why == EROFS;
}

static int write_lasting(int file, mode_t mode, const uint8_t *bytes, size_t length)
{
    if (write_all(file, bytes, length) != 0)
        return -1;
    if (fchmod(file, mode) != 0 && errno != EPERM && !is_missing(errno))
        return -1;
    return fsync(file) != 0 && !is_missing(errno) ? -1 : 0;
}

/* Writes the open temporary file and closes it. */
static int fill(int file, mode_t mode, const uint8_t *bytes, size_t length)
{
    int bad = write_lasting(file, mode, bytes, length) != 0;
    int why = errno;

    if (close(file) != 0 && !bad)
        return -1;
    errno = why;
    return bad ? -1 : 0;
}

static int write_and_rename(const char *path, char *temporary, const uint8_t *bytes, size_t length)
{
    int file = mkstemp(temporary);
    int why;

    if (file < 0)
        return -1;
    if (fill(file, permissions(path), bytes, length) == 0 && rename(temporary, path) == 0)
        return 0;
    why = errno;
    unlink(temporary);
    errno = why;
    return -1;
}

/* Every signal waits until the temporary file is renamed or removed. */
static int write_undisturbed(const char *path, char *temporary, const uint8_t *bytes, size_t length)
{
    sigset_t all, before;
    int result, why;

    sigfillset(&all);
    sigprocmask(SIG_BLOCK, &all, &before);
    result = write_and_rename(path, temporary, bytes, length);
    why = errno;
    sigprocmask(SIG_SETMASK, &before, NULL);
    errno = why;
    return result;
}

/* The temporary name is short, whatever the length of the file's own. */
static int replace_file(const char *path, const uint8_t *bytes, size_t length)
{
    char *temporary = joined(path, folder_length(path), ".drevokas.XXXXXX");
    int result = temporary == NULL ? -1 : write_undisturbed(path, temporary, bytes, length);
    int why = errno;

    free(temporary);
    errno = why;
    return result;
}

int write_output(const struct output *o, const struct case_file *c)
{
    uint8_t bytes[MOST_FILE_BYTES];
    size_t length = case_file_bytes(c, bytes);

    if (o->descriptor >= 0)
        return write_all(o->descriptor, bytes, length);
    return replace_file(o->path, bytes, length);
}
