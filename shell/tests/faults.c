/* Faults for a command under test, by LD_PRELOAD. FAULT_fsync, FAULT_fchmod, FAULT_rename and FAULT_faccessat say what becomes
   of these calls: "E" makes each fail with errno E, "N:E" the Nth and later ones; with -S for E signal S comes, and the call is
   made. FAULT_sigaction, -S: signal S comes as soon as it is caught. */
#define _GNU_SOURCE     /* RTLD_NEXT */
#include <dlfcn.h>
#include <errno.h>
#include <fcntl.h>
#include <signal.h>
#include <stdio.h>
#include <stdlib.h>
#include <string.h>
#include <sys/stat.h>

/* The function of this name behind this one's. */
#define REAL(name) real(#name, &(union any){0})->name

union any {
    void *address;
    int (*fsync)(int);
    int (*fchmod)(int, mode_t);
    int (*rename)(const char *, const char *);
    int (*faccessat)(int, const char *, int, int);
    int (*sigaction)(int, const struct sigaction *, struct sigaction *);
};

static union any *real(const char *name, union any *f)
{
    f->address = dlsym(RTLD_NEXT, name);
    return f;
}

/* The fault for this call of the function, an errno or a signal's number with a minus; 0 if none is due. */
static int due(const char *setting, int *calls)
{
    const char *value = getenv(setting);
    const char *colon = value == NULL ? NULL : strchr(value, ':');

    ++*calls;
    if (value == NULL || (colon != NULL && *calls < atoi(value)))
        return 0;
    return atoi(colon != NULL ? colon + 1 : value);
}

/* Whether the call fails. */
static int fails(const char *setting, int *calls)
{
    int fault = due(setting, calls);

    if (fault < 0)
        raise(-fault);
    if (fault > 0)
        errno = fault;
    return fault > 0;
}

int fsync(int file)
{
    static int calls;

    return fails("FAULT_fsync", &calls) ? -1 : REAL(fsync)(file);
}

int fchmod(int file, mode_t mode)
{
    static int calls;

    return fails("FAULT_fchmod", &calls) ? -1 : REAL(fchmod)(file, mode);
}

int rename(const char *from, const char *to)
{
    static int calls;

    return fails("FAULT_rename", &calls) ? -1 : REAL(rename)(from, to);
}

int faccessat(int folder, const char *path, int mode, int flags)
{
    static int calls;

    return fails("FAULT_faccessat", &calls) ? -1 : REAL(faccessat)(folder, path, mode, flags);
}

int sigaction(int number, const struct sigaction *new, struct sigaction *old)
{
    int calls = 0, result = REAL(sigaction)(number, new, old);

    if (new != NULL && -due("FAULT_sigaction", &calls) == number)
        raise(number);
    return result;
}
