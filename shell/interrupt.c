#include "interrupt.h"

#include <signal.h>
#include <stddef.h>

static void note(int number);
static void weigh(int number);

static const struct {
    int number;
    const char *name;
    void (*handler)(int number);
} caught[] = {
    {SIGHUP, "SIGHUP", note},
    {SIGINT, "SIGINT", note},
    {SIGTERM, "SIGTERM", note},
    {SIGPIPE, "SIGPIPE", weigh},
};

#define CAUGHT (sizeof caught / sizeof *caught)

static struct sigaction before[CAUGHT];
static volatile sig_atomic_t came;

static void note(int number)
{
    if (came == 0)
        came = number;
}

/* Whether one of the signals above waits for the end of a handler. */
static int one_waits(void)
{
    sigset_t waiting;
    size_t i = 0;

    sigpending(&waiting);
    while (i < CAUGHT && !sigismember(&waiting, caught[i].number))
        i++;
    return i < CAUGHT;
}

/* Ctrl-C ends the reader of a pipe too: a run that it interrupts goes on to its end. Else SIGPIPE does what it always does. */
static void weigh(int number)
{
    if (came != 0 || one_waits())
        return;
    signal(number, SIG_DFL);
    raise(number);
}

void catch_interrupts(void)
{
    struct sigaction a;
    size_t i;

    a.sa_flags = SA_RESTART;
    sigfillset(&a.sa_mask);
    for (i = 0; i < CAUGHT; i++) {
        a.sa_handler = caught[i].handler;
        if (sigaction(caught[i].number, NULL, &before[i]) == 0 && before[i].sa_handler != SIG_IGN)
            sigaction(caught[i].number, &a, NULL);
    }
}

void release_interrupts(void)
{
    size_t i;

    for (i = 0; i < CAUGHT && came == 0; i++)
        sigaction(caught[i].number, &before[i], NULL);
}

int interrupted_by(void)
{
    return came;
}

const char *interrupt_name(int number)
{
    size_t i = 0;

    while (i + 1 < CAUGHT && caught[i].number != number)
        i++;
    return caught[i].name;
}
