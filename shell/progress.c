#include "progress.h"

#include <stdio.h>
#include <unistd.h>

#include "interrupt.h"

#define EVERY_MILLISECONDS 500

struct progress progress_of(uint64_t whole)
{
    struct progress p;

    p.shown = isatty(STDERR_FILENO);
    p.begun = 0;
    p.whole = whole;
    clock_gettime(CLOCK_MONOTONIC, &p.last);
    return p;
}

static long milliseconds_since(const struct timespec *then, const struct timespec *now)
{
    return (long)(now->tv_sec - then->tv_sec) * 1000 + (now->tv_nsec - then->tv_nsec) / 1000000;
}

void progress_at(struct progress *p, uint64_t done)
{
    struct timespec now;

    if (!p->shown)
        return;
    clock_gettime(CLOCK_MONOTONIC, &now);
    if (milliseconds_since(&p->last, &now) < EVERY_MILLISECONDS)
        return;
    p->last = now;
    p->begun = 1;
    fprintf(stderr, "\rdrevokas: %llu of %llu units", (unsigned long long)done, (unsigned long long)p->whole);
    fflush(stderr);
}

void progress_over(struct progress *p)
{
    if (p->begun || (p->shown && interrupted_by() != 0))
        fprintf(stderr, "\r%60s\r", "");
    p->begun = 0;
}
