/* A line on standard error that says how far a long run is, when standard error is a terminal. */
#ifndef PROGRESS_H
#define PROGRESS_H

#include <stdint.h>
#include <time.h>

struct progress {
    int shown;              /* standard error is a terminal */
    int begun;              /* a line stands there */
    uint64_t whole;
    struct timespec last;   /* when it was last written */
};

struct progress progress_of(uint64_t whole);

/* So many units are done: writes the line anew if a while has passed. */
void progress_at(struct progress *p, uint64_t done);

/* Clears the line, and the ^C that a terminal shows there. */
void progress_over(struct progress *p);

#endif
