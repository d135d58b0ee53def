/*
 * Where a case file goes. An ordinary file is put in place whole or not at all. What is no ordinary file, such as a device or a
 * pipe, and a name that leads to an open descriptor, such as /dev/stdout, is written as it is, where it stands.
 */
#ifndef OUTPUT_H
#define OUTPUT_H

#include "case_file.h"

struct output {
    const char *name;   /* as it is shown */
    char *path;         /* the name with its folder and links followed; NULL for standard output */
    int descriptor;     /* that is written, or -1 */
    int opened;         /* the descriptor is this output's own */
};

/* Finds the place of this name, "-" being standard output, and tests it without making or changing anything. Complains and
   returns STATUS_BAD if it cannot be written, or if what is there must not be lost; else returns GO_ON. */
int find_output(const char *name, struct output *o);

/* Writes the case file there. Returns 0, or -1 with errno set, and then an ordinary file is as it was. */
int write_output(const struct output *o, const struct case_file *c);

/* Gives back what find_output took. */
void release_output(struct output *o);

#endif
