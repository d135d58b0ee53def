/* A case file run to an end, by one call of the library or by as many as its units take. */
#ifndef RESUME_H
#define RESUME_H

#include <stdio.h>

#include "arguments.h"
#include "case_file.h"
#include "course.h"

/* How a run ended. */
struct ending {
    uint32_t kind, number;  /* as drevokas.h says */
    uint64_t units;         /* completed, in all */
    uint64_t answer, where; /* the library's, of the last call */
};

/* One call of the library for at most this many units, 65,535 at most. The case file is then as the run left it, its clock
   advanced by the units completed, so that the next call goes on. */
struct ending run_slice(struct case_file *c, uint32_t units);

/* The same for any number of units: slices, each from where the one before it ended, as long as the run goes on. */
struct ending run_units(struct case_file *c, uint32_t units, struct course *k);

/* One unit of a copy that is like c, but program exceptions are intercepted. What it leaves is in copy. */
struct ending intercepted_unit(const struct case_file *c, struct case_file *copy);

/* Runs a case file, and may print lines of its own. */
typedef struct ending run_function(FILE *to, struct case_file *c, uint32_t units, struct course *k);

/* The options of a sub-command that runs a case file, in their order. */
#define RUN_OPTIONS {"--budget", "--after", "--checkpoint", QUIET_OPTION}
enum { BUDGET, AFTER, CHECKPOINT, QUIET };

/* What --help says of them, and of the end. */
#define RUN_OPTIONS_HELP \
    "  --budget N       run for N units at most, 0 to 4294967295, instead of the file's budget\n" \
    "  --after OUT      write the case file as it stands after the run; run OUT goes on from there. With\n" \
    "                   OUT -, it goes to standard output, and what is printed to standard error. OUT is\n" \
    "                   written whole or not at all, once the line is printed, and not if the run is\n" \
    "                   refused; a file that is there and is no case file is not written over\n" \
    "  --checkpoint N   write OUT after every N units too, 1 to 4294967295\n" \
    "  --quiet          say nothing on standard error about the end of the run, but that it was refused\n" \
    "                   or interrupted\n\n" \
    "SIGINT (Ctrl-C), SIGTERM and SIGHUP interrupt the run: it ends early, a trace with the next unit and\n" \
    "a run within 65535 units, prints its line and writes OUT.\n\n" \
    "Exit status: 0, 1 if the run is refused, 2 for bad usage or a file that cannot be read or written,\n" \
    "and then OUT has not advanced beyond its last checkpoint; 129 if interrupted by SIGHUP, 130 by\n" \
    "SIGINT, 143 by SIGTERM.\n"

/* A sub-command with one operand, a case file, and these options: runs the file by this function, then prints document 01's
   line and writes the case file after the run. Returns the exit status. */
int run_as_asked(int argc, char **argv, const struct usage *u, run_function *run);

#endif
