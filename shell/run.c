/* drevokas run: document 01's line for a case file. */
#include "command.h"
#include "resume.h"

static const struct usage usage = {
    "run FILE [--budget N] [--after OUT [--checkpoint N]] [--quiet]",
    "Runs a case file, or standard input if FILE is -, and prints one line:\n"
    "  R NUMBER         refused\n"
    "  I CODE UNITS     intercepted with this code\n"
    "  H CODE UNITS     host fault with this program code\n"
    "  B 0 UNITS        budget used, or interrupted by a signal\n"
    "All numbers are decimal; UNITS are the units completed. A sentence on standard error says why the\n"
    "run ended, and where; of a host fault also which entry of the host's tables was bad.\n\n"
    RUN_OPTIONS_HELP,
    NULL, 1, 0, RUN_OPTIONS,
};

static struct ending run_without_lines(FILE *to, struct case_file *c, uint32_t units, struct course *k)
{
    (void)to;
    return run_units(c, units, k);
}

int command_run(int argc, char **argv)
{
    return run_as_asked(argc, argv, &usage, run_without_lines);
}
