/* The sub-commands. Each takes its own arguments, argv[0] being its name, and returns the exit status. */
#ifndef COMMAND_H
#define COMMAND_H

#define STATUS_GOOD 0
#define STATUS_REFUSED 1    /* the answer is a refusal */
#define STATUS_BAD 2        /* bad usage or file */
#define STATUS_FOUND 3      /* the page that is looked for is there; of unbacked alone */

int command_run(int argc, char **argv);
int command_check(int argc, char **argv);
int command_translate(int argc, char **argv);
int command_explain(int argc, char **argv);
int command_make(int argc, char **argv);
int command_trace(int argc, char **argv);
int command_desk(int argc, char **argv);
int command_unbacked(int argc, char **argv);

/* "drevokas: " and the message, with a newline, on standard error. */
void complain(const char *format, ...) __attribute__((format(printf, 1, 2)));

/* Flushes standard output; complains and returns STATUS_BAD if something could not be written, else returns status. */
int finished(int status);

#endif
