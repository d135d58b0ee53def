/* Every sub-command that reads a case file, for each file named, in one process: for a memory checker. Fails if a sub-command
   ends otherwise than with an answer or a refusal.
   Usage: many FOLDER FILE...    FOLDER is for the case files that are written */
#include <stdio.h>
#include <string.h>

#include "../command.h"

#define MOST_ARGUMENTS 7

/* FILE and OUT stand for the file named and for one to be written. */
static const struct {
    int (*command)(int argc, char **argv);
    const char *arguments[MOST_ARGUMENTS];
} calls[] = {
    {command_run, {"run", "FILE"}},
    {command_run, {"run", "FILE", "--budget=3", "--after", "OUT"}},
    {command_check, {"check", "FILE"}},
    {command_translate, {"translate", "FILE", "0x200", "--access", "instruction"}},
    {command_translate, {"translate", "FILE", "ffffffff"}},
    {command_translate, {"translate", "FILE", "1ffe", "--access=store"}},
    {command_explain, {"explain", "FILE", "--pages", "20"}},
    {command_trace, {"trace", "FILE", "--budget", "30", "--after", "OUT", "--checkpoint=7"}},
    {command_desk, {"desk", "list", "FILE"}},
    {command_desk, {"desk", "add", "FILE", "2", "0", "--after", "OUT"}},
    {command_desk, {"desk", "add", "FILE", "guest:1000", "0x7", "--after", "OUT"}},
    {command_desk, {"desk", "remove", "FILE", "0", "--after", "OUT"}},
    {command_desk, {"desk", "protect", "FILE", "host:1000", "--after", "OUT"}},
    {command_unbacked, {"unbacked", "FILE"}},
    {command_unbacked, {"unbacked", "FILE", "guest:1000", "X'10'"}},
    {command_unbacked, {"unbacked", "FILE", "5", "0xffffffff"}},
};

static char *argument(const char *text, char *file, char *out)
{
    if (strcmp(text, "FILE") == 0)
        return file;
    return strcmp(text, "OUT") == 0 ? out : (char *)text;
}

/* Whether the call ends with a status that it may end with. */
static int is_good(size_t call, char *file, char *out)
{
    char *argv[MOST_ARGUMENTS + 1] = {NULL};
    int argc = 0, status, may_find = calls[call].command == command_unbacked;

    while (argc < MOST_ARGUMENTS && calls[call].arguments[argc] != NULL) {
        argv[argc] = argument(calls[call].arguments[argc], file, out);
        argc++;
    }
    status = calls[call].command(argc, argv);
    if (status == STATUS_GOOD || status == STATUS_REFUSED || (may_find && status == STATUS_FOUND))
        return 1;
    fprintf(stderr, "many: %s %s ended with %d\n", argv[0], file, status);
    return 0;
}

int main(int argc, char **argv)
{
    char out[4096];
    int i, bad = 0;

    if (argc < 2)
        return 2;
    snprintf(out, sizeof out, "%s/many.out", argv[1]);
    for (i = 2; i < argc; i++) {
        size_t call;

        for (call = 0; call < sizeof calls / sizeof *calls; call++)
            bad += !is_good(call, argv[i], out);
    }
    return bad != 0;
}
