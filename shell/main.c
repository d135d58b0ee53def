/* drevokas: case files run, checked, translated, explained, made and traced, and the pages of their guests. */
#include <fcntl.h>
#include <signal.h>
#include <stdio.h>
#include <string.h>

#include "../include/drevokas.h"
#include "case_file.h"
#include "command.h"

static const struct {
    const char *name, *purpose;
    int (*run)(int argc, char **argv);
} commands[] = {
    {"run", "run a case file and print how it ended", command_run},
    {"check", "say whether entry would succeed", command_check},
    {"translate", "translate one guest address", command_translate},
    {"explain", "show a case file to a person", command_explain},
    {"make", "build a case file from its text form", command_make},
    {"trace", "run unit by unit, one line for each", command_trace},
    {"desk", "list the guest's pages; add, remove or protect one", command_desk},
    {"unbacked", "find the first page that is not valid", command_unbacked},
};

#define COMMANDS (sizeof commands / sizeof *commands)

static void print_usage(FILE *to)
{
    size_t i;

    fputs("usage: drevokas SUBCOMMAND ARGUMENTS\n\n", to);
    for (i = 0; i < COMMANDS; i++)
        fprintf(to, "  %-10s %s\n", commands[i].name, commands[i].purpose);
    fputs("\ndrevokas help SUBCOMMAND or drevokas SUBCOMMAND --help (-h) says what each takes.\n"
          "drevokas --version says which version this is.\n", to);
}

static int print_version(void)
{
    printf("drevokas %s\nrecord versions 1 and 2, case file version %u\n", DREVOKAS_VERSION, FILE_VERSION);
    return finished(STATUS_GOOD);
}

static int is_one_of(const char *argument, const char *name, const char *other)
{
    return strcmp(argument, name) == 0 || strcmp(argument, other) == 0;
}

/* The sub-command that argv[0] names, with the arguments after it. */
static int dispatch(int argc, char **argv)
{
    size_t i;

    for (i = 0; i < COMMANDS; i++)
        if (strcmp(argv[0], commands[i].name) == 0)
            return commands[i].run(argc, argv);
    complain("no sub-command %s", argv[0]);
    print_usage(stderr);
    return STATUS_BAD;
}

/* help, alone or with a sub-command after it. */
static int help(int argc, char **argv)
{
    char option[] = "--help", *sub[] = {NULL, option, NULL};

    if (argc > 1) {
        sub[0] = argv[1];
        return dispatch(2, sub);
    }
    print_usage(stdout);
    return finished(STATUS_GOOD);
}

/* A standard stream that is closed is opened so that using it fails: no other file may come to stand in its place. */
static void hold_streams(void)
{
    static const int wrong_way[] = {O_WRONLY, O_RDONLY, O_RDONLY};
    int i;

    for (i = 0; i < 3; i++)
        if (fcntl(i, F_GETFD) < 0)
            open("/dev/null", wrong_way[i]);
}

int main(int argc, char **argv)
{
    hold_streams();
    signal(SIGXFSZ, SIG_IGN);   /* a file that grows too large is a write that fails */
    if (argc < 2) {
        complain("no sub-command");
        print_usage(stderr);
        return STATUS_BAD;
    }
    if (is_one_of(argv[1], "--help", "-h"))
        return help(1, argv + 1);
    if (strcmp(argv[1], "help") == 0)
        return help(argc - 1, argv + 1);
    if (strcmp(argv[1], "--version") == 0)
        return print_version();
    return dispatch(argc - 1, argv + 1);
}
