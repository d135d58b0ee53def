#include "command.h"

#include <errno.h>
#include <stdarg.h>
#include <stdio.h>
#include <string.h>

void complain(const char *format, ...)
{
    va_list arguments;

    fflush(stdout);
    fputs("drevokas: ", stderr);
    va_start(arguments, format);
    vfprintf(stderr, format, arguments);
    va_end(arguments);
    fputc('\n', stderr);
}

int finished(int status)
{
    int bad = ferror(stdout);

    errno = 0;
    if (fflush(stdout) == 0 && !bad)
        return status;
    complain("standard output cannot be written%s%s", errno ? ": " : "", errno ? strerror(errno) : "");
    return STATUS_BAD;
}
