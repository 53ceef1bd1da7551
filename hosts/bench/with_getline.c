#define _XOPEN_SOURCE 700
#include "read_line.h"

#include <stdio.h>
#include <stdlib.h>
#include <string.h>

/* No editor: what the C library does, to compare with. */
char *read_line(void)
{
    char *line = NULL;
    size_t size = 0;
    fputs("> ", stdout);
    fflush(stdout);
    if (getline(&line, &size, stdin) < 0) {
        free(line);
        return NULL;
    }
    line[strcspn(line, "\r\n")] = 0;
    return line;
}
