#include "read_line.h"

#include <stdio.h>
#include <readline/readline.h>

char *read_line(void)
{
    return readline("> ");
}
