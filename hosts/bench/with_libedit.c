#include "read_line.h"

#include <editline/readline.h>

char *read_line(void)
{
    return readline("> ");
}
