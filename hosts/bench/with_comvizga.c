#include "comvizga.h"
#include "read_line.h"

char *read_line(void)
{
    return comvizga_readline("> ");
}
