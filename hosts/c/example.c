/* A calculator: reads expressions and prints their values. Tab completes the words that are its arguments. */
#include "calculate.h"
#include "comvizga.h"

#include <errno.h>
#include <stdio.h>
#include <stdlib.h>

int main(int count, char **words)
{
    comvizga_settings *settings = &comvizga_configure()->editor;
    char *line, answer[ANSWER_SIZE];

    settings->hints = settings->brackets = settings->history_ignore_space = 1;
    settings->max_history_size = 1000;
    if (comvizga_set_completions((const char *const *)words + 1, (size_t)count - 1) < 0) {
        perror("example");
        return 1;
    }
    while ((line = comvizga_readline("> ")) || errno == EINTR) {
        if (!line)
            continue; /* C-c drops a line */
        if (comvizga_add_history(line) < 0)
            perror("example");
        if (calculate(line, answer))
            puts(answer);
        free(line);
    }
    if (errno) {
        perror("example");
        return 1;
    }
    comvizga_close();
    return 0;
}
