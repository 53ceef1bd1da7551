/* Does what its arguments say, one after another, for hosts/trials: reads lines, keeps a history, forks, jumps.
 *
 *     line          reads a line, and prints it; or how it ended
 *     add=LINE, limit=NUMBER, read=PATH, write=PATH, append=PATH, plain
 *                   the calls of the history; prints errno where one fails
 *     bind=KEY      binds a key to accept-line
 *     vi            has the keys of Vi; before all others
 *     fork=NUMBER   from now on this signal has a child begin and exit
 *     jump=NUMBER   from now on this signal jumps out of the line
 *     catch=NUMBER  from now on this signal prints a line
 *     terminal      makes the controlling terminal standard input
 */
#define _XOPEN_SOURCE 700
#include "comvizga.h"

#include <errno.h>
#include <fcntl.h>
#include <setjmp.h>
#include <signal.h>
#include <stdio.h>
#include <stdlib.h>
#include <string.h>
#include <sys/wait.h>
#include <unistd.h>

static sigjmp_buf place;

static void say(const char *text)
{
    ssize_t written = write(STDOUT_FILENO, text, strlen(text));
    (void)written;
}

static void begin_child(int number)
{
    pid_t child = fork();
    (void)number;
    if (child == 0)
        exit(0);
    waitpid(child, NULL, 0);
}

static void jump(int number)
{
    siglongjmp(place, number);
}

static void say_caught(int number)
{
    (void)number;
    say("caught\r\n");
}

static int on(const char *number, void (*handler)(int))
{
    struct sigaction action;
    memset(&action, 0, sizeof action);
    action.sa_handler = handler;
    return sigaction(atoi(number), &action, NULL);
}

static int read_line(void)
{
    char *line = NULL;
    if (sigsetjmp(place, 1)) {
        puts("jumped");
        return 0;
    }
    line = comvizga_readline("> ");
    if (line)
        printf("got %s\n", line);
    else
        printf("%s\n", !errno ? "ended" : errno == EINTR ? "interrupted" : strerror(errno));
    free(line);
    return 0;
}

static int take_terminal(void)
{
    int file = open("/dev/tty", O_RDWR);
    return file < 0 ? -1 : dup2(file, STDIN_FILENO);
}

/* Does one of the things; -1 with errno where it fails. */
static int run(const char *what, const char *value)
{
    if (!strcmp(what, "line"))
        return read_line();
    if (!strcmp(what, "add"))
        return comvizga_add_history(value);
    if (!strcmp(what, "limit"))
        return comvizga_set_history_limit((size_t)atol(value));
    if (!strcmp(what, "read"))
        return comvizga_read_history(value);
    if (!strcmp(what, "write"))
        return comvizga_write_history(value);
    if (!strcmp(what, "append"))
        return comvizga_append_history(value);
    if (!strcmp(what, "bind"))
        return comvizga_bind_key(value, "accept-line");
    if (!strcmp(what, "fork"))
        return on(value, begin_child);
    if (!strcmp(what, "jump"))
        return on(value, jump);
    if (!strcmp(what, "catch"))
        return on(value, say_caught);
    if (!strcmp(what, "terminal"))
        return take_terminal();
    if (!strcmp(what, "vi"))
        return comvizga_configure()->editor.vi = 1;
    comvizga_configure()->history_form = COMVIZGA_HISTORY_PLAIN;
    return 0;
}

int main(int count, char **words)
{
    for (int i = 1; i < count; i++) {
        char *value = strchr(words[i], '=');
        if (value)
            *value++ = 0;
        if (run(words[i], value) < 0)
            printf("%s: %s\n", words[i], strerror(errno));
    }
    return 0;
}
