/* Reads lines in a loop of its own, with a handle: waits for the terminal and for a new size at once. Prints each line.
 */
#define _DEFAULT_SOURCE
#include "comvizga.h"

#include <poll.h>
#include <signal.h>
#include <stdio.h>
#include <stdlib.h>
#include <string.h>
#include <sys/ioctl.h>
#include <termios.h>
#include <unistd.h>

static comvizga editor = COMVIZGA_NOTHING;
static struct termios before;
static int resized[2]; /* a pipe: a byte for each signal that the size has changed */

static void hear_of_resize(int signal)
{
    ssize_t told = write(resized[1], "", 1);
    (void)signal;
    (void)told;
}

static void set_raw(int is_raw)
{
    struct termios settings = before;
    if (is_raw)
        cfmakeraw(&settings);
    tcsetattr(STDIN_FILENO, TCSADRAIN, &settings);
}

static struct winsize size(void)
{
    struct winsize size;
    if (ioctl(STDOUT_FILENO, TIOCGWINSZ, &size) < 0 || !size.ws_col) {
        size.ws_col = 80;
        size.ws_row = 24;
    }
    return size;
}

/* Writes what is to be shown. */
static void show(void)
{
    char piece[1024];
    size_t taken;
    while (comvizga_output(&editor, piece, sizeof piece, &taken) == COMVIZGA_OK && taken)
        fwrite(piece, 1, taken, stdout);
    fflush(stdout);
}

/* Suspends the program, and goes on with the line. */
static uint32_t suspend(void)
{
    fputs("\033[?2004l", stdout);
    fflush(stdout);
    set_raw(0);
    raise(SIGTSTP);
    set_raw(1);
    fputs("\033[?2004h", stdout);
    return comvizga_feed(&editor, NULL, 0);
}

/* Waits for the terminal or for a new size, and hands on what comes. */
static uint32_t wait_and_feed(void)
{
    struct pollfd each[2] = {{STDIN_FILENO, POLLIN, 0}, {resized[0], POLLIN, 0}};
    char bytes[1024];
    uint8_t waiting = 0;
    int count;
    comvizga_is_waiting(&editor, &waiting);
    count = poll(each, 2, waiting ? 50 : -1);
    if (count < 0)
        return COMVIZGA_OK; /* a signal */
    if (count == 0)
        return comvizga_flush(&editor);
    if (each[1].revents) {
        ssize_t told = read(resized[0], bytes, sizeof bytes);
        (void)told;
        return comvizga_resize(&editor, size().ws_col, size().ws_row);
    }
    ssize_t length = read(STDIN_FILENO, bytes, sizeof bytes);
    return length > 0 ? comvizga_feed(&editor, bytes, (size_t)length) : comvizga_finish(&editor);
}

static uint32_t read_line(const char *prompt)
{
    uint32_t status;
    set_raw(1);
    status = comvizga_begin(&editor, prompt, strlen(prompt));
    show();
    while (status == COMVIZGA_OK || status == COMVIZGA_SUSPENDED) {
        status = status == COMVIZGA_OK ? wait_and_feed() : suspend();
        show();
    }
    set_raw(0);
    return status;
}

int main(void)
{
    comvizga_settings settings = comvizga_defaults();
    uint32_t status;
    char line[4096];
    size_t length;
    if (tcgetattr(STDIN_FILENO, &before) < 0 || pipe(resized) < 0) {
        perror("loop");
        return 1;
    }
    signal(SIGWINCH, hear_of_resize);
    settings.columns = size().ws_col;
    settings.rows = size().ws_row;
    settings.auto_add_history = 1;
    if (comvizga_new(&settings, &editor) != COMVIZGA_OK
        || comvizga_bind(&editor, "C-z", 3, "suspend", 7) != COMVIZGA_OK)
        return 1;
    while ((status = read_line("> ")) == COMVIZGA_SUBMITTED || status == COMVIZGA_INTERRUPTED)
        if (status == COMVIZGA_SUBMITTED && comvizga_line(&editor, line, sizeof line, &length) == COMVIZGA_OK)
            printf("%.*s\n", (int)length, line);
    comvizga_free(&editor);
    return status != COMVIZGA_ENDED;
}
