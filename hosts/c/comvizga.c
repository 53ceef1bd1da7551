/* A line of the terminal: comvizga_readline. comvizga.h says what it does. */
#define _XOPEN_SOURCE 700
#define _DEFAULT_SOURCE
#define _DARWIN_C_SOURCE
#include "internal.h"

#include <errno.h>
#include <signal.h>
#include <stdio.h>
#include <stdlib.h>
#include <string.h>
#include <unistd.h>

enum { PIECE = 4096 };

static comvizga *editor;
static int is_terminal; /* whether the line is read from one */

/* Bytes that were read and not yet handed over. */
static char ahead[PIECE];
static size_t ahead_at, ahead_end;
static int has_paused; /* whether no byte came for a while since the last one */

/* --------------------------------------------------------------------------------------------- drawing */

/* Writes a part of a drawing, and then the rest of it. */
static int write_from(const char *part, size_t length)
{
    char piece[PIECE];
    int answer = comvizga_tty_write(part, length);
    for (size_t taken = 1; taken && answer == 0;) {
        answer = comvizga_answer(comvizga_output(editor, piece, sizeof piece, &taken));
        if (answer == 0)
            answer = comvizga_tty_write(piece, taken);
    }
    return answer;
}

/* Writes what was drawn. */
static int write_drawn(void)
{
    return write_from("", 0);
}

/* Where a drawing, after it has gone to the first row of the one before, clears that one; its length where it does not.
 */
static size_t place_of_clearing(const char *drawing, size_t length)
{
    static const char clearing[] = "\r\x1b[J";
    size_t at = 0;
    while (at + sizeof clearing - 1 <= length && memcmp(drawing + at, clearing, sizeof clearing - 1))
        at++;
    return at + sizeof clearing - 1 <= length ? at : length;
}

/* How much of the beginning of a drawing stands before the way up to its first row, as in ESC [ 2 A. */
static size_t without_way_up(const char *drawing, size_t length)
{
    size_t at = length;
    if (!at || drawing[at - 1] != 'A')
        return length;
    at--;
    while (at && drawing[at - 1] >= '0' && drawing[at - 1] <= '9')
        at--;
    return at >= 2 && drawing[at - 1] == '[' && drawing[at - 2] == '\x1b' ? at - 2 : length;
}

/* Draws the line anew, in its place or below it. The library draws it at the resize and once more at the feed; written
 * is what of the first drawing leads to the place, and what of the second follows that. */
static uint32_t draw_anew(int is_below)
{
    comvizga_settings *used = &comvizga_configure()->editor;
    char piece[PIECE];
    size_t length = 0, lead;
    uint32_t status;
    comvizga_measure();
    status = comvizga_resize(editor, used->columns, used->rows);
    if (status != COMVIZGA_OK)
        return status;
    comvizga_output(editor, piece, sizeof piece, &length);
    comvizga_drop_drawn();
    lead = place_of_clearing(piece, length);
    if (is_below)
        lead = without_way_up(piece, lead);
    if (comvizga_tty_write(piece, lead) < 0)
        return COMVIZGA_FAILED;
    status = comvizga_feed(editor, NULL, 0);
    comvizga_output(editor, piece, sizeof piece, &length);
    lead = place_of_clearing(piece, length);
    if (lead == length)
        lead = 0;
    return write_from(piece + lead, length - lead) < 0 ? COMVIZGA_FAILED : status;
}

/* Takes the terminal again, and draws the line: behind a signal, or when the program goes on. */
static uint32_t go_on(void)
{
    int is_taken = comvizga_tty_take() == 0, is_below = comvizga_tty_came_below();
    if (!is_taken || (comvizga_configure()->editor.bracketed_paste && comvizga_tty_write("\x1b[?2004h", 8) < 0))
        return COMVIZGA_FAILED;
    return draw_anew(is_below);
}

/* Stops the process and those beside it, as the terminal does at C-z. */
static uint32_t suspend(void)
{
    if (!is_terminal)
        return comvizga_feed(editor, NULL, 0);
    comvizga_tty_give_back();
    kill(0, SIGTSTP);
    comvizga_tty_release();
    comvizga_tty_hold();
    return go_on();
}

/* ------------------------------------------------------------------------------------------- reading on */

/* How much of what was read is handed over at once: up to a byte that may end the line, so that what comes behind that
 * is kept here. */
static size_t length_of_next(void)
{
    size_t length = 1;
    while (ahead_at + length < ahead_end && !strchr("\r\n\x03\x04", ahead[ahead_at + length - 1]))
        length++;
    return length;
}

/* Hands over what was read, where the line goes on, for as long as it does. */
static uint32_t feed_ahead(uint32_t status)
{
    while (status == COMVIZGA_OK && ahead_at < ahead_end) {
        size_t from = ahead_at, length = length_of_next();
        ahead_at += length;
        has_paused = 0;
        status = comvizga_feed(editor, ahead + from, length);
    }
    return status;
}

/* The input has ended. A last line of a file that lacks its newline is submitted. One that was being typed is not: what
 * was drawn of it stays, and what comes next stands below. */
static uint32_t end(void)
{
    size_t length = 0;
    uint32_t status = comvizga_flush(editor);
    if (status == COMVIZGA_OK && !is_terminal && comvizga_line(editor, NULL, 0, &length) == COMVIZGA_TOO_SMALL)
        status = comvizga_feed(editor, "\r", 1);
    if (status != COMVIZGA_OK)
        return status;
    if (write_drawn() < 0 || comvizga_tty_write("\r\n\x1b[J", 5) < 0)
        return COMVIZGA_FAILED;
    return comvizga_finish(editor);
}

/* How long what belongs to an Esc, or to another thing that has begun, is waited for: behind the first pause 50
 * milliseconds, as comvizga_flush wants it. */
static int pause_length(void)
{
    return has_paused ? 50 : comvizga_configure()->escape_milliseconds;
}

/* Waits for what comes next, and reads it. */
static uint32_t read_on(void)
{
    uint8_t is_waiting = 0;
    ssize_t length;
    int found;
    if (comvizga_tty_is_upset())
        return go_on();
    comvizga_is_waiting(editor, &is_waiting);
    found = comvizga_tty_wait(is_waiting ? pause_length() : -1);
    if (found == 0) {
        has_paused = 1;
        return comvizga_flush(editor);
    }
    length = found < 0 ? -1 : comvizga_tty_read(ahead, sizeof ahead);
    if (length < 0)
        return errno == EINTR || errno == EAGAIN ? COMVIZGA_OK : COMVIZGA_FAILED;
    if (length == 0)
        return end();
    ahead_at = 0;
    ahead_end = (size_t)length;
    return COMVIZGA_OK;
}

/* Reads a line to its end. */
static uint32_t read_to_end(const char *prompt)
{
    uint32_t status = comvizga_begin(editor, prompt, strlen(prompt));
    for (;;) {
        errno = EIO; /* unless the system says another one */
        status = feed_ahead(status);
        if (write_drawn() < 0)
            return COMVIZGA_FAILED;
        if (status == COMVIZGA_SUSPENDED)
            status = suspend();
        else if (status == COMVIZGA_OK)
            status = read_on();
        else
            return status;
    }
}

/* Drops the line that an error left, if one goes on; where there is no memory for that, the next call does it. What was
 * drawn of it stays, and what comes next stands below. */
static void drop_line(void)
{
    uint32_t status;
    comvizga_drop_drawn();
    status = comvizga_abandon(editor);
    if (status == COMVIZGA_NO_LINE)
        return;
    comvizga_reads_line(status == COMVIZGA_NO_MEMORY);
    comvizga_drop_drawn();
    if (is_terminal)
        comvizga_tty_break_off();
}

/* A copy of the line that was submitted. */
static char *copy_line(void)
{
    size_t length = 0;
    char *line;
    comvizga_line(editor, NULL, 0, &length);
    line = malloc(length + 1);
    if (line && comvizga_answer(comvizga_line(editor, line, length, &length)) == 0) {
        line[length] = 0;
        return line;
    }
    free(line);
    return NULL;
}

/* Reads a line, with signals held. */
static char *read_line(const char *prompt)
{
    comvizga_settings *used = &comvizga_configure()->editor;
    uint32_t status = COMVIZGA_FAILED;
    int reason;
    is_terminal = comvizga_tty_is_there();
    editor = comvizga_editor_at(is_terminal);
    if (!editor)
        return NULL;
    comvizga_tty_settle();
    if (!is_terminal || comvizga_tty_take() == 0) {
        comvizga_reads_line(1);
        comvizga_resize(editor, used->columns, used->rows);
        status = read_to_end(prompt);
        comvizga_reads_line(0);
    }
    if (status != COMVIZGA_FAILED)
        comvizga_answer(status);
    reason = status == COMVIZGA_ENDED ? 0 : status == COMVIZGA_INTERRUPTED ? EINTR : errno;
    if (status >= COMVIZGA_NO_MEMORY)
        drop_line();
    if (is_terminal)
        comvizga_tty_give_back();
    errno = reason;
    return status == COMVIZGA_SUBMITTED ? copy_line() : NULL;
}

/* Reads a line as it comes, behind the prompt: nothing else is drawn. */
static char *read_plain_line(const char *prompt)
{
    char *line = NULL;
    size_t size = 0;
    ssize_t length;
    if (comvizga_write_whole(STDOUT_FILENO, prompt, strlen(prompt)) < 0)
        return NULL;
    clearerr(stdin);
    errno = 0;
    length = getline(&line, &size, stdin);
    if (length < 0) {
        free(line);
        return NULL;
    }
    if (line[length - 1] == '\n')
        line[length - 1] = 0;
    if (comvizga_configure()->editor.auto_add_history)
        comvizga_add_history(line);
    return line;
}

char *comvizga_readline(const char *prompt)
{
    char *line;
    int reason;
    fflush(stdout);
    if (!prompt)
        prompt = "";
    if (comvizga_tty_is_dumb())
        return read_plain_line(prompt);
    comvizga_tty_hold();
    line = read_line(prompt);
    reason = errno;
    comvizga_tty_release();
    errno = reason;
    return line;
}
