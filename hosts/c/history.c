/* The history of the process's editor, and its file. comvizga.h says what each call does. */
#define _XOPEN_SOURCE 700
#define _DEFAULT_SOURCE
#define _DARWIN_C_SOURCE
#include "internal.h"

#include <errno.h>
#include <fcntl.h>
#include <stdio.h>
#include <stdlib.h>
#include <string.h>
#include <sys/file.h>
#include <sys/stat.h>
#include <unistd.h>

/* The first line of a file whose lines have escapes. */
static const char header[] = "#V3\n";
enum { HEADER = sizeof header - 1 };

int comvizga_add_history(const char *line)
{
    comvizga *editor = comvizga_of_process();
    if (!editor)
        return -1;
    return comvizga_answer(line ? comvizga_history_add(editor, line, strlen(line)) : COMVIZGA_NULL);
}

/* Closes a file, and answers so; the errno of what came before stays. */
static int close_with(int file, int answer)
{
    int kept = errno;
    if (close(file) < 0 && answer == 0)
        return -1;
    errno = kept;
    return answer;
}

/* ---------------------------------------------------------------------------------------- reading a file */

/* Reads so many bytes, or those up to the end of the file. Returns their number, or -1. */
static ssize_t read_whole(int file, char *bytes, size_t length)
{
    size_t at = 0;
    while (at < length) {
        ssize_t count = read(file, bytes + at, length - at);
        if (count == 0)
            break;
        if (count < 0 && errno != EINTR)
            return -1;
        at += count > 0 ? (size_t)count : 0;
    }
    return (ssize_t)at;
}

int comvizga_read_history(const char *path)
{
    comvizga *editor = comvizga_of_process();
    struct stat facts;
    ssize_t length = -1;
    char *text = NULL;
    int file, answer = -1;
    if (!editor || (file = open(path, O_RDONLY | O_CLOEXEC)) < 0)
        return -1;
    if (fstat(file, &facts) == 0)
        text = malloc((size_t)facts.st_size + 1);
    if (text)
        length = read_whole(file, text, (size_t)facts.st_size);
    if (length >= 0)
        answer = comvizga_answer(comvizga_history_load(editor, text, (size_t)length));
    if (answer == 0)
        comvizga_forget_new_lines();
    free(text);
    return close_with(file, answer);
}

/* ------------------------------------------------------------------------------------------ plain lines */

/* Takes the escapes out of lines. Returns their new length. */
static size_t without_escapes(char *lines, size_t length)
{
    size_t end = 0;
    for (size_t at = 0; at < length; at++) {
        char byte = lines[at];
        if (byte == '\\' && at + 1 < length) {
            byte = lines[++at];
            byte = byte == 'n' ? '\n' : byte == 'r' ? '\r' : byte;
        }
        lines[end++] = byte;
    }
    return end;
}

/* Writes lines with escapes as plain ones. An empty line, which counts for nothing, comes before a first one that would
 * say of a file that its lines have escapes. */
static int write_plain(int file, const char *lines, size_t length, int is_first)
{
    char *plain = malloc(length + 1);
    int answer = plain ? 0 : -1;
    if (plain) {
        memcpy(plain, lines, length);
        length = without_escapes(plain, length);
        if (is_first && length >= 2 && plain[0] == '#' && plain[1] == 'V')
            answer = comvizga_write_whole(file, "\n", 1);
    }
    if (answer == 0)
        answer = comvizga_write_whole(file, plain, length);
    free(plain);
    return answer;
}

static int is_plain_wanted(void)
{
    return comvizga_configure()->history_form == COMVIZGA_HISTORY_PLAIN;
}

/* ---------------------------------------------------------------------------------------- writing a file */

/* A name with an ending, to be freed; null where memory ran out. */
static char *with_ending(const char *name, const char *ending)
{
    size_t length = strlen(name), more = strlen(ending) + 1;
    char *both = malloc(length + more);
    if (both) {
        memcpy(both, name, length);
        memcpy(both + length, ending, more);
    }
    return both;
}

/* Writes all lines of the history. */
static int write_all(int file)
{
    size_t length;
    char *text = comvizga_history_text(0, &length);
    int answer = -1;
    if (text && is_plain_wanted())
        answer = write_plain(file, text + HEADER, length - HEADER, 1);
    else if (text)
        answer = comvizga_write_whole(file, text, length);
    free(text);
    return answer;
}

/* Writes the whole history to a new file, which then takes the name of the old one. */
static int replace(const char *path)
{
    size_t length;
    char *name = comvizga_new_lines(&length) ? with_ending(path, ".XXXXXX") : NULL;
    int file = name ? mkstemp(name) : -1, answer = -1;
    if (file >= 0)
        answer = close_with(file, write_all(file) < 0 ? -1 : fsync(file));
    if (answer == 0)
        answer = rename(name, path);
    if (file >= 0 && answer < 0) {
        int kept = errno;
        unlink(name);
        errno = kept;
    }
    if (answer == 0)
        comvizga_forget_new_lines();
    free(name);
    return answer;
}

/* How lines are to be appended to a file. */
enum form { UNKNOWN = -1, MARKED, PLAIN };

/* Tells how lines stand in a file that is not empty, and takes it to its end: -1 with errno where that is not known, or
 * plain and not wanted so. */
static enum form form_of(int file)
{
    char begins[HEADER];
    ssize_t length = pread(file, begins, HEADER, 0);
    if (length < 0)
        return UNKNOWN;
    if (length == HEADER && !memcmp(begins, header, HEADER))
        return MARKED;
    if (is_plain_wanted() && (length < HEADER || memcmp(begins, "#V2\n", HEADER)))
        return PLAIN;
    errno = EINVAL;
    return UNKNOWN;
}

/* Makes a file of so many bytes ready for more lines: one that is empty gets the header, and a last line that was cut
 * off its newline. Tells in which form they are to be. */
static enum form prepare(int file, off_t length)
{
    char last = '\n';
    enum form form;
    if (length == 0 && is_plain_wanted())
        return PLAIN;
    if (length == 0)
        return comvizga_write_whole(file, header, HEADER) < 0 ? UNKNOWN : MARKED;
    form = form_of(file);
    if (form == UNKNOWN || pread(file, &last, 1, length - 1) < 0)
        return UNKNOWN;
    return last == '\n' || comvizga_write_whole(file, "\n", 1) == 0 ? form : UNKNOWN;
}

/* Appends the lines that are new to a file. Where that fails, the file is as it was. */
static int append(int file)
{
    size_t length;
    const char *lines = comvizga_new_lines(&length);
    off_t before = lseek(file, 0, SEEK_END);
    enum form form = lines && before >= 0 ? prepare(file, before) : UNKNOWN;
    int answer = -1, kept;
    if (form == PLAIN)
        answer = write_plain(file, lines, length, before == 0);
    else if (form == MARKED)
        answer = comvizga_write_whole(file, lines, length);
    if (answer == 0) {
        comvizga_forget_new_lines();
        return 0;
    }
    kept = errno;
    if (before >= 0 && ftruncate(file, before) < 0)
        kept = errno;
    errno = kept;
    return -1;
}

/* ---------------------------------------------------------------------------------------------- its lock */

/* The name to which all symbolic links lead, to be freed. The file is made where it is not there. Null for what is no
 * plain file, as a device, and where it cannot be made. */
static char *real_name(const char *path)
{
    struct stat facts;
    int file = open(path, O_WRONLY | O_CREAT | O_CLOEXEC | O_NONBLOCK, 0600);
    int answer = file < 0 ? -1 : close_with(file, fstat(file, &facts));
    if (answer == 0 && S_ISREG(facts.st_mode))
        return realpath(path, NULL);
    if (answer == 0)
        errno = EINVAL;
    return NULL;
}

static int wait_for_lock(int file)
{
    while (flock(file, LOCK_EX) < 0)
        if (errno != EINTR)
            return -1;
    return 0;
}

/* Whether a file has a name still, and no other program has put another one in its place. */
static int has_name(int file, const char *name)
{
    struct stat held, named;
    return fstat(file, &held) == 0 && stat(name, &named) == 0 && held.st_dev == named.st_dev
           && held.st_ino == named.st_ino;
}

/* Opens a file and waits for its lock, which it holds until it is closed. Returns it, or -1. */
static int open_locked(const char *name)
{
    for (;;) {
        int file = open(name, O_RDWR | O_APPEND | O_CREAT | O_CLOEXEC, 0600);
        if (file < 0)
            return -1;
        if (wait_for_lock(file) < 0)
            return close_with(file, -1);
        if (has_name(file, name))
            return file;
        close(file);
    }
}

/* Writes the history, or appends to it, under the lock of the file. */
static int write_locked(const char *path, int is_appended)
{
    char *name = comvizga_of_process() ? real_name(path) : NULL;
    int file = name ? open_locked(name) : -1;
    int answer = file < 0 ? -1 : close_with(file, is_appended ? append(file) : replace(name));
    free(name);
    return answer;
}

int comvizga_write_history(const char *path)
{
    return write_locked(path, 0);
}

int comvizga_append_history(const char *path)
{
    return write_locked(path, 1);
}
