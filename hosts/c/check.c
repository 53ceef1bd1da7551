/* Checks what the header promises, call by call, and the files of the history. Runs in an empty folder, which it fills;
 * ends with 0, or says which line holds not, and ends with 1. */
#define _XOPEN_SOURCE 700
#include "comvizga.h"

#include <errno.h>
#include <fcntl.h>
#include <stdio.h>
#include <stdlib.h>
#include <string.h>
#include <sys/stat.h>
#include <sys/wait.h>
#include <unistd.h>

#define HOLDS(what) ((what) ? (void)0 : (printf("line %d: not so: %s\n", __LINE__, #what), exit(1)))
#define FAILS(call, why) HOLDS((errno = 0, (call) == -1) && errno == (why))

static comvizga editor = COMVIZGA_NOTHING;
static uint8_t buffer[4096];
static size_t length;

/* Whether what lies in the buffer is a text. */
static int is(const char *text)
{
    return length == strlen(text) && !memcmp(buffer, text, length);
}

/* The line that comvizga_line gives. */
static uint32_t line(void)
{
    return comvizga_line(&editor, buffer, sizeof buffer, &length);
}

static uint32_t type(const char *keys)
{
    return comvizga_feed(&editor, keys, strlen(keys));
}

/* Takes all that is to be written. */
static void take_all(void)
{
    do
        HOLDS(comvizga_output(&editor, buffer, sizeof buffer, &length) == COMVIZGA_OK);
    while (length);
}

/* Whether what is to be written, in one piece, holds a text. */
static int shows(const char *text)
{
    HOLDS(comvizga_output(&editor, buffer, sizeof buffer - 1, &length) == COMVIZGA_OK && length < sizeof buffer - 1);
    buffer[length] = 0;
    return strstr((const char *)buffer, text) != NULL;
}

static void check_null(void)
{
    comvizga_settings settings = comvizga_defaults();
    uint8_t flag;
    HOLDS(comvizga_new(NULL, &editor) == COMVIZGA_NULL && comvizga_new(&settings, NULL) == COMVIZGA_NULL);
    HOLDS(comvizga_free(NULL) == COMVIZGA_NULL && comvizga_flush(NULL) == COMVIZGA_NULL
          && comvizga_finish(NULL) == COMVIZGA_NULL && comvizga_abandon(NULL) == COMVIZGA_NULL);
    HOLDS(comvizga_begin(NULL, "", 0) == COMVIZGA_NULL && comvizga_begin(&editor, NULL, 1) == COMVIZGA_NULL);
    HOLDS(comvizga_begin_with(NULL, "", 0, "", 0, "", 0, "", 0) == COMVIZGA_NULL);
    HOLDS(comvizga_begin_with(&editor, NULL, 1, "", 0, "", 0, "", 0) == COMVIZGA_NULL);
    HOLDS(comvizga_begin_with(&editor, "", 0, NULL, 1, "", 0, "", 0) == COMVIZGA_NULL);
    HOLDS(comvizga_begin_with(&editor, "", 0, "", 0, NULL, 1, "", 0) == COMVIZGA_NULL);
    HOLDS(comvizga_begin_with(&editor, "", 0, "", 0, "", 0, NULL, 1) == COMVIZGA_NULL);
    HOLDS(comvizga_feed(NULL, "", 0) == COMVIZGA_NULL && comvizga_feed(&editor, NULL, 1) == COMVIZGA_NULL);
    HOLDS(comvizga_resize(NULL, 80, 24) == COMVIZGA_NULL);
    HOLDS(comvizga_is_waiting(NULL, &flag) == COMVIZGA_NULL && comvizga_is_waiting(&editor, NULL) == COMVIZGA_NULL);
    HOLDS(comvizga_output(NULL, buffer, 1, &length) == COMVIZGA_NULL
          && comvizga_output(&editor, NULL, 1, &length) == COMVIZGA_NULL);
    HOLDS(comvizga_output(&editor, buffer, 1, NULL) == COMVIZGA_NULL);
    HOLDS(comvizga_line(NULL, buffer, 1, &length) == COMVIZGA_NULL
          && comvizga_line(&editor, NULL, 1, &length) == COMVIZGA_NULL);
    HOLDS(comvizga_line(&editor, buffer, 1, NULL) == COMVIZGA_NULL);
    HOLDS(comvizga_cursor(NULL, &length) == COMVIZGA_NULL && comvizga_cursor(&editor, NULL) == COMVIZGA_NULL);
    HOLDS(comvizga_history_add(NULL, "", 0) == COMVIZGA_NULL
          && comvizga_history_add(&editor, NULL, 1) == COMVIZGA_NULL);
    HOLDS(comvizga_history_load(NULL, "", 0) == COMVIZGA_NULL
          && comvizga_history_load(&editor, NULL, 1) == COMVIZGA_NULL);
    HOLDS(comvizga_history_save(NULL, 0) == COMVIZGA_NULL);
    HOLDS(comvizga_saved(NULL, buffer, 1, &length) == COMVIZGA_NULL
          && comvizga_saved(&editor, NULL, 1, &length) == COMVIZGA_NULL);
    HOLDS(comvizga_saved(&editor, buffer, 1, NULL) == COMVIZGA_NULL);
    HOLDS(comvizga_set_words(NULL, "", 0) == COMVIZGA_NULL && comvizga_set_words(&editor, NULL, 1) == COMVIZGA_NULL);
    HOLDS(comvizga_bind(NULL, "a", 1, "undo", 4) == COMVIZGA_NULL
          && comvizga_bind(&editor, NULL, 1, "undo", 4) == COMVIZGA_NULL);
    HOLDS(comvizga_bind(&editor, "a", 1, NULL, 4) == COMVIZGA_NULL);
}

static void check_empty(void)
{
    uint8_t flag;
    HOLDS(comvizga_free(&editor) == COMVIZGA_EMPTY && comvizga_begin(&editor, NULL, 0) == COMVIZGA_EMPTY);
    HOLDS(comvizga_begin_with(&editor, NULL, 0, NULL, 0, NULL, 0, NULL, 0) == COMVIZGA_EMPTY
          && type("a") == COMVIZGA_EMPTY);
    HOLDS(comvizga_flush(&editor) == COMVIZGA_EMPTY && comvizga_finish(&editor) == COMVIZGA_EMPTY
          && comvizga_abandon(&editor) == COMVIZGA_EMPTY);
    HOLDS(comvizga_resize(&editor, 80, 24) == COMVIZGA_EMPTY && comvizga_is_waiting(&editor, &flag) == COMVIZGA_EMPTY);
    HOLDS(comvizga_output(&editor, NULL, 0, &length) == COMVIZGA_EMPTY && line() == COMVIZGA_EMPTY);
    HOLDS(comvizga_cursor(&editor, &length) == COMVIZGA_EMPTY
          && comvizga_history_add(&editor, "a", 1) == COMVIZGA_EMPTY);
    HOLDS(comvizga_history_load(&editor, "a", 1) == COMVIZGA_EMPTY
          && comvizga_history_save(&editor, 0) == COMVIZGA_EMPTY);
    HOLDS(comvizga_saved(&editor, buffer, 1, &length) == COMVIZGA_EMPTY
          && comvizga_set_words(&editor, "a", 1) == COMVIZGA_EMPTY);
    HOLDS(comvizga_bind(&editor, "a", 1, "undo", 4) == COMVIZGA_EMPTY);
}

/* Settings of programs that know more or fewer of them than the library. */
static void check_sizes(void)
{
    comvizga_settings settings = comvizga_defaults();
    struct {
        comvizga_settings known;
        uint8_t later[24];
    } more;
    HOLDS(!strcmp(comvizga_version(), COMVIZGA_VERSION) && settings.size == sizeof settings);
    settings.size--;
    HOLDS(comvizga_new(&settings, &editor) == COMVIZGA_BAD_SETTING && !editor.at);
    settings.size = 0;
    HOLDS(comvizga_new(&settings, &editor) == COMVIZGA_BAD_SETTING && !editor.at);
    memset(&more, 1, sizeof more);
    comvizga_set_defaults(&more.known, sizeof more);
    HOLDS(more.known.size == sizeof more && more.known.columns == 80 && !more.later[0] && !more.later[23]);
    HOLDS(comvizga_new(&more.known, &editor) == COMVIZGA_OK && comvizga_free(&editor) == COMVIZGA_OK);
}

static void check_line(void)
{
    comvizga_settings settings = comvizga_defaults();
    uint8_t waiting = 0;
    settings.columns = 0;
    HOLDS(comvizga_new(&settings, &editor) == COMVIZGA_BAD_SETTING);
    settings.columns = 80;
    HOLDS(comvizga_new(&settings, &editor) == COMVIZGA_OK && comvizga_new(&settings, &editor) == COMVIZGA_IN_USE);
    length = 7;
    HOLDS(comvizga_cursor(&editor, &length) == COMVIZGA_NO_LINE && length == 7);
    HOLDS(line() == COMVIZGA_NO_LINE && length == 0 && type("x") == COMVIZGA_NO_LINE
          && comvizga_flush(&editor) == COMVIZGA_NO_LINE);
    HOLDS(comvizga_finish(&editor) == COMVIZGA_NO_LINE && comvizga_abandon(&editor) == COMVIZGA_NO_LINE);
    HOLDS(comvizga_begin(&editor, "\xff", 1) == COMVIZGA_NOT_TEXT && comvizga_begin(&editor, "> ", 2) == COMVIZGA_OK);
    HOLDS(comvizga_output(&editor, buffer, 1, &length) == COMVIZGA_OK && length == 1);
    take_all();
    HOLDS(comvizga_history_add(&editor, "a", 1) == COMVIZGA_HAS_LINE
          && comvizga_history_load(&editor, "a", 1) == COMVIZGA_HAS_LINE);
    HOLDS(comvizga_history_save(&editor, 1) == COMVIZGA_HAS_LINE);
    HOLDS(type("\xc3") == COMVIZGA_OK && comvizga_is_waiting(&editor, &waiting) == COMVIZGA_OK && waiting == 1);
    HOLDS(type("\xa9x") == COMVIZGA_OK && comvizga_is_waiting(&editor, &waiting) == COMVIZGA_OK && waiting == 0);
    HOLDS(line() == COMVIZGA_OK && is("\xc3\xa9x") && comvizga_cursor(&editor, &length) == COMVIZGA_OK && length == 3);
    HOLDS(comvizga_line(&editor, buffer, 2, &length) == COMVIZGA_TOO_SMALL && length == 3);
    HOLDS(comvizga_resize(&editor, 0, 24) == COMVIZGA_BAD_SETTING && comvizga_resize(&editor, 5, 5) == COMVIZGA_OK);
    HOLDS(type("\rnext\x01") == COMVIZGA_SUBMITTED && line() == COMVIZGA_OK && is("\xc3\xa9x"));
    HOLDS(comvizga_cursor(&editor, &length) == COMVIZGA_NO_LINE);
}

static void check_more_lines(void)
{
    /* What was typed behind Enter is read now */
    HOLDS(comvizga_begin(&editor, "", 0) == COMVIZGA_OK && line() == COMVIZGA_OK && is("next"));
    HOLDS(comvizga_cursor(&editor, &length) == COMVIZGA_OK && length == 0);
    take_all();
    HOLDS(comvizga_begin_with(&editor, "> ", 2, "\x1b[1m> \x1b[m", 9, "ab", 2, "cd", 2) == COMVIZGA_OK);
    HOLDS(shows("\x1b[1m> \x1b[m") && type("-") == COMVIZGA_OK && shows("ab-cd"));
    HOLDS(line() == COMVIZGA_OK && is("ab-cd") && type("\x03") == COMVIZGA_INTERRUPTED && line() == COMVIZGA_OK
          && is("\xc3\xa9x"));
    HOLDS(comvizga_begin(&editor, NULL, 0) == COMVIZGA_OK && type("\x04") == COMVIZGA_ENDED);
    HOLDS(comvizga_bind(&editor, "", 0, "undo", 4) == COMVIZGA_NO_KEY
          && comvizga_bind(&editor, "a", 1, "nothing", 7) == COMVIZGA_NO_COMMAND
          && comvizga_bind(&editor, "\xff", 1, "undo", 4) == COMVIZGA_NOT_TEXT
          && comvizga_bind(&editor, "C-x nokey", 9, "undo", 4) == COMVIZGA_NO_KEY);
    /* A word goes as white space parts it */
    HOLDS(comvizga_bind(&editor, "F2", 2, "unix-word-rubout", 16) == COMVIZGA_OK
          && comvizga_begin(&editor, "", 0) == COMVIZGA_OK && type("a b-c\x1bOQ") == COMVIZGA_OK);
    HOLDS(line() == COMVIZGA_OK && is("a ") && comvizga_abandon(&editor) == COMVIZGA_OK);
    take_all();
}

/* A C-z with a key behind it. */
static const char suspending[] = "a\x1a"
                                 "b";

static void check_suspended(void)
{
    HOLDS(comvizga_bind(&editor, "C-z", 3, "suspend", 7) == COMVIZGA_OK
          && comvizga_begin(&editor, "", 0) == COMVIZGA_OK);
    HOLDS(type(suspending) == COMVIZGA_SUSPENDED && line() == COMVIZGA_OK && is("a"));
    HOLDS(comvizga_feed(&editor, NULL, 0) == COMVIZGA_OK && line() == COMVIZGA_OK && is("ab"));
    /* Behind a resize the keys are read by the next feed */
    HOLDS(type(suspending) == COMVIZGA_SUSPENDED && comvizga_resize(&editor, 80, 24) == COMVIZGA_OK);
    HOLDS(line() == COMVIZGA_OK && is("aba") && type("") == COMVIZGA_OK && line() == COMVIZGA_OK && is("abab"));
    /* The next line begins with what was typed ahead, and may suspend at once */
    HOLDS(type("\rc\x1a"
               "d")
              == COMVIZGA_SUBMITTED
          && line() == COMVIZGA_OK && is("abab"));
    HOLDS(comvizga_begin(&editor, "", 0) == COMVIZGA_SUSPENDED && line() == COMVIZGA_OK && is("c"));
    HOLDS(comvizga_history_add(&editor, "a", 1) == COMVIZGA_HAS_LINE);
}

/* Lines that are dropped. */
static void check_dropped(void)
{
    HOLDS(comvizga_abandon(&editor) == COMVIZGA_OK && comvizga_abandon(&editor) == COMVIZGA_NO_LINE);
    HOLDS(comvizga_cursor(&editor, &length) == COMVIZGA_NO_LINE && line() == COMVIZGA_OK && is("abab"));
    HOLDS(comvizga_history_add(&editor, "", 0) == COMVIZGA_OK);
    /* What was typed ahead is kept */
    HOLDS(comvizga_begin(&editor, "> ", 2) == COMVIZGA_OK && line() == COMVIZGA_OK && is("d"));
    take_all();
    HOLDS(comvizga_finish(&editor) == COMVIZGA_ENDED && comvizga_finish(&editor) == COMVIZGA_NO_LINE);
    HOLDS(comvizga_output(&editor, buffer, sizeof buffer, &length) == COMVIZGA_OK && is("\x1b[?2004l"));
    /* Bytes that have begun a key are settled, and those of a new line are none of it */
    HOLDS(comvizga_begin(&editor, "> ", 2) == COMVIZGA_OK && type("e\x1b[") == COMVIZGA_OK
          && comvizga_finish(&editor) == COMVIZGA_ENDED);
    HOLDS(comvizga_begin(&editor, "> ", 2) == COMVIZGA_OK && type("A") == COMVIZGA_OK && line() == COMVIZGA_OK
          && is("A"));
    /* A key that waited may end the line, and one that suspends leaves it */
    HOLDS(comvizga_bind(&editor, "Esc", 3, "accept-line", 11) == COMVIZGA_OK && type("\x1b") == COMVIZGA_OK
          && comvizga_finish(&editor) == COMVIZGA_SUBMITTED && line() == COMVIZGA_OK && is("A"));
    HOLDS(comvizga_bind(&editor, "Esc", 3, "suspend", 7) == COMVIZGA_OK
          && comvizga_begin(&editor, "> ", 2) == COMVIZGA_OK && type("\x1b") == COMVIZGA_OK
          && comvizga_finish(&editor) == COMVIZGA_SUSPENDED);
    HOLDS(type("") == COMVIZGA_OK && comvizga_finish(&editor) == COMVIZGA_ENDED);
    HOLDS(comvizga_begin(&editor, "> ", 2) == COMVIZGA_OK && comvizga_abandon(&editor) == COMVIZGA_OK);
    take_all();
}

static void check_history(void)
{
    HOLDS(comvizga_history_load(&editor, "#V3\na\\nb\nc\n", 11) == COMVIZGA_OK
          && comvizga_history_add(&editor, "d\\", 2) == COMVIZGA_OK);
    HOLDS(comvizga_history_add(&editor, "\xff", 1) == COMVIZGA_NOT_TEXT);
    HOLDS(comvizga_history_save(&editor, 1) == COMVIZGA_OK
          && comvizga_saved(&editor, buffer, sizeof buffer, &length) == COMVIZGA_OK);
    HOLDS(is("d\\\\\n") && comvizga_saved(&editor, buffer, sizeof buffer, &length) == COMVIZGA_OK && length == 0);
    HOLDS(comvizga_history_save(&editor, 0) == COMVIZGA_OK && comvizga_saved(&editor, buffer, 3, &length) == COMVIZGA_OK
          && is("#V3"));
    HOLDS(comvizga_saved(&editor, buffer, sizeof buffer, &length) == COMVIZGA_OK && is("\na\\nb\nc\nd\\\\\n"));
    HOLDS(comvizga_free(&editor) == COMVIZGA_OK);
}

/* Whether a file holds a text, and nobody but its owner may read it. */
static int file_is(const char *path, const char *text)
{
    struct stat facts;
    FILE *file = fopen(path, "r");
    HOLDS(file && !fstat(fileno(file), &facts));
    length = fread(buffer, 1, sizeof buffer, file);
    fclose(file);
    return is(text) && (facts.st_mode & 0777) == 0600;
}

static void put(const char *path, const char *text)
{
    FILE *file = fopen(path, "w");
    HOLDS(file && fputs(text, file) >= 0 && fclose(file) == 0 && chmod(path, 0600) == 0);
}

static void check_files(void)
{
    FAILS(comvizga_read_history("none"), ENOENT);
    FAILS(comvizga_write_history("none/none"), ENOENT);
    FAILS(comvizga_write_history("/dev/null"), EINVAL);
    FAILS(comvizga_add_history(NULL), EINVAL);
    FAILS(comvizga_add_history("\xff"), EILSEQ);
    HOLDS(comvizga_add_history("one\ntwo") == 0 && comvizga_append_history("file") == 0
          && file_is("file", "#V3\none\\ntwo\n"));
    HOLDS(comvizga_append_history("file") == 0 && file_is("file", "#V3\none\\ntwo\n"));
    put("plain", "a\nb");
    HOLDS(comvizga_read_history("plain") == 0);
    FAILS(comvizga_append_history("plain"), EINVAL);
    HOLDS(comvizga_add_history("three") == 0 && symlink("file", "link") == 0);
    put("file", "#V3\none\\ntwo");
    HOLDS(comvizga_append_history("link") == 0 && file_is("file", "#V3\none\\ntwo\nthree\n"));
    HOLDS(comvizga_write_history("link") == 0 && file_is("file", "#V3\none\\ntwo\na\nb\nthree\n"));
    HOLDS(readlink("link", (char *)buffer, sizeof buffer) == 4 && access("file.lock", F_OK) < 0);
    put("bad", "#V3\n\xff\n");
    FAILS(comvizga_read_history("bad"), EILSEQ);
    comvizga_close();
    HOLDS(comvizga_write_history("new") == 0 && file_is("new", "#V3\n"));
}

/* Two processes append to one file. */
static void check_two(void)
{
    enum { LINES = 200 };
    char text[20];
    int status = 0, found = 0;
    pid_t other;
    fflush(stdout);
    other = fork();
    for (int i = 0; i < LINES; i++) {
        snprintf(text, sizeof text, "%s %d", other ? "first" : "second", i);
        HOLDS(comvizga_add_history(text) == 0 && comvizga_append_history("both") == 0);
    }
    if (!other) {
        comvizga_close();
        exit(0);
    }
    HOLDS(wait(&status) == other && status == 0);
    FILE *file = fopen("both", "r");
    HOLDS(file && fgets(text, sizeof text, file) && !strcmp(text, "#V3\n"));
    while (fgets(text, sizeof text, file))
        found += !strncmp(text, "first ", 6) || !strncmp(text, "second ", 7);
    fclose(file);
    HOLDS(found == 2 * LINES);
}

/* Calls of the history can be made behind an error of a line, wherever it came. */
static void check_errors(void)
{
    int full = open("/dev/full", O_WRONLY), out = dup(STDOUT_FILENO), reason;
    char *read;
    comvizga_close();
    HOLDS(!comvizga_readline("\xff") && errno == EILSEQ && comvizga_add_history("a") == 0);
    fflush(stdout);
    HOLDS(full >= 0 && out >= 0 && dup2(full, STDOUT_FILENO) == STDOUT_FILENO);
    read = comvizga_readline("> ");
    reason = errno;
    HOLDS(dup2(out, STDOUT_FILENO) == STDOUT_FILENO && close(full) == 0 && close(out) == 0);
    HOLDS(!read && reason == ENOSPC && comvizga_add_history("b") == 0 && comvizga_write_history("errors") == 0);
    HOLDS(file_is("errors", "#V3\na\nb\n"));
    HOLDS(comvizga_begin(comvizga_of_process(), "> ", 2) == COMVIZGA_OK);
    FAILS(comvizga_add_history("c"), EBUSY);
    comvizga_close();
}

static void check_others(void)
{
    static const char *const words[] = {"alpha", "beta"};
    HOLDS(comvizga_set_completions(words, 2) == 0 && comvizga_set_completions(NULL, 0) == 0);
    FAILS(comvizga_set_completions(NULL, 1), EINVAL);
    HOLDS(comvizga_bind_key("C-x C-e", "undo") == 0);
    FAILS(comvizga_bind_key("C-x C-e", "nothing"), EINVAL);
    FAILS(comvizga_bind_key(NULL, "undo"), EINVAL);
    comvizga_close();
    comvizga_configure()->editor.columns = 0;
    HOLDS(!comvizga_readline("> ") && errno == EINVAL);
    comvizga_close();
}

int main(void)
{
    check_null();
    check_empty();
    check_sizes();
    check_line();
    check_more_lines();
    check_suspended();
    check_dropped();
    check_history();
    check_files();
    check_two();
    check_errors();
    check_others();
    return 0;
}
