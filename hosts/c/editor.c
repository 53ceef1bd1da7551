/* The editor of the process: made, made anew where other settings ask for that, and given keys and words. comvizga.h
 * and internal.h say what each call does. */
#define _XOPEN_SOURCE 700
#include "internal.h"

#include <errno.h>
#include <stdio.h>
#include <stdlib.h>
#include <string.h>

/* A text in memory. */
struct text {
    char *bytes;
    size_t length;
};

/* A key and the command that it is bound to. */
struct binding {
    char *keys, *command;
};

static comvizga_readline_settings settings;
static comvizga_settings chosen, made; /* what the program chose for the editor, and what it was made with */
static int is_configured, is_at_terminal, is_left;
static comvizga editor = COMVIZGA_NOTHING;
static struct binding *bindings;
static size_t bound;          /* the number of bindings */
static struct text words;     /* one a line */
static struct text new_lines; /* the lines that no file has; but for those that came since this was asked last */

comvizga_readline_settings *comvizga_configure(void)
{
    const char *no_color = getenv("NO_COLOR");
    if (!is_configured) {
        settings.editor = comvizga_defaults();
        settings.editor.max_history_size = SIZE_MAX;
        settings.editor.colors = !no_color || !*no_color;
        settings.escape_milliseconds = 50;
        is_configured = 1;
    }
    return &settings;
}

int comvizga_answer(uint32_t status)
{
    switch (status) {
    case COMVIZGA_OK: return 0;
    case COMVIZGA_NO_MEMORY: errno = ENOMEM; break;
    case COMVIZGA_NOT_TEXT: errno = EILSEQ; break;
    case COMVIZGA_FAILED: errno = EIO; break;
    case COMVIZGA_HAS_LINE: errno = EBUSY; break;
    default: errno = EINVAL;
    }
    return -1;
}

void comvizga_measure(void)
{
    comvizga_settings *used = &comvizga_configure()->editor;
    comvizga_tty_measure(&used->columns, &used->rows);
}

/* -------------------------------------------------------------------------------------------- its lines */

static void forget(struct text *text)
{
    free(text->bytes);
    text->bytes = NULL;
    text->length = 0;
}

/* Puts bytes behind a text, and a NUL behind them. */
static int put(struct text *text, const void *bytes, size_t length)
{
    char *grown = realloc(text->bytes, text->length + length + 1);
    if (!grown)
        return -1;
    memcpy(grown + text->length, bytes, length);
    text->bytes = grown;
    text->length += length;
    grown[text->length] = 0;
    return 0;
}

/* Puts a text of the history behind another, as a whole or not at all. */
static int put_saved(struct text *text, uint8_t append)
{
    char piece[4096];
    size_t taken, before = text->length;
    int answer = comvizga_answer(comvizga_history_save(&editor, append));
    for (taken = 1; answer == 0 && taken;) {
        answer = comvizga_answer(comvizga_saved(&editor, piece, sizeof piece, &taken));
        if (answer == 0)
            answer = put(text, piece, taken);
    }
    if (answer < 0)
        text->length = before;
    return answer;
}

char *comvizga_history_text(uint8_t append, size_t *length)
{
    struct text text = {NULL, 0};
    if (put_saved(&text, append) < 0) {
        free(text.bytes);
        return NULL;
    }
    *length = text.length;
    return text.bytes;
}

const char *comvizga_new_lines(size_t *length)
{
    if (put_saved(&new_lines, 1) < 0)
        return NULL;
    *length = new_lines.length;
    return new_lines.bytes;
}

void comvizga_forget_new_lines(void)
{
    forget(&new_lines);
}

/* -------------------------------------------------------------------------------------------- making it */

/* The settings that it is to have now. Of those that the program changes later the limit of the history counts. */
static comvizga_settings wanted(void)
{
    comvizga_settings now;
    comvizga_measure();
    if (!editor.at) {
        chosen = settings.editor;
        is_at_terminal = comvizga_tty_is_there();
    }
    now = chosen;
    now.max_history_size = settings.editor.max_history_size;
    now.columns = settings.editor.columns;
    now.rows = settings.editor.rows;
    if (!is_at_terminal)
        now.bracketed_paste = now.synchronized_output = 0;
    return now;
}

static int is_made_with(const comvizga_settings *now)
{
    return made.max_history_size == now->max_history_size && made.bracketed_paste == now->bracketed_paste
           && made.synchronized_output == now->synchronized_output;
}

/* Makes an editor with keys and words, and with the lines of a text. */
static int make(comvizga *fresh, const comvizga_settings *now, const struct text *lines)
{
    uint32_t status = comvizga_new(now, fresh);
    if (status == COMVIZGA_OK)
        status = comvizga_bind(fresh, "C-z", 3, "suspend", 7);
    for (size_t i = 0; i < bound && status == COMVIZGA_OK; i++)
        status = comvizga_bind(fresh, bindings[i].keys, strlen(bindings[i].keys), bindings[i].command,
                               strlen(bindings[i].command));
    if (status == COMVIZGA_OK)
        status = comvizga_set_words(fresh, words.bytes, words.length);
    if (status == COMVIZGA_OK)
        status = comvizga_history_load(fresh, lines->bytes, lines->length);
    if (status != COMVIZGA_OK)
        comvizga_free(fresh);
    return comvizga_answer(status);
}

/* Makes the editor, or makes it anew with the history that it has. */
static int make_editor(const comvizga_settings *now)
{
    comvizga fresh = COMVIZGA_NOTHING;
    struct text lines = {NULL, 0};
    size_t length;
    int answer = 0;
    if (editor.at && (!comvizga_new_lines(&length) || put_saved(&lines, 0) < 0))
        answer = -1;
    if (answer == 0)
        answer = make(&fresh, now, &lines);
    forget(&lines);
    if (answer < 0)
        return -1;
    comvizga_free(&editor);
    editor = fresh;
    made = *now;
    return 0;
}

/* Has the terminal set back at exit. */
static int care_for_exit(void)
{
    static int is_cared_for;
    if (!is_cared_for && atexit(comvizga_tty_break_off)) {
        errno = ENOMEM;
        return -1;
    }
    is_cared_for = 1;
    return 0;
}

void comvizga_drop_drawn(void)
{
    char piece[4096];
    size_t taken;
    while (comvizga_output(&editor, piece, sizeof piece, &taken) == COMVIZGA_OK && taken)
        ;
}

/* Drops a line that was left. What was drawn of it stays, and what comes next stands below. */
static void drop_left(void)
{
    comvizga_tty_break_off();
    comvizga_tty_give_back();
    is_left = comvizga_abandon(&editor) == COMVIZGA_NO_MEMORY;
    comvizga_drop_drawn();
}

comvizga *comvizga_of_process(void)
{
    comvizga_settings now;
    size_t cursor;
    if (is_left)
        drop_left();
    now = wanted();
    if (editor.at && (is_made_with(&now) || comvizga_cursor(&editor, &cursor) == COMVIZGA_OK))
        return &editor;
    return care_for_exit() == 0 && make_editor(&now) == 0 ? &editor : NULL;
}

comvizga *comvizga_editor_at(int is_terminal)
{
    is_at_terminal = is_terminal;
    return comvizga_of_process();
}

void comvizga_reads_line(int is_read)
{
    is_left = is_read;
}

int comvizga_set_history_limit(size_t lines)
{
    comvizga_configure()->editor.max_history_size = lines;
    return !editor.at || comvizga_of_process() ? 0 : -1;
}

/* --------------------------------------------------------------------------------------- keys and words */

/* Notes that a key is bound, in place of what it was bound to before. */
static int note(const char *keys, const char *command)
{
    struct binding *grown, binding = {strdup(keys), strdup(command)};
    size_t i = 0;
    while (i < bound && strcmp(bindings[i].keys, keys))
        i++;
    grown = i < bound ? bindings : realloc(bindings, (bound + 1) * sizeof *bindings);
    if (grown)
        bindings = grown;
    if (!grown || !binding.keys || !binding.command) {
        free(binding.keys);
        free(binding.command);
        return -1;
    }
    if (i < bound) {
        free(bindings[i].keys);
        free(bindings[i].command);
    }
    bindings[i] = binding;
    bound += i == bound;
    return 0;
}

int comvizga_bind_key(const char *keys, const char *command)
{
    comvizga *handle = comvizga_of_process();
    uint32_t status = COMVIZGA_NULL;
    if (!handle)
        return -1;
    if (keys && command)
        status = comvizga_bind(handle, keys, strlen(keys), command, strlen(command));
    return comvizga_answer(status) < 0 ? -1 : note(keys, command);
}

int comvizga_set_completions(const char *const *each, size_t count)
{
    comvizga *handle = comvizga_of_process();
    struct text text = {NULL, 0};
    int answer = handle ? 0 : -1;
    if (handle && !each && count)
        return comvizga_answer(COMVIZGA_NULL);
    for (size_t i = 0; i < count && answer == 0; i++)
        answer = put(&text, each[i], strlen(each[i])) < 0 ? -1 : put(&text, "\n", 1);
    if (answer == 0)
        answer = comvizga_answer(comvizga_set_words(handle, text.bytes, text.length));
    forget(answer == 0 ? &words : &text);
    if (answer == 0)
        words = text;
    return answer;
}

void comvizga_close(void)
{
    comvizga_free(&editor);
    for (size_t i = 0; i < bound; i++) {
        free(bindings[i].keys);
        free(bindings[i].command);
    }
    free(bindings);
    bindings = NULL;
    bound = 0;
    forget(&words);
    forget(&new_lines);
    is_left = 0;
}
