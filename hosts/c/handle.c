/* The calls of a handle: each looks at its pointers, and calls the proved library, which is never handed a null one.
 * comvizga.h says what each does. */
#include "comvizga.h"

#include <string.h>

/* The settings as the proved library takes them. */
struct line_c_settings {
    size_t max_history_size, completion_prompt_limit;
    uint16_t columns, rows;
    uint8_t vi, list_completions, show_all_if_ambiguous, hints, brackets, colors, auto_add_history;
    uint8_t history_ignore_dups, history_ignore_space, bracketed_paste, synchronized_output, indent_size;
};

uint32_t line_c_new(const struct line_c_settings *settings, comvizga *handle);
uint32_t line_c_free(comvizga *handle);
uint32_t line_c_begin(comvizga *handle, const uint8_t *prompt, size_t prompt_length);
uint32_t line_c_begin_with(comvizga *handle, const uint8_t *prompt, size_t prompt_length, const uint8_t *styled,
                           size_t styled_length, const uint8_t *left, size_t left_length, const uint8_t *right,
                           size_t right_length);
uint32_t line_c_feed(comvizga *handle, const uint8_t *bytes, size_t length);
uint32_t line_c_flush(comvizga *handle);
uint32_t line_c_finish(comvizga *handle);
uint32_t line_c_abandon(comvizga *handle);
uint32_t line_c_resize(comvizga *handle, uint16_t columns, uint16_t rows);
uint32_t line_c_is_waiting(comvizga *handle, uint8_t *waiting);
uint32_t line_c_output(comvizga *handle, uint8_t *buffer, size_t size, size_t *taken);
uint32_t line_c_line(comvizga *handle, uint8_t *buffer, size_t size, size_t *length);
uint32_t line_c_cursor(comvizga *handle, size_t *cursor);
uint32_t line_c_history_add(comvizga *handle, const uint8_t *text, size_t length);
uint32_t line_c_history_load(comvizga *handle, const uint8_t *text, size_t length);
uint32_t line_c_history_save(comvizga *handle, uint8_t append);
uint32_t line_c_saved(comvizga *handle, uint8_t *buffer, size_t size, size_t *taken);
uint32_t line_c_set_words(comvizga *handle, const uint8_t *words, size_t length);
uint32_t line_c_bind(comvizga *handle, const uint8_t *keys, size_t keys_length, const uint8_t *command,
                     size_t command_length);

/* A text as the library takes it: never null, also where it is empty. */
static const uint8_t *text_at(const void *text)
{
    return text ? text : (const void *)"";
}

/* Whether a pointer is null where bytes were promised. */
static int lacks(const void *text, size_t length)
{
    return !text && length;
}

const char *comvizga_version(void)
{
    return COMVIZGA_VERSION;
}

/* ---------------------------------------------------------------------------------------- the settings */

/* What every program knows: the fields of version 0.1.0. */
enum { FIRST_SIZE = offsetof(comvizga_settings, indent_size) + sizeof(uint8_t) };

static const comvizga_settings usual = {
    .max_history_size = 100,
    .completion_prompt_limit = 100,
    .columns = 80,
    .rows = 24,
    .colors = 1,
    .history_ignore_dups = 1,
    .bracketed_paste = 1,
    .synchronized_output = 1,
    .indent_size = 2,
};

/* Copies the settings that two programs know, of which one has a size. */
static void copy(comvizga_settings *to, const comvizga_settings *from, size_t size)
{
    memcpy(to, from, size < sizeof *from ? size : sizeof *from);
}

void comvizga_set_defaults(comvizga_settings *settings, size_t size)
{
    memset(settings, 0, size);
    copy(settings, &usual, size);
    settings->size = size;
}

/* All settings, for the proved library: the usual ones where the program does not know them. */
static struct line_c_settings proved(const comvizga_settings *settings)
{
    comvizga_settings all = usual;
    copy(&all, settings, settings->size);
    return (struct line_c_settings){
        .max_history_size = all.max_history_size,
        .completion_prompt_limit = all.completion_prompt_limit,
        .columns = all.columns,
        .rows = all.rows,
        .vi = all.vi,
        .list_completions = all.list_completions,
        .show_all_if_ambiguous = all.show_all_if_ambiguous,
        .hints = all.hints,
        .brackets = all.brackets,
        .colors = all.colors,
        .auto_add_history = all.auto_add_history,
        .history_ignore_dups = all.history_ignore_dups,
        .history_ignore_space = all.history_ignore_space,
        .bracketed_paste = all.bracketed_paste,
        .synchronized_output = all.synchronized_output,
        .indent_size = all.indent_size,
    };
}

/* ------------------------------------------------------------------------------------------- the calls */

uint32_t comvizga_new(const comvizga_settings *settings, comvizga *handle)
{
    struct line_c_settings all;
    if (!settings || !handle)
        return COMVIZGA_NULL;
    if (settings->size < FIRST_SIZE)
        return COMVIZGA_BAD_SETTING;
    all = proved(settings);
    return line_c_new(&all, handle);
}

uint32_t comvizga_free(comvizga *handle)
{
    if (!handle)
        return COMVIZGA_NULL;
    return line_c_free(handle);
}

uint32_t comvizga_begin(comvizga *handle, const char *prompt, size_t prompt_length)
{
    if (!handle || lacks(prompt, prompt_length))
        return COMVIZGA_NULL;
    return line_c_begin(handle, text_at(prompt), prompt_length);
}

uint32_t comvizga_begin_with(comvizga *handle, const char *prompt, size_t prompt_length, const char *styled,
                             size_t styled_length, const char *left, size_t left_length, const char *right,
                             size_t right_length)
{
    if (!handle || lacks(prompt, prompt_length) || lacks(styled, styled_length) || lacks(left, left_length)
        || lacks(right, right_length))
        return COMVIZGA_NULL;
    return line_c_begin_with(handle, text_at(prompt), prompt_length, text_at(styled), styled_length, text_at(left),
                             left_length, text_at(right), right_length);
}

uint32_t comvizga_feed(comvizga *handle, const void *bytes, size_t length)
{
    if (!handle || lacks(bytes, length))
        return COMVIZGA_NULL;
    return line_c_feed(handle, text_at(bytes), length);
}

uint32_t comvizga_flush(comvizga *handle)
{
    if (!handle)
        return COMVIZGA_NULL;
    return line_c_flush(handle);
}

uint32_t comvizga_finish(comvizga *handle)
{
    if (!handle)
        return COMVIZGA_NULL;
    return line_c_finish(handle);
}

uint32_t comvizga_abandon(comvizga *handle)
{
    if (!handle)
        return COMVIZGA_NULL;
    return line_c_abandon(handle);
}

uint32_t comvizga_resize(comvizga *handle, uint16_t columns, uint16_t rows)
{
    if (!handle)
        return COMVIZGA_NULL;
    return line_c_resize(handle, columns, rows);
}

uint32_t comvizga_is_waiting(comvizga *handle, uint8_t *waiting)
{
    if (!handle || !waiting)
        return COMVIZGA_NULL;
    return line_c_is_waiting(handle, waiting);
}

uint32_t comvizga_output(comvizga *handle, void *buffer, size_t size, size_t *taken)
{
    uint8_t none;
    if (!handle || lacks(buffer, size) || !taken)
        return COMVIZGA_NULL;
    return line_c_output(handle, buffer ? buffer : &none, size, taken);
}

uint32_t comvizga_line(comvizga *handle, void *buffer, size_t size, size_t *length)
{
    uint8_t none;
    if (!handle || lacks(buffer, size) || !length)
        return COMVIZGA_NULL;
    return line_c_line(handle, buffer ? buffer : &none, size, length);
}

uint32_t comvizga_cursor(comvizga *handle, size_t *cursor)
{
    if (!handle || !cursor)
        return COMVIZGA_NULL;
    return line_c_cursor(handle, cursor);
}

uint32_t comvizga_history_add(comvizga *handle, const char *text, size_t length)
{
    if (!handle || lacks(text, length))
        return COMVIZGA_NULL;
    return line_c_history_add(handle, text_at(text), length);
}

uint32_t comvizga_history_load(comvizga *handle, const void *text, size_t length)
{
    if (!handle || lacks(text, length))
        return COMVIZGA_NULL;
    return line_c_history_load(handle, text_at(text), length);
}

uint32_t comvizga_history_save(comvizga *handle, uint8_t append)
{
    if (!handle)
        return COMVIZGA_NULL;
    return line_c_history_save(handle, append);
}

uint32_t comvizga_saved(comvizga *handle, void *buffer, size_t size, size_t *taken)
{
    uint8_t none;
    if (!handle || lacks(buffer, size) || !taken)
        return COMVIZGA_NULL;
    return line_c_saved(handle, buffer ? buffer : &none, size, taken);
}

uint32_t comvizga_set_words(comvizga *handle, const char *words, size_t length)
{
    if (!handle || lacks(words, length))
        return COMVIZGA_NULL;
    return line_c_set_words(handle, text_at(words), length);
}

uint32_t comvizga_bind(comvizga *handle, const char *keys, size_t keys_length, const char *command,
                       size_t command_length)
{
    if (!handle || lacks(keys, keys_length) || lacks(command, command_length))
        return COMVIZGA_NULL;
    return line_c_bind(handle, text_at(keys), keys_length, text_at(command), command_length);
}
