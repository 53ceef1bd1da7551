/* Comvizga: a line editor for a terminal.
 *
 * There are two ways to use it.
 *
 * 1. comvizga_readline and the calls beside it, at the end of this file, read lines from the terminal of the process.
 * 2. A handle is an editor without a terminal: your program hands over the bytes that a terminal sends (comvizga_feed),
 * and takes the bytes that the terminal is to show (comvizga_output). It waits for nothing, reads nothing and writes
 * nothing. There may be several.
 *
 *        comvizga editor = COMVIZGA_NOTHING;
 *        comvizga_settings settings = comvizga_defaults();
 *        comvizga_new(&settings, &editor);
 *        status = comvizga_begin(&editor, "> ", 2);
 *        while (status == COMVIZGA_OK) {
 *            ... take what comvizga_output gives, and write it to the terminal, which is raw ...
 *            ... read bytes of the terminal ...
 *            status = comvizga_feed(&editor, bytes, length);
 *        }
 *        ... take and write once more: the end of a line leaves bytes, too ...
 *        if (status == COMVIZGA_SUBMITTED)
 *            comvizga_line(&editor, line, sizeof line, &length);
 *
 * Texts are UTF-8, given by a pointer and a length in bytes, without a NUL behind them; they may hold NUL bytes. What
 * is handed over is copied, and remains the caller's. Each call answers a status. Link with libcomvizga.a.
 */
#ifndef COMVIZGA_H
#define COMVIZGA_H

#include <stddef.h>
#include <stdint.h>

#ifdef __cplusplus
extern "C" {
#endif

/* ----------------------------------------------------------------------------------------- the version */

/* The version of this file. */
#define COMVIZGA_VERSION_MAJOR 0
#define COMVIZGA_VERSION_MINOR 1
#define COMVIZGA_VERSION_PATCH 0
#define COMVIZGA_VERSION "0.1.0"

/* The number in the name of the shared library. It goes up where a call goes, or comes to mean something else. */
#define COMVIZGA_ABI 0

/* The version of the library, as COMVIZGA_VERSION. */
const char *comvizga_version(void);

/* ------------------------------------------------------------------------------------------ the handle */

/* An editor, by its handle. Never copy one that holds something, and never use one in two threads at once. Different
 * handles may be used in different threads. */
typedef struct comvizga {
    void *at;
} comvizga;

/* A handle that holds nothing: comvizga editor = COMVIZGA_NOTHING; */
#define COMVIZGA_NOTHING                                                                                               \
    {                                                                                                                  \
        0                                                                                                              \
    }

/* How an editor behaves. comvizga_defaults gives one to begin with; a field that is not said to be a number is 0 for
 * no, else yes. Later versions have more fields, at the end. */
typedef struct comvizga_settings {
    size_t size;                    /* a number: the bytes of all fields that the program knows */
    size_t max_history_size;        /* a number: lines that the history keeps */
    size_t completion_prompt_limit; /* a number: candidates that are listed without asking */
    uint16_t columns;               /* a number: columns of the terminal, at least 1 */
    uint16_t rows;                  /* a number: rows of the terminal */
    uint8_t vi;                     /* keys of Vi, not of Emacs */
    uint8_t list_completions;       /* Tab lists the candidates; else it goes through them */
    uint8_t show_all_if_ambiguous;  /* they are listed at the first Tab */
    uint8_t hints;                  /* the rest of the nearest line of the history is shown, dim; Right takes it */
    uint8_t brackets;               /* Enter breaks the line while a bracket is open; the match of a bracket is lit */
    uint8_t colors;                 /* colors are written */
    uint8_t auto_add_history;       /* submitted lines go into the history */
    uint8_t history_ignore_dups;    /* a line that equals the newest one is left out of the history */
    uint8_t history_ignore_space;   /* a line that begins with white space is left out of the history */
    uint8_t bracketed_paste;        /* the terminal is asked to mark pasted texts */
    uint8_t synchronized_output;    /* the terminal is asked to show a drawing all at once */
    uint8_t indent_size;            /* a number: spaces of a step of indentation */
} comvizga_settings;

/* What a call answers. */
enum comvizga_status {
    COMVIZGA_OK = 0,          /* done; of a line: it goes on, and more bytes are wanted */
    COMVIZGA_SUBMITTED = 1,   /* the line was submitted: comvizga_line gives it */
    COMVIZGA_ENDED = 2,       /* the input ended: C-d on an empty line, or comvizga_finish */
    COMVIZGA_INTERRUPTED = 3, /* C-c */
    COMVIZGA_SUSPENDED = 4,   /* the person asked to suspend the program; only where a key is bound to "suspend" */
    COMVIZGA_NO_MEMORY = 16,  /* an allocation failed; a line that went on goes on, or of comvizga_begin the new one */
    COMVIZGA_FAILED = 17,     /* input or output failed; no call of a handle is known to answer this */
    COMVIZGA_NOT_TEXT = 18,   /* bytes that are not UTF-8 */
    COMVIZGA_NO_LINE = 19,    /* no line goes on; of comvizga_line: and none was submitted */
    COMVIZGA_HAS_LINE = 20,   /* a line goes on */
    COMVIZGA_TOO_SMALL = 21,  /* the buffer is too small; the length that is needed was set */
    COMVIZGA_NO_KEY = 22,     /* no key has this name */
    COMVIZGA_NO_COMMAND = 23, /* no command has this name */
    COMVIZGA_EMPTY = 24,      /* the handle holds nothing */
    COMVIZGA_IN_USE = 25,     /* comvizga_new: the handle holds something */
    COMVIZGA_NULL = 26,       /* a null pointer */
    COMVIZGA_BAD_SETTING = 27 /* 0 columns, or settings that comvizga_defaults did not give */
};

/* ----------------------------------------------------------------------------------- calls of a handle
 *
 * Each call but comvizga_new answers COMVIZGA_EMPTY where the handle holds nothing. Each answers COMVIZGA_NULL where
 * the handle, a pointer to what it is to set, or a text whose length is not 0 is null: nothing has changed then. A text
 * of length 0 may be null. The pointers to what a call sets may not point into each other or at the handle. Where
 * nothing else is said, a call sets what they point at where it answers COMVIZGA_OK, and else leaves it.
 *
 * COMVIZGA_NO_MEMORY may come of each call that makes an editor, or begins, reads, draws, drops, adds, loads, saves,
 * sets or binds. The handle stays usable and is to be freed as ever. The line that went on goes on, or the new one
 * where another was to begin, and may be drawn anew before the next key is read; how many of the bytes of a
 * comvizga_feed were read is not told. COMVIZGA_FAILED is for errors of input or output. What a handle draws goes into
 * memory, so no call is known to answer it; what is said of COMVIZGA_NO_MEMORY would hold of it, too. */

/* Sets so many bytes of settings, sizeof(comvizga_settings), to the usual ones: 80 columns, 24 rows, keys of Emacs, a
 * history of 100 lines, colors. */
void comvizga_set_defaults(comvizga_settings *settings, size_t size);

/* The settings that are the usual ones. */
static inline comvizga_settings comvizga_defaults(void)
{
    comvizga_settings settings;
    comvizga_set_defaults(&settings, sizeof settings);
    return settings;
}

/* Makes an editor. The handle has to hold nothing before, and holds the editor after COMVIZGA_OK alone.
 * COMVIZGA_IN_USE: the handle holds something, and still does. COMVIZGA_BAD_SETTING: 0 columns, or a size that
 * is too small. The settings are copied; those that the library does not know yet are passed over. */
uint32_t comvizga_new(const comvizga_settings *settings, comvizga *handle);

/* Frees all memory of an editor. The handle holds nothing then, and may be used for a new one. A second call answers
 * COMVIZGA_EMPTY. Where a line goes on, the terminal would still mark pasted texts behind this: call comvizga_abandon
 * before, and write what comvizga_output gives. */
uint32_t comvizga_free(comvizga *handle);

/* Begins a line behind a prompt, and draws it from the first column of the cursor's row on; what stands there and below
 * is cleared. A line that went on before is dropped. Keys that were typed behind the end of the line before are read,
 * so this may answer all that comvizga_feed does, COMVIZGA_SUSPENDED too. Lengths are bytes. COMVIZGA_NOT_TEXT: the
 * prompt is not UTF-8, and nothing has changed. After COMVIZGA_NO_MEMORY the new line goes on; or, if it could not
 * begin, the one before goes on unchanged, if there was one, and may be drawn anew. comvizga_cursor tells whether a
 * line goes on, and comvizga_line which. */
uint32_t comvizga_begin(comvizga *handle, const char *prompt, size_t prompt_length);

/* Begins a line as comvizga_begin does, with a prompt that is shown as styled, the same text with escape sequences for
 * colors; and with texts that stand before and behind the cursor at first. COMVIZGA_NOT_TEXT: one of the four is not
 * UTF-8. */
uint32_t comvizga_begin_with(comvizga *handle, const char *prompt, size_t prompt_length, const char *styled,
                             size_t styled_length, const char *left, size_t left_length, const char *right,
                             size_t right_length);

/* Hands over bytes of the terminal, in any pieces: a character or a key may be cut. Bytes that are no UTF-8 count as
 * U+FFFD. COMVIZGA_OK: the line goes on. COMVIZGA_SUBMITTED, COMVIZGA_ENDED, COMVIZGA_INTERRUPTED: it ended, the
 * terminal's cursor comes to the first column of the row below it, and what came behind its end is kept for the next
 * line. COMVIZGA_NO_LINE: no line goes on, and nothing is read or kept.
 *
 * COMVIZGA_SUSPENDED: the line goes on, and the cursor comes below it. Suspend the program; the terminal still marks
 * pasted texts then, where the settings say so: that is yours to turn off (ESC [?2004l) and, when the program goes on,
 * on (ESC [?2004h). Then a feed of no bytes draws the line, from the first column of the cursor's row on, and reads
 * what was typed behind that key. */
uint32_t comvizga_feed(comvizga *handle, const void *bytes, size_t length);

/* Says that no byte came for a while, some 50 milliseconds: what has come of a key is the key. A lone Esc is the Esc
 * key then, and not the beginning of a sequence, and a paste is put in as far as it has come. Call it where
 * comvizga_is_waiting says so, and again each 50 milliseconds in which no byte comes, as long as it does: the twentieth
 * call behind the last byte ends a paste, or a reply of the terminal, that has not ended. Answers as comvizga_feed
 * does. */
uint32_t comvizga_flush(comvizga *handle);

/* Says that no more bytes come at all. What has come of a key is read, and answered as by comvizga_feed; but a line
 * that would go on is dropped, as comvizga_abandon does it, with COMVIZGA_ENDED: ask comvizga_line for its text before.
 * After COMVIZGA_SUSPENDED the line goes on, and this is to be called once more behind the feed of no bytes. */
uint32_t comvizga_finish(comvizga *handle);

/* Drops the line that goes on, as after an error of the terminal, so that the calls of the history can be made again.
 * Its text is lost. Keys that were typed ahead are kept for the next line. The cursor of the terminal stays where it
 * is: what was drawn stands there, and to come below it is yours. COMVIZGA_NO_LINE: no line goes on. After
 * COMVIZGA_NO_MEMORY it goes on as before. */
uint32_t comvizga_abandon(comvizga *handle);

/* Says that the terminal has so many columns and rows now; also where no line goes on. One that does is drawn anew,
 * also where they are the same as before. So is the line of a program that was suspended, for which this stands in
 * place of the drawing; what was typed behind is read by the next feed. COMVIZGA_BAD_SETTING: 0 columns, and nothing
 * has changed. After COMVIZGA_NO_MEMORY columns and rows are the new ones. */
uint32_t comvizga_resize(comvizga *handle, uint16_t columns, uint16_t rows);

/* Sets *waiting to 1 where the bytes that came last have begun a key, a paste or a reply of the terminal that has not
 * ended, so that comvizga_flush would settle it, else to 0. */
uint32_t comvizga_is_waiting(comvizga *handle, uint8_t *waiting);

/* Takes bytes that are to be written to the terminal, at most size, and sets *taken to their number. Each call that
 * begins, reads, ends, drops or resizes a line may leave bytes, whatever it answers. Call this behind it until *taken
 * is 0, with a size above 0. */
uint32_t comvizga_output(comvizga *handle, void *buffer, size_t size, size_t *taken);

/* Copies the text of the line that goes on, or else of the line that was submitted last, and sets *length to its bytes;
 * no NUL comes behind it. COMVIZGA_TOO_SMALL: *length is what is needed, and nothing is copied; so a size of 0 asks for
 * the length. COMVIZGA_NO_LINE: no line goes on, and none was submitted; *length is 0. */
uint32_t comvizga_line(comvizga *handle, void *buffer, size_t size, size_t *length);

/* Sets *cursor to the place of the cursor in the line that goes on: an offset in bytes, between two characters.
 * COMVIZGA_NO_LINE: no line goes on. */
uint32_t comvizga_cursor(comvizga *handle, size_t *cursor);

/* Adds a line to the history, as its newest; by the settings some are left out, an empty one always. COMVIZGA_HAS_LINE:
 * a line goes on. COMVIZGA_NOT_TEXT: the line is not UTF-8. Nothing has changed then, nor after COMVIZGA_NO_MEMORY. */
uint32_t comvizga_history_add(comvizga *handle, const char *text, size_t length);

/* Adds the lines of a text to the history: one as comvizga_history_save makes it, with the first line #V3, or plain
 * lines, each ended by a newline. COMVIZGA_HAS_LINE: a line goes on, and nothing has changed. After COMVIZGA_NOT_TEXT
 * and COMVIZGA_NO_MEMORY some lines may have been added. */
uint32_t comvizga_history_load(comvizga *handle, const void *text, size_t length);

/* Makes a text of the history, which comvizga_saved gives: all lines behind the first line #V3; or, where append is not
 * 0, those lines alone that came since the last load or save. COMVIZGA_HAS_LINE: a line goes on. After that, and after
 * COMVIZGA_NO_MEMORY, comvizga_saved goes on with the text from before. */
uint32_t comvizga_history_save(comvizga *handle, uint8_t append);

/* Takes a piece of the text that comvizga_history_save made, as comvizga_output takes one. */
uint32_t comvizga_saved(comvizga *handle, void *buffer, size_t size, size_t *taken);

/* Sets the words that Tab completes, one a line, where empty lines are none; at any time. They take the place of those
 * before. COMVIZGA_NOT_TEXT: they are not UTF-8. The words are those of before then, and after COMVIZGA_NO_MEMORY. */
uint32_t comvizga_set_words(comvizga *handle, const char *words, size_t length);

/* Binds a key to a command; from the next call on that reads keys. Keys are one or several names with a space between
 * them, as "M-f", "C-x C-e", "F5", "C-Left", "Tab" or "a"; the command has its name in GNU Readline, as
 * "beginning-of-line", "kill-line", "undo", "complete", "reverse-search-history", "suspend" or "accept-line".
 * COMVIZGA_NO_KEY, COMVIZGA_NO_COMMAND: there is none of that name. COMVIZGA_NOT_TEXT: a name is not UTF-8. Of several
 * commands for the same keys the last one counts. */
uint32_t comvizga_bind(comvizga *handle, const char *keys, size_t keys_length, const char *command,
                       size_t command_length);

/* ------------------------------------------------------------------------------- lines of the terminal
 *
 * These calls have one editor for the process, which the first of them makes, and are for one thread. Strings end with
 * a NUL. Where an int is answered it is 0, or -1 with errno set: EINVAL for a null pointer or an unknown key or
 * command, EILSEQ for what is not UTF-8, ENOMEM, EBUSY while a line of comvizga_of_process goes on, or what the system
 * said. After an error all of them can be called again. */

/* How lines stand in a file of the history that is written. */
enum comvizga_history_form {
    COMVIZGA_HISTORY_MARKED = 0, /* behind the line #V3; a backslash is \\, a newline \n and a carriage return \r */
    COMVIZGA_HISTORY_PLAIN = 1   /* as they are: a line in which newlines stand becomes several */
};

/* How comvizga_readline behaves. */
typedef struct comvizga_readline_settings {
    int escape_milliseconds;  /* how long Esc waits for what belongs to it, as in the bytes of an arrow; 50 at first */
    int history_form;         /* one of comvizga_history_form */
    int later[6];             /* room for what later versions have */
    comvizga_settings editor; /* columns and rows become those of the terminal, where there is one */
} comvizga_readline_settings;

/* The settings, to be changed before the first other call: the editor is made with what they are then.
 * escape_milliseconds, history_form and editor.max_history_size may be changed later, too. They are those of
 * comvizga_defaults at first, but that the history has no limit (SIZE_MAX), and that no colors are written where
 * NO_COLOR is set. Never null. */
comvizga_readline_settings *comvizga_configure(void);

/* The editor itself, for calls of a handle between two lines, as comvizga_history_add with a text that holds a NUL. It
 * is not to be freed. Keys and words are set by the calls below: those that are set here are forgotten where the editor
 * is made anew, which the limit of the history or another kind of standard input asks for. Null with errno where there
 * is no memory for it, or where the settings have 0 columns. */
comvizga *comvizga_of_process(void);

/* Reads a line behind a prompt; null is no prompt. Returns the line without its newline, with a NUL behind it, to be
 * freed by free. Newlines that were typed or pasted stand in it; a NUL byte in it, which C-q C-@ types, looks like its
 * end. Returns null with errno
 * - 0, where the input has ended: C-d on an empty line, or the end of a file;
 * - EINTR, where the person interrupted: C-c;
 * - else an error, and the line is lost: ENOMEM; EILSEQ, where the prompt is not UTF-8; EIO and the like of a read or a
 * write.
 *
 * What was printed by stdio is written out first. The line is read from standard input and drawn on standard output,
 * which may be a pipe. Where standard input is a terminal, it is raw until the line ends. It is also set back at exit,
 * where C-z suspends the program, and before a SIGINT, SIGTERM, SIGHUP, SIGQUIT or SIGTSTP that was sent does what the
 * program has it do; if the program lives on, the line goes on, below what stands there. So it is before a signal ends
 * the program for which it has no handler, as SIGALRM or SIGSEGV. While a line is read these signals, SIGWINCH and
 * SIGCONT are caught; one that the program ignores stays ignored. No handler runs inside of the editor: one may jump
 * out of this call (siglongjmp), and the next call of these drops the line and sets the terminal back. A child of fork
 * leaves the terminal as it is.
 *
 * Where standard input is no terminal, the bytes are read as if they were typed, as GNU Readline does: prompts and
 * lines are drawn on standard output too, for the columns of the settings. A last line that lacks its newline is a
 * line; but one in which a bracket is open, where the settings look for that, is lost. Bytes behind the line may be
 * read ahead; they are kept for the next one.
 *
 * Where TERM is dumb, cons25 or emacs, the line is read by getline from stdin, as the terminal edits it: nothing is
 * written but the prompt, no key does anything else, and no bracket is looked at. */
char *comvizga_readline(const char *prompt);

/* Adds a line to the history, as its newest. */
int comvizga_add_history(const char *line);

/* Sets how many lines the history keeps, the newest ones: editor.max_history_size. It counts for the lines that are
 * there and for those that come, and so for what comvizga_write_history writes. Where lines were added or read before,
 * what was killed is forgotten. */
int comvizga_set_history_limit(size_t lines);

/* Adds the lines of a file to the history, in either form. ENOENT, where the file is not there. */
int comvizga_read_history(const char *path);

/* Writes the lines of the history to a file in place of those that it holds: to a new file, which then takes its name,
 * so that it is whole at each moment. Where path is a symbolic link, the file that it leads to is replaced. The new
 * file has the mode 0600. EINVAL, where path is no plain file, but a device, say. */
int comvizga_write_history(const char *path);

/* Appends to a file those lines that came into the history since the last of these three calls; none of those that the
 * file has is dropped, whatever the limit. A file that is not there is made, with the mode 0600. Lines are appended in
 * the form that the file has; EINVAL, where it has plain lines and history_form says otherwise. Where writing fails,
 * the file stays as it was, and the next call appends those lines.
 *
 * Both calls that write hold a lock (flock) on the file: programs that share one wait for each other. */
int comvizga_append_history(const char *path);

/* Sets the words that Tab completes, in place of those before. No newline stands in them. */
int comvizga_set_completions(const char *const *words, size_t count);

/* Binds a key to a command, as comvizga_bind does: comvizga_bind_key("F5", "undo"). C-z is bound to "suspend" at
 * first. */
int comvizga_bind_key(const char *keys, const char *command);

/* Frees all memory; history, words and bindings are forgotten. The next call makes an editor anew. */
void comvizga_close(void);

#ifdef __cplusplus
}
#endif

#endif
