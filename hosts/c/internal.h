/* What the files of the process's editor share: comvizga.c, editor.c, history.c and tty.c. No part of the interface. */
#ifndef COMVIZGA_INTERNAL_H
#define COMVIZGA_INTERNAL_H

#include "comvizga.h"

#include <sys/types.h>

/* ------------------------------------------------------------------------- editor.c: the process's editor */

/* Returns 0 for COMVIZGA_OK, and else -1 with what another status is as errno. */
int comvizga_answer(uint32_t status);

/* The editor, with what the settings and the terminal ask for now. Null with errno. */
comvizga *comvizga_editor_at(int is_terminal);

/* Says whether a line is read. One that is not over at the next call was left, as by a jump, and is dropped there. */
void comvizga_reads_line(int is_read);

/* Drops what was drawn and not yet written. */
void comvizga_drop_drawn(void);

/* Asks the terminal for its size, which goes into the settings. */
void comvizga_measure(void);

/* The lines that no file has, as text to be appended to one. They are kept until they are forgotten, also where the
 * editor is made anew. Null with errno. */
const char *comvizga_new_lines(size_t *length);
void comvizga_forget_new_lines(void);

/* The text of the history that comvizga_history_save makes, to be freed. Null with errno. */
char *comvizga_history_text(uint8_t append, size_t *length);

/* --------------------------------------------------- tty.c: the terminal at standard input, and its signals */

int comvizga_tty_is_there(void);

/* Whether the terminal cannot move its cursor. */
int comvizga_tty_is_dumb(void);

/* Sets columns and rows to those of the terminal. Returns whether it tells them. */
int comvizga_tty_measure(uint16_t *columns, uint16_t *rows);

/* Holds signals up, so that no handler runs, and none can jump out of a call. The others below let them come where they
 * wait, read and write; they are called while signals are held, but for comvizga_tty_break_off. */
void comvizga_tty_hold(void);

/* Lets the signals come again. */
void comvizga_tty_release(void);

/* Forgets what came before a line. */
void comvizga_tty_settle(void);

/* Makes the terminal raw and catches the signals. Where a signal came since, it is called again. Returns 0, or -1 with
 * errno. */
int comvizga_tty_take(void);

/* Gives terminal and signals back to the program. */
void comvizga_tty_give_back(void);

/* Sets the terminal back where a line breaks off: what was drawn stays, and what comes next stands below. */
void comvizga_tty_break_off(void);

/* Whether a signal came since the terminal was taken: it is to be taken again, and its size may be another. */
int comvizga_tty_is_upset(void);

/* Whether a line broke off, or another program had the terminal, since this was asked last: the cursor stands below the
 * line then, and not in it. */
int comvizga_tty_came_below(void);

/* Waits until there is input, so many milliseconds or, where they are below 0, without end. Returns 1, or 0 where none
 * came, or -1 with errno: EINTR where a signal came, also where it came before the call. */
int comvizga_tty_wait(int milliseconds);

/* Reads bytes of standard input, as read does. */
ssize_t comvizga_tty_read(void *bytes, size_t size);

/* Writes all bytes to standard output; the rest of them not, where a line breaks off. Returns 0, or -1 with errno. */
int comvizga_tty_write(const void *bytes, size_t length);

/* Writes all bytes. Returns 0, or -1 with errno. */
int comvizga_write_whole(int file, const void *bytes, size_t length);

#endif
