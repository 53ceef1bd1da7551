/* What is measured: each library has one file that defines this. */

/* Reads a line behind the prompt "> " from standard input. Returns it without its newline, to be freed by free, or null
 * at the end. */
char *read_line(void);
