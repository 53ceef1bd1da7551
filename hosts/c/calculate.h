/* The arithmetic of example.c. */
#ifndef CALCULATE_H
#define CALCULATE_H

#include <stddef.h>

/* Bytes that hold each answer. */
enum { ANSWER_SIZE = 100 };

/* Writes the value of an expression to the answer: whole numbers of 64 bits with + - * / % ( ) and a minus before a
 * value. Where it has none, writes what is wrong, and where: columns are counted from 1, and lines where there are
 * several. Returns 0, without an answer, for a blank line, and else 1. */
int calculate(const char *line, char answer[ANSWER_SIZE]);

#endif
