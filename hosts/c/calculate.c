/* The arithmetic of example.c. calculate.h says what it does. */
#include "calculate.h"

#include <ctype.h>
#include <errno.h>
#include <stdio.h>
#include <stdlib.h>
#include <string.h>

/* How many brackets and signs may stand round a number. */
enum { DEPTH = 200 };

/* What is read next; and what is wrong with the line, if something is, and where. */
static const char *at, *wrong, *place;

static long long refuse(const char *where, const char *why)
{
    place = wrong ? place : where;
    wrong = wrong ? wrong : why;
    return 0;
}

__extension__ typedef __int128 wide;

static long long apply(const char *operator, long long left, long long right)
{
    wide a = left, b = right, value = 0;
    switch (*operator) {
    case '+': value = a + b; break;
    case '-': value = a - b; break;
    case '*': value = a * b; break;
    case '/': value = b ? a / b : 0; break;
    case '%': value = b ? a % b : 0; break;
    }
    if (!right && strchr("/%", *operator))
        return refuse(operator, "division by zero");
    return value == (long long)value ? (long long)value : refuse(operator, "the result does not fit 64 bits");
}

/* Passes blanks, and a character behind them if it is one of these. Returns where that stood, or null. */
static const char *pass(const char *these)
{
    at += strspn(at, " \t\n");
    return *at && strchr(these, *at) ? at++ : NULL;
}

static long long sum(int depth);

/* Reads a number, a negation, or a sum in brackets. */
static long long operand(int depth)
{
    const char *start = pass("-("), *word = at;
    if (start && !depth)
        return refuse(start, "brackets are nested too deeply");
    if (start && *start == '-')
        return apply(start, 0, operand(depth - 1));
    if (start) {
        long long value = sum(depth - 1);
        return pass(")") ? value : refuse(at, "expected )");
    }
    if (isdigit((unsigned char)*word))
        return strtoll(word, (char **)&at, 10);
    return refuse(word, isalpha((unsigned char)*word) || *word == '_' ? "this name has no value"
                                                                      : "expected a number, a name or (");
}

static long long product(int depth)
{
    const char *operator;
    long long value = operand(depth);
    while (!wrong && (operator= pass("*/%")))
        value = apply(operator, value, operand(depth));
    return value;
}

static long long sum(int depth)
{
    const char *operator;
    long long value = product(depth);
    while (!wrong && (operator= pass("+-")))
        value = apply(operator, value, product(depth));
    return value;
}

/* Refuses a number that is too large, whatever else is wrong with the line. */
static void look_at_numbers(const char *line)
{
    for (const char *end; *line; line = end) {
        end = line + 1;
        if (isdigit((unsigned char)*line)) {
            errno = 0;
            if (strtoll(line, (char **)&end, 10) && errno)
                refuse(line, "the number is too large");
        } else if (isalpha((unsigned char)*line) || *line == '_') {
            while (isalnum((unsigned char)*end) || *end == '_')
                end++;
        } else if (!strchr(" \t\n+-*/%()=", *line)) {
            return;
        }
    }
}

/* Writes what is wrong with the line, and where. */
static void explain(const char *line, char answer[ANSWER_SIZE])
{
    int row = 1, column = 1;
    const char *rows = strchr(line, '\n');
    for (; line < place; line++) {
        column = *line == '\n' ? 1 : column + ((*line & 0xC0) != 0x80);
        row += *line == '\n';
    }
    if (rows)
        snprintf(answer, ANSWER_SIZE, "line %d, column %d: %s", row, column, wrong);
    else
        snprintf(answer, ANSWER_SIZE, "column %d: %s", column, wrong);
}

int calculate(const char *line, char answer[ANSWER_SIZE])
{
    long long value;
    wrong = NULL;
    at = line;
    pass("");
    if (!*at)
        return 0;
    look_at_numbers(line);
    value = sum(DEPTH);
    pass("");
    if (*at)
        refuse(at, "expected an operator or the end");
    if (wrong)
        explain(line, answer);
    else
        snprintf(answer, ANSWER_SIZE, "%lld", value);
    return 1;
}
