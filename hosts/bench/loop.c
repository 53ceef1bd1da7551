/* Reads as many lines as the first argument says, and tells on standard error how many lines and bytes there were, the
 * processor time in microseconds, and the peak of the memory in kilobytes. Behind a second argument it writes a byte to
 * standard error before each line. */
#include "read_line.h"

#include <stdio.h>
#include <stdlib.h>
#include <string.h>
#include <sys/resource.h>

static long microseconds(struct timeval time)
{
    return time.tv_sec * 1000000L + time.tv_usec;
}

/* The peak of the memory since the program began. What getrusage tells may be that of the process that started it. */
static long peak(long otherwise)
{
    char text[200];
    long kilobytes = otherwise;
    FILE *file = fopen("/proc/self/status", "r");
    while (file && fgets(text, sizeof text, file))
        sscanf(text, "VmHWM: %ld", &kilobytes);
    if (file)
        fclose(file);
    return kilobytes;
}

int main(int count, char **words)
{
    struct rusage used;
    long most = count > 1 ? atol(words[1]) : 0, lines = 0, bytes = 0;
    char *line;
    for (; lines < most; lines++) {
        if (count > 2)
            putc('.', stderr);
        if (!(line = read_line()))
            break;
        bytes += (long)strlen(line);
        free(line);
    }
    getrusage(RUSAGE_SELF, &used);
    fprintf(stderr, "\n%ld %ld %ld %ld\n", lines, bytes, microseconds(used.ru_utime) + microseconds(used.ru_stime),
            peak(used.ru_maxrss));
    return 0;
}
