/* What the release brings itself, so that it runs with an older C library (2.31) than its programs and its shared
 * library are linked with. */
#define _DEFAULT_SOURCE
#include <cpuid.h>
#include <sys/stat.h>
#include <sys/syscall.h>
#include <unistd.h>

/* The C library has the two as calls of its own from 2.33 on. */
int fstat(int file, struct stat *facts)
{
    return (int)syscall(SYS_fstat, file, facts);
}

int stat(const char *path, struct stat *facts)
{
    return (int)syscall(SYS_stat, path, facts);
}

/* What the processor can do, by the registers of cpuid: what it has, and what of that can be used. */
struct features {
    unsigned had[4], usable[4];
};

/* The C library has it from 2.33 on. The programs ask for the leaves 1 and 80000001 alone, as 0 and 2, and for what
 * needs nothing of the system, so that it can be used where it is there. */
const struct features *__x86_get_cpuid_feature_leaf(unsigned leaf)
{
    static struct features found[3];
    unsigned *to = leaf < 3 ? found[leaf].usable : NULL;
    if (leaf == 0)
        __get_cpuid(1, &to[0], &to[1], &to[2], &to[3]);
    if (leaf == 2)
        __get_cpuid(0x80000001, &to[0], &to[1], &to[2], &to[3]);
    return &found[to ? leaf : 1];
}
