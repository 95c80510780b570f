/* What is installed in bin under the name of a program: it runs the program of its own name that is built for this processor. Those
 * stand in ../libexec/etherparse-proved: in x86-64-v3, for processors with AVX2, BMI2, FMA and the others of that level of the
 * x86-64 psABI, and in x86-64, for all. Words, the environment and open files go to the program as they are. */
#include <limits.h>
#include <stdio.h>
#include <stdlib.h>
#include <string.h>
#include <sys/auxv.h>
#include <unistd.h>

/* Returns only where the program can't be run. */
static void run(const char *folder, const char *level, const char *name, char **words) {
    char path[PATH_MAX];
    int length = snprintf(path, sizeof path, "%s/../libexec/etherparse-proved/%s/%s", folder, level, name);
    if (length > 0 && (size_t)length < sizeof path) execv(path, words);
}

int main(int count, char **words) {
    (void)count;
    char path[PATH_MAX];
    const char *started = (const char *)getauxval(AT_EXECFN);
    if (!started || !realpath(started, path)) {
        perror("where the program stands");
        return 127;
    }
    char *name = strrchr(path, '/');
    *name++ = '\0';
    if (__builtin_cpu_supports("x86-64-v3")) run(path, "x86-64-v3", name, words);
    run(path, "x86-64", name, words);
    perror(name);
    return 127;
}
