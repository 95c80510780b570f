/* Runs programs one after another and reports how each ended: the status, or 256 and the number of the signal, the most
 * kilobytes that it held, and the microseconds of processor time that it took. tools/mutated_captures compiles it.
 *
 * A line of standard input has, with tabs between: standard input's file, standard output's and standard error's, the seconds
 * after which it gets SIGALRM, the program, its words. A process that Python starts would count Python's memory as its own. */
#define _GNU_SOURCE
#include <fcntl.h>
#include <stdio.h>
#include <stdlib.h>
#include <string.h>
#include <sys/resource.h>
#include <sys/wait.h>
#include <unistd.h>

enum { MOST_WORDS = 4096 };

static void open_as(const char *path, int flags, int as) {
    int opened = open(path, flags, 0600);
    if (opened < 0 || dup2(opened, as) < 0) {
        _exit(126);
    }
    close(opened);
}

int main(void) {
    static char *words[MOST_WORDS + 1];
    char *line = NULL;
    size_t room = 0;
    ssize_t length;
    while ((length = getline(&line, &room, stdin)) > 0) {
        int count = 0;
        line[length - 1] = 0;
        for (char *at = line; at != NULL && count < MOST_WORDS;) {
            words[count++] = strsep(&at, "\t");
        }
        words[count] = NULL;
        if (count < 5) {
            return 1;
        }
        struct rusage used;
        int status;
        pid_t child = fork();
        if (child == 0) {
            open_as(words[0], O_RDONLY, 0);
            open_as(words[1], O_WRONLY | O_CREAT | O_TRUNC, 1);
            open_as(words[2], O_WRONLY | O_CREAT | O_TRUNC, 2);
            alarm((unsigned)atoi(words[3]));
            execv(words[4], words + 4);
            _exit(127);
        }
        if (child < 0 || wait4(child, &status, 0, &used) != child) {
            return 1;
        }
        long seconds = used.ru_utime.tv_sec + used.ru_stime.tv_sec;
        long microseconds = 1000000 * seconds + used.ru_utime.tv_usec + used.ru_stime.tv_usec;
        int code = WIFSIGNALED(status) ? 256 + WTERMSIG(status) : WEXITSTATUS(status);
        printf("%d %ld %ld\n", code, used.ru_maxrss, microseconds);
        fflush(stdout);
    }
    return 0;
}
