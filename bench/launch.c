/* Runs a program, and reports on the standard error its status, its seconds of processor time, and its greatest resident memory in
   kilobytes.

       launch STACK LIBRARY PROGRAM WORD ..

   STACK     the limit of the stack in bytes, or 0 to leave it
   LIBRARY   a library for LD_PRELOAD, or an empty word
   PROGRAM   the program, found on the PATH, with its words; its standard error is dropped

   The system counts the memory of a process from before it runs its program. So the process that starts the program has to be
   small, which Python is not. If a signal ended the program, the status is the number of the signal, negative. */

#include <fcntl.h>
#include <stdio.h>
#include <stdlib.h>
#include <sys/resource.h>
#include <sys/time.h>
#include <sys/wait.h>
#include <unistd.h>

static double seconds(struct timeval time) { return time.tv_sec + time.tv_usec * 1e-6; }

static void become(rlim_t stack, const char *library, char **words) {
    if (stack && setrlimit(RLIMIT_STACK, &(struct rlimit){stack, stack})) _exit(126);
    if (*library && setenv("LD_PRELOAD", library, 1)) _exit(126);
    if (dup2(open("/dev/null", O_WRONLY), 2) < 0) _exit(126);
    execvp(*words, words);
    _exit(127);
}

int main(int words, char **word) {
    if (words < 4) return 2;
    pid_t child = fork();
    if (child < 0) return 126;
    if (!child) become(strtoull(word[1], NULL, 10), word[2], word + 3);
    int status;
    struct rusage used;
    if (wait4(child, &status, 0, &used) < 0) return 126;
    fprintf(stderr, "%d %.6f %ld\n", WIFEXITED(status) ? WEXITSTATUS(status) : -WTERMSIG(status),
            seconds(used.ru_utime) + seconds(used.ru_stime), used.ru_maxrss);
    return 0;
}
