/* measure SECONDS COMMAND ARGUMENT..: runs a command, ends it after so many seconds, and prints after its output a line with 1 where it ended by
   itself with status 0, else 0, its wall time in milliseconds and its peak memory in kilobytes. It is small itself, since the peak that the
   system tells of a process counts that of the one which started it. */
#include <signal.h>
#include <stdio.h>
#include <stdlib.h>
#include <sys/resource.h>
#include <sys/wait.h>
#include <time.h>
#include <unistd.h>

static pid_t child;
static void stop(int signal) { (void)signal, kill(child, SIGKILL); }

static double now(void)
{
    struct timespec t;
    clock_gettime(CLOCK_MONOTONIC, &t);
    return t.tv_sec * 1e3 + t.tv_nsec * 1e-6;
}

int main(int count, char **words)
{
    if (count < 3) return 2;
    double start = now();
    child = fork();
    if (child == 0) {
        execvp(words[2], words + 2);
        _exit(127);
    }
    if (child < 0) return 2;
    signal(SIGALRM, stop);
    alarm(atoi(words[1]));
    int status;
    struct rusage usage;
    while (wait4(child, &status, 0, &usage) < 0) continue;
    printf("\n%d %.3f %ld\n", WIFEXITED(status) && WEXITSTATUS(status) == 0, now() - start, usage.ru_maxrss);
    return 0;
}
