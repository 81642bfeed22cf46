/* peak SECONDS KIB COMMAND..: runs the command and ends with its status; with 120, and a message, where it took longer or more memory at its peak (VmHWM). */
#include <stdio.h>
#include <stdlib.h>
#include <sys/resource.h>
#include <sys/wait.h>
#include <time.h>
#include <unistd.h>

static double now(void)
{
    struct timespec t;
    clock_gettime(CLOCK_MONOTONIC, &t);
    return (double)t.tv_sec + (double)t.tv_nsec / 1e9;
}

int main(int count, char **words)
{
    double start = now();
    int status, pid = count > 3 ? fork() : -1;
    if (pid == 0) {
        execv(words[3], words + 3);
        _exit(119);
    }
    if (pid < 0 || waitpid(pid, &status, 0) != pid || !WIFEXITED(status))
        return 119;
    struct rusage used;
    getrusage(RUSAGE_CHILDREN, &used);
    double seconds = now() - start;
    if (seconds < (double)strtol(words[1], NULL, 10) && used.ru_maxrss < strtol(words[2], NULL, 10))
        return WEXITSTATUS(status);
    fprintf(stderr, "peak: %.1f seconds, %ld KiB\n", seconds, used.ru_maxrss);
    return 120;
}
