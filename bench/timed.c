// Runs a command over its own standard input: timed OUTPUT COMMAND WORD.. . The command's standard output goes to
// the file OUTPUT. Prints the seconds from before its start to its end, its peak memory in KB, and its exit
// status.
#include <fcntl.h>
#include <stdio.h>
#include <sys/resource.h>
#include <sys/wait.h>
#include <time.h>
#include <unistd.h>

static double now(void) {
    struct timespec t;
    clock_gettime(CLOCK_MONOTONIC, &t);
    return t.tv_sec + t.tv_nsec * 1e-9;
}

int main(int count, char **words) {
    if (count < 3)
        return 2;
    double from = now();
    pid_t child = fork();
    if (child == 0) {
        int out = open(words[1], O_WRONLY | O_CREAT | O_TRUNC, 0666);
        if (out < 0 || dup2(out, 1) < 0)
            _exit(126);
        execvp(words[2], words + 2);
        _exit(127);
    }
    int status;
    struct rusage used;
    if (child < 0 || wait4(child, &status, 0, &used) != child)
        return 2;
    printf("%.6f %ld %d\n", now() - from, used.ru_maxrss, WIFEXITED(status) ? WEXITSTATUS(status) : 255);
    return 0;
}
