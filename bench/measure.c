/* measure STACK PROGRAM ARGUMENT...: runs the program with a stack limit of STACK KB (0: as it stands) and writes
   its user time in microseconds, its peak resident set in KB and its wait status to descriptor 2. The program is a
   child of this small process, so that no other program's memory counts as its own. */
#include <stdio.h>
#include <stdlib.h>
#include <sys/resource.h>
#include <sys/wait.h>
#include <unistd.h>

int main(int argc, char **argv) {
    if (argc < 3)
        return 2;
    long stack = atol(argv[1]);
    pid_t child = fork();
    if (child < 0)
        return 2;
    if (child == 0) {
        struct rlimit limit = {(rlim_t)stack * 1024, (rlim_t)stack * 1024};
        if (stack == 0 || setrlimit(RLIMIT_STACK, &limit) == 0)
            execv(argv[2], argv + 2);
        _exit(127);
    }
    int status = 0;
    struct rusage use;
    if (wait4(child, &status, 0, &use) != child)
        return 2;
    fprintf(stderr, "%ld %ld %d\n", (long)use.ru_utime.tv_sec * 1000000L + (long)use.ru_utime.tv_usec, use.ru_maxrss, status);
    return 0;
}
