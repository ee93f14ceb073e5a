/*
    Runs a program and tells the peak of its memory.

        peak PROGRAM [WORDS]

    The last line on standard error is the peak in KiB, and the exit status is
    the program's. The system counts what a process held before it became a
    program as that program's peak, so this one holds little itself.
*/
#include <stdio.h>
#include <sys/resource.h>
#include <sys/wait.h>
#include <unistd.h>

int
main(int argc, char ** argv)
{
    struct rusage usage;
    int status;
    pid_t child;
    if (argc < 2)
        return 126;
    child = vfork();
    if (child == 0)
    {
        execv(argv[1], argv + 1);
        _exit(127);
    }
    if (child < 0 || wait4(child, &status, 0, &usage) < 0)
        return 126;
    fprintf(stderr, "%ld\n", usage.ru_maxrss);
    return WIFEXITED(status) ? WEXITSTATUS(status) : 128 + WTERMSIG(status);
}
