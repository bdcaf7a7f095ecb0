/* Runs a program, whose output goes nowhere, and prints the most KiB of memory that it had: peak_memory PROGRAM WORD..
   A child's figure begins with that of the process that starts it, so this one is small. */
#include <fcntl.h>
#include <stdio.h>
#include <sys/resource.h>
#include <sys/wait.h>
#include <unistd.h>

int main(int count, char **words)
{
    struct rusage used;
    int status;
    pid_t child;
    if (count < 2)
        return 2;
    child = fork();
    if (child == 0) {
        dup2(open("/dev/null", O_WRONLY), 1);
        execv(words[1], words + 1);
        _exit(127);
    }
    if (child < 0 || wait4(child, &status, 0, &used) < 0)
        return 1;
    printf("%ld\n", used.ru_maxrss);
    return 0;
}
