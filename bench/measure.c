/* measure PROGRAM INPUT: runs PROGRAM in the current folder with INPUT as its standard input and no output kept, and prints the
   seconds that it took (processor time, user and system) and its peak memory in KiB. */
#include <fcntl.h>
#include <stdio.h>
#include <stdlib.h>
#include <sys/resource.h>
#include <sys/wait.h>
#include <unistd.h>

int main(int argc, char **argv) {
    if (argc != 3) {
        return 2;
    }
    pid_t child = fork();
    if (child == 0) {
        int in = open(argv[2], O_RDONLY), out = open("/dev/null", O_WRONLY);
        if (in < 0 || out < 0 || dup2(in, 0) < 0 || dup2(out, 1) < 0) {
            _exit(126);
        }
        execl(argv[1], argv[1], (char *)NULL);
        _exit(127);
    }
    int status;
    struct rusage use;
    if (child < 0 || wait4(child, &status, 0, &use) != child || !WIFEXITED(status) || WEXITSTATUS(status) > 125) {
        return 1;
    }
    double seconds = (double)use.ru_utime.tv_sec + (double)use.ru_utime.tv_usec / 1e6 + (double)use.ru_stime.tv_sec +
                     (double)use.ru_stime.tv_usec / 1e6;
    printf("%.4f %ld\n", seconds, use.ru_maxrss);
    return 0;
}
