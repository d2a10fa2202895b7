// For tests/sizes.sh: runs a program whose output is a pipe that may not wait, and reads from it slower than the program writes, so that it is full
// again and again. Writes what came out, and ends with the program's exit code.
#define _GNU_SOURCE
#include <fcntl.h>
#include <stdio.h>
#include <sys/wait.h>
#include <unistd.h>

int main(int argc, char **argv) {
    int ends[2], status;
    char part[5000];
    if (argc < 2 || pipe(ends) || fcntl(ends[1], F_SETFL, O_NONBLOCK)) return 126;
    const pid_t child = fork();
    if (child < 0) return 126;
    if (child == 0) {
        dup2(ends[1], 1);
        close(ends[0]);
        close(ends[1]);
        execv(argv[1], argv + 1);
        _exit(127);
    }
    close(ends[1]);
    for (ssize_t got; (got = read(ends[0], part, sizeof part)) > 0; usleep(200))
        if (fwrite(part, 1, (size_t)got, stdout) != (size_t)got) return 126;
    if (fflush(stdout) || waitpid(child, &status, 0) != child) return 126;
    return WIFEXITED(status) ? WEXITSTATUS(status) : 126;
}
