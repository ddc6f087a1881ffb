/* For tests of what ends a program: how a process ends that makes a call, and what it says. */
#include <signal.h>
#include <stdio.h>
#include <stdlib.h>
#include <string.h>
#include <sys/wait.h>
#include <unistd.h>

/* Makes a call in a process of its own. Returns whether that ends by an abort after words that begin so and have this
   in them; without `says`, whether it ends well and says nothing. */
static int ends_so(void (*call)(size_t), size_t argument, const char *begins, const char *says) {
    int ends_of_pipe[2], status = 0;
    char said[512] = "";
    size_t length = 0;
    ssize_t more = 0;
    fflush(stderr);
    if (pipe(ends_of_pipe)) exit(2);
    pid_t child = fork();
    if (child == 0) {
        dup2(ends_of_pipe[1], STDERR_FILENO);
        close(ends_of_pipe[0]);
        close(ends_of_pipe[1]);
        alarm(60);
        call(argument);
        _exit(0);
    }
    close(ends_of_pipe[1]);
    while ((more = read(ends_of_pipe[0], said + length, sizeof said - 1 - length)) > 0) length += (size_t)more;
    close(ends_of_pipe[0]);
    if (child < 0 || waitpid(child, &status, 0) != child) exit(2);
    int is_right = says ? WIFSIGNALED(status) && WTERMSIG(status) == SIGABRT &&
                              strncmp(said, begins, strlen(begins)) == 0 && strstr(said, says)
                        : WIFEXITED(status) && WEXITSTATUS(status) == 0 && length == 0;
    if (!is_right) fprintf(stderr, "%s: status %d, and it says: %s\n", begins, status, said);
    return is_right;
}
