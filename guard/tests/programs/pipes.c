/* A pipe by /proc is an open of that pipe: a step that has read low hours gets no way to write it, where a reader of it
   writes the pay book. And a named pipe is refused. */
#include <errno.h>
#include <fcntl.h>
#include <stdio.h>
#include <string.h>
#include <sys/wait.h>
#include <unistd.h>

int main(void)
{
    int p[2]; if (pipe(p)) return 2;
    char path[64]; sprintf(path, "/proc/%d/fd/%d", getpid(), p[1]);
    pid_t c = fork();
    if (!c) {
        close(p[0]); close(p[1]);
        int sheet = open("sheets/1.csv", O_RDONLY); char x;
        if (read(sheet, &x, 1) != 1) _exit(2);
        usleep(100000);
        int back = open(path, O_WRONLY);
        _exit(back >= 0);
    }
    int book = open("paybook.csv", O_WRONLY);
    if (book < 0) return 2;
    int status; waitpid(c, &status, 0);
    printf("the pipe by /proc: %s\n", WEXITSTATUS(status) == 1 ? "OPEN, A LEAK" : WEXITSTATUS(status) ? "not tried" : "refused");
    int again = open(path, O_WRONLY);
    printf("by its own maker: %s\n", again < 0 ? strerror(errno) : "open");
    return WEXITSTATUS(status) || again < 0;
}
