/* killed WHOM N GUARD..: runs the guard, and kills it, or in its place the youngest step of its run, when it has stopped N
   times, at the entries and the ends of its calls of the kernel. With N 0 nobody is killed. Says how often it stopped, and
   exits with the guard's status, 128 and the signal where one ended it. */
#include <errno.h>
#include <signal.h>
#include <stdio.h>
#include <stdlib.h>
#include <string.h>
#include <sys/ptrace.h>
#include <sys/wait.h>
#include <unistd.h>

/* the last of the children of the last child, and so on */
static pid_t youngest(pid_t of)
{
    char path[64]; int child, last = 0;
    snprintf(path, sizeof path, "/proc/%d/task/%d/children", of, of);
    FILE *list = fopen(path, "r");
    while (list && fscanf(list, "%d", &child) == 1) last = child;
    if (list) fclose(list);
    pid_t below = last ? youngest(last) : 0;
    return below ? below : last;
}

int main(int count, char **words)
{
    if (count < 4) return 2;
    int is_step = !strcmp(words[1], "step"), status, signal = 0;
    long at = atol(words[2]), stops = 0;
    pid_t guard = fork();
    if (!guard) { ptrace(PTRACE_TRACEME, 0, 0, 0); raise(SIGSTOP); execvp(words[3], words + 3); _exit(127); }
    if (waitpid(guard, &status, 0) != guard || !WIFSTOPPED(status)) return 2;
    ptrace(PTRACE_SETOPTIONS, guard, 0, PTRACE_O_TRACESYSGOOD | PTRACE_O_EXITKILL);
    while (!ptrace(PTRACE_SYSCALL, guard, 0, signal) || errno == ESRCH) {
        if (waitpid(guard, &status, __WALL) != guard || !WIFSTOPPED(status)) break;
        signal = WSTOPSIG(status);
        if (signal == SIGTRAP) signal = 0;
        if (signal != (SIGTRAP | 0x80)) continue;
        signal = 0;
        if (++stops != at) continue;
        pid_t whom = is_step ? youngest(guard) : guard;
        if (whom) kill(whom, SIGKILL);
    }
    printf("%ld stops\n", stops);
    return WIFSIGNALED(status) ? 128 + WTERMSIG(status) : WEXITSTATUS(status);
}
