/* posix_spawn and vfork: the child does not share its maker's memory, and is refused what its maker is. 0 where the pay
   book got nothing and what the child of vfork reads stays with it. */
#define _GNU_SOURCE
#include <fcntl.h>
#include <spawn.h>
#include <stdio.h>
#include <string.h>
#include <sys/stat.h>
#include <sys/wait.h>
#include <unistd.h>

extern char **environ;
static volatile char seen;

int main(void)
{
    pid_t p = vfork();
    if (!p) {
        char c; int f = open("sheets/1.csv", O_RDONLY);
        if (read(f, &c, 1) == 1) seen = c;
        _exit(0);
    }
    waitpid(p, 0, 0);
    printf("vfork: %s\n", seen ? "LOW BYTE IN THE MAKER'S MEMORY" : "memory apart");
    int book = open("paybook.csv", O_WRONLY);
    printf("pay book after it: %s\n", book < 0 ? "refused" : "open");
    if (book >= 0) close(book);

    int f = open("sheets/1.csv", O_RDONLY); char c;
    if (read(f, &c, 1) != 1) return 2;
    posix_spawn_file_actions_t a; posix_spawn_file_actions_init(&a);
    posix_spawn_file_actions_addopen(&a, 1, "paybook.csv", O_WRONLY, 0644);
    char *v[] = {"echo", "low", 0};
    int e = posix_spawnp(&p, "echo", &a, 0, v, environ), status = 0;
    if (!e) waitpid(p, &status, 0);
    struct stat st; stat("paybook.csv", &st);
    printf("spawn: %s, status %d, pay book %ld bytes\n", strerror(e), WEXITSTATUS(status), (long)st.st_size);
    return seen || book < 0 || st.st_size != 0;
}
