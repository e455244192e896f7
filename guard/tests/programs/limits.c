/* The limits of the gatekeeper's tables: places, files, steps. Each line says what the one too many failed with. */
#include <errno.h>
#include <fcntl.h>
#include <stdio.h>
#include <string.h>
#include <sys/wait.h>
#include <unistd.h>

static void said(const char *what, int count) { printf("%s: %d, then %s\n", what, count, strerror(errno)); }

int main(int count, char **words)
{
    setvbuf(stdout, 0, _IONBF, 0);
    const char *what = count > 1 ? words[1] : "";
    char name[32]; int n = 0;
    if (!strcmp(what, "places")) {
        for (n = 0; n < 100; n++) { sprintf(name, "many/%d", n); if (open(name, O_WRONLY | O_CREAT, 0644) < 0) break; }
        said("files of one step", n);
        for (int f = 3; f < 10; f++) close(f);
        sprintf(name, "many/%d", n);
        printf("after closes: %s\n", open(name, O_WRONLY | O_CREAT, 0644) < 0 ? strerror(errno) : "open");
    } else if (!strcmp(what, "files")) {
        int p[2], told[2]; if (pipe(p) || pipe(told)) return 2;
        for (int s = 0; s < 8; s++)
            if (!fork()) {
                for (int i = 0; i < 9; i++) {
                    sprintf(name, "many/%d-%d", s, i);
                    if (open(name, O_WRONLY | O_CREAT, 0644) < 0) { if (write(told[1], &errno, 4) != 4) _exit(1); break; }
                }
                close(told[1]); close(p[1]); char c; if (read(p[0], &c, 1) < 0) _exit(1); _exit(0);
            }
        close(told[1]);
        int e = 0; if (read(told[0], &e, 4) != 4) e = 0;
        close(p[1]); while (wait(0) > 0) ;
        errno = e; said("files of all steps", 64);
    } else {
        int p[2]; if (pipe(p)) return 2;
        for (n = 0; n < 100; n++) { pid_t c = fork(); if (c < 0) break; if (!c) { char x; close(p[1]); if (read(p[0], &x, 1) < 0) _exit(1); _exit(0); } }
        said("steps beside the first", n);
        close(p[1]); while (wait(0) > 0);
        pid_t c = fork(); if (!c) _exit(0);
        printf("after exits: %s\n", c < 0 ? strerror(errno) : "forked");
        wait(0);
    }
    return 0;
}
