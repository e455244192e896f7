/* calls WHAT COUNT [FILE]: nanoseconds for one, of many in a row. For guard/bench/run. */
#include <fcntl.h>
#include <stdio.h>
#include <stdlib.h>
#include <string.h>
#include <sys/wait.h>
#include <time.h>
#include <unistd.h>

static double now(void)
{
    struct timespec t; clock_gettime(CLOCK_MONOTONIC, &t);
    return t.tv_sec * 1e9 + t.tv_nsec;
}

static void fail(const char *what) { perror(what); exit(1); }

int main(int count, char **words)
{
    if (count < 3) return 2;
    const char *what = words[1], *file = count > 3 ? words[3] : "";
    long n = atol(words[2]);
    static char bytes[4096];
    double start = 0;
    if (!strcmp(what, "open") || !strcmp(what, "loud")) {
        /* a step that has read the file is as low as it: no read of it changes anything any more */
        int first = open(file, O_RDONLY);
        if (first < 0 || (*what == 'o' && read(first, bytes, 1) != 1)) fail(file);
        close(first);
        start = now();
        for (long i = 0; i < n; i++) { int f = open(file, O_RDONLY); if (f < 0) fail(file); close(f); }
    } else if (!strcmp(what, "read")) {
        int f = open(file, O_RDONLY); if (f < 0 || read(f, bytes, 1) != 1) fail(file);
        start = now();
        for (long i = 0; i < n; i++) if (pread(f, bytes, 4096, 0) < 0) fail("read");
    } else if (!strcmp(what, "write")) {
        int f = open(file, O_WRONLY | O_CREAT, 0644); if (f < 0) fail(file);
        start = now();
        for (long i = 0; i < n; i++) if (pwrite(f, bytes, 4096, 0) < 0) fail("write");
    } else if (!strcmp(what, "pipe")) {
        int a[2], b[2]; if (pipe(a) || pipe(b)) fail("pipe");
        pid_t p = fork();
        if (!p) {
            close(a[1]); close(b[0]);
            while (read(a[0], bytes, 1) == 1) if (write(b[1], bytes, 1) != 1) _exit(1);
            _exit(0);
        }
        close(a[0]); close(b[1]);
        start = now();
        for (long i = 0; i < n; i++) if (write(a[1], bytes, 1) != 1 || read(b[0], bytes, 1) != 1) fail("pipe");
        close(a[1]); waitpid(p, 0, 0);
    } else if (!strcmp(what, "dup")) {
        start = now();
        for (long i = 0; i < n; i++) close(dup(1));
    } else if (!strcmp(what, "fork") || !strcmp(what, "exec")) {
        start = now();
        for (long i = 0; i < n; i++) {
            pid_t p = fork();
            if (!p) { if (*what == 'e') execl("/bin/true", "true", (char *)0); _exit(0); }
            waitpid(p, 0, 0);
        }
    } else return 2;
    printf("%.0f\n", (now() - start) / n);
    return 0;
}
