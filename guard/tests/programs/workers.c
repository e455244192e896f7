/* workers run SEED: six workers side by side pass on all that they know, by five pipes and four files.
   workers fresh: the files as they start. workers look [marks]: whether a file has what is below it, by levels or by labels,
   which no run may lead to. */
#define _GNU_SOURCE
#include <errno.h>
#include <fcntl.h>
#include <signal.h>
#include <stdint.h>
#include <stdio.h>
#include <stdlib.h>
#include <string.h>
#include <sys/time.h>
#include <sys/wait.h>
#include <unistd.h>

static const char *files[] = {"t2", "t5", "t9", "t12"};
static const char tags[] = "259c"; /* what each file has from the start, by rising level */
static const unsigned sets[] = {0, 1, 3, 2}; /* the files' shop marks in marks.levels */
static uint64_t state;
static unsigned draw(unsigned n)
{
    state ^= state << 13; state ^= state >> 7; state ^= state << 17;
    return (unsigned)(state >> 20) % n;
}
static void late(int number) { (void)number; }

static int look(int marks)
{
    int bad = 0, moved = 0;
    for (int i = 0; i < 4; i++) {
        char text[65536]; int f = open(files[i], O_RDONLY); long n = read(f, text, sizeof text);
        for (int t = 0; t < 4; t++) {
            int is_there = memchr(text, tags[t], n > 0 ? n : 0) != 0;
            int is_below = t < i || (marks && (sets[i] & ~sets[t]));
            if (is_there && is_below) { bad++; printf("LEAK: %s has %c\n", files[i], tags[t]); }
            moved += is_there && t != i && !is_below;
        }
        close(f);
    }
    printf("%d leaks, %d moved down\n", bad, moved);
    return bad > 0;
}

static void work(int pipes[5][2])
{
    unsigned know = 0; char held[64] = {0};
    struct sigaction action = {.sa_handler = late}; sigaction(SIGALRM, &action, 0);
    for (int i = 0; i < 5; i++) for (int w = 0; w < 2; w++) {
        if (draw(10) < 3) held[pipes[i][w]] = w ? 'w' : 'r'; else close(pipes[i][w]);
    }
    for (int n = 0; n < 60; n++) {
        int what = draw(7), list[64], count = 0;
        for (int f = 0; f < 64; f++) if (held[f]) list[count++] = f;
        if (what < 2 && count < 14) {
            int w = draw(2), f = open(files[draw(4)], w ? O_WRONLY | O_APPEND : O_RDONLY);
            if (f >= 0 && f < 64) held[f] = w ? 'w' : 'r';
        } else if (count) {
            int f = list[draw(count)]; char text[200];
            if (what == 6) { close(f); held[f] = 0; }
            else if (what < 4 && held[f] == 'r') {
                struct itimerval t = {{0, 10000}, {0, 10000}}, none = {{0, 0}, {0, 0}};
                setitimer(ITIMER_REAL, &t, 0); long got = read(f, text, 100); setitimer(ITIMER_REAL, &none, 0);
                for (long i = 0; i < got; i++) { const char *at = memchr(tags, text[i], 4); if (at) know |= 1 << (at - tags); }
            } else if (what >= 4 && held[f] == 'w' && know) {
                int length = 0; for (int t = 0; t < 4; t++) if (know >> t & 1) text[length++] = tags[t];
                if (write(f, text, length) < 0 && errno != EPIPE) perror("write");
            }
        }
    }
    _exit(0);
}

int main(int count, char **words)
{
    if (count > 1 && !strcmp(words[1], "look")) return look(count > 2);
    if (count > 1 && !strcmp(words[1], "fresh")) {
        for (int i = 0; i < 4; i++) {
            FILE *f = fopen(files[i], "w"); if (!f) return 1;
            for (int n = 0; n < 8; n++) fputc(tags[i], f);
            fclose(f);
        }
        return 0;
    }
    signal(SIGPIPE, SIG_IGN);
    int pipes[5][2];
    for (int i = 0; i < 5; i++) if (pipe(pipes[i])) return 1;
    for (int n = 0; n < 6; n++) {
        pid_t p = fork();
        if (!p) {
            state = (strtoull(words[2], 0, 10) * 6 + n + 1) * 0x9E3779B97F4A7C15u;
            for (int i = 0; i < 20; i++) draw(2);
            work(pipes);
        }
    }
    for (int i = 0; i < 5; i++) { close(pipes[i][0]); close(pipes[i][1]); }
    while (wait(0) > 0) ;
    return 0;
}
