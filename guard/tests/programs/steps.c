/* steps SEED LOG: random steps, one thing at a time: opens, reads, writes, dups, closes, pipes, forks, maps. Each line of
   the log is who, what and the answer; tests/rules.py works out from the rules alone what the answers should be. */
#define _GNU_SOURCE
#include <errno.h>
#include <fcntl.h>
#include <stdarg.h>
#include <stdint.h>
#include <stdio.h>
#include <stdlib.h>
#include <string.h>
#include <sys/mman.h>
#include <sys/wait.h>
#include <unistd.h>

static uint64_t state;
static unsigned draw(unsigned n)
{
    state ^= state << 13; state ^= state >> 7; state ^= state << 17;
    return (unsigned)(state >> 20) % n;
}

static int out;
static void say(const char *form, ...)
{
    char line[200]; va_list list;
    va_start(list, form); int length = vsnprintf(line, sizeof line, form, list); va_end(list);
    if (write(out, line, length) != length) _exit(9);
}

enum { MOST = 64 };
static char held[MOST]; /* by descriptor: 0, r or w */

static int any(void)
{
    int list[MOST], count = 0;
    for (int f = 0; f < MOST; f++) if (held[f]) list[count++] = f;
    return count ? list[draw(count)] : -1;
}

static void steps(const char *me, int count, int depth)
{
    static const char *files[] = {"f2", "f5", "f9", "f9b", "f12"};
    static const char menu[] = "ooooorrrrwwwcccdD|fm";
    while (count--) {
        char what = menu[draw(sizeof menu - 1)];
        int f = any(), many = 0;
        for (int i = 0; i < MOST; i++) many += held[i] != 0;
        if (what == 'o' && many < 11) {
            const char *file = files[draw(5)]; int writes = draw(2);
            int g = open(file, writes ? O_WRONLY : O_RDONLY);
            if (g < 0 && errno != EACCES) { say("%s odd %d\n", me, errno); continue; }
            say("%s open %s %c %d\n", me, file, writes ? 'w' : 'r', g);
            if (g >= 0) held[g] = writes ? 'w' : 'r';
        } else if (what == '|' && many < 8) {
            int p[2]; if (pipe2(p, O_NONBLOCK)) { say("%s odd %d\n", me, errno); continue; }
            held[p[0]] = 'r'; held[p[1]] = 'w';
            say("%s pipe %d %d\n", me, p[0], p[1]);
        } else if (what == 'f' && depth < 4) {
            char child[64]; snprintf(child, sizeof child, "%s.%u", me, draw(1000000));
            int more = draw(12); uint64_t seed = state | 1;
            say("%s fork %s\n", me, child);
            pid_t p = fork();
            if (p == 0) { state = seed * 2654435761u | 1; steps(child, more, depth + 1); say("%s exit\n", child); _exit(0); }
            waitpid(p, 0, 0);
        } else if (f < 0) {
            continue;
        } else if (what == 'r' && held[f] == 'r') {
            char bytes[10]; if (read(f, bytes, 10) < 0 && errno != EAGAIN) say("%s odd %d\n", me, errno);
            say("%s read %d\n", me, f);
        } else if (what == 'w' && held[f] == 'w') {
            if (write(f, "x", 1) < 0 && errno != EPIPE && errno != EAGAIN) say("%s odd %d\n", me, errno);
            say("%s write %d\n", me, f);
        } else if (what == 'c') {
            close(f); held[f] = 0; say("%s close %d\n", me, f);
        } else if (what == 'd' && many < 11) {
            int g = dup(f); if (g < 0 || g >= MOST) continue;
            held[g] = held[f]; say("%s dup %d %d\n", me, f, g);
        } else if (what == 'D') {
            int g = any(); if (g == f) continue;
            dup2(f, g); held[g] = held[f]; say("%s dup %d %d\n", me, f, g);
        } else if (what == 'm' && held[f] == 'r') {
            if (mmap(0, 4, PROT_READ, MAP_PRIVATE, f, 0) != MAP_FAILED) say("%s map %d\n", me, f);
        }
    }
}

int main(int count, char **words)
{
    if (count < 3) return 2;
    signal(SIGPIPE, SIG_IGN);
    state = strtoull(words[1], 0, 10) * 0x9E3779B97F4A7C15u + 88172645463325252u;
    out = fcntl(open(words[2], O_WRONLY | O_CREAT | O_APPEND, 0644), F_DUPFD, MOST);
    for (int f = 3; f < MOST; f++) close(f);
    for (int i = 0; i < 20; i++) draw(2);
    steps("0", 60, 0); say("0 exit\n");
    return 0;
}
