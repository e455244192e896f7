/* truncate: a step that has read low hours may not cut the pay book; before, it may. 0 where it is so. */
#include <errno.h>
#include <fcntl.h>
#include <stdio.h>
#include <string.h>
#include <unistd.h>

int main(void)
{
    int before = truncate("paybook.csv", 3);
    int sheet = open("sheets/1.csv", O_RDONLY); char c;
    if (read(sheet, &c, 1) != 1) { perror("sheet"); return 2; }
    int after = truncate("paybook.csv", 0);
    printf("cut before: %s, after: %s\n", before ? "failed" : "done", after ? strerror(errno) : "DONE");
    return before || !after;
}
