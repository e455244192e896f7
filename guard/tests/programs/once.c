/* Reads once, closes, then opens the pay book: 0 where that is refused, 1 where what it read got there. */
#include <fcntl.h>
#include <stdio.h>
#include <unistd.h>

int main(void)
{
    char bytes[4096];
    long count = read(0, bytes, sizeof bytes);
    close(0);
    usleep(50000);
    int file = open("paybook.csv", O_WRONLY | O_CREAT, 0644);
    if (file < 0) { perror("paybook.csv"); return 0; }
    if (write(file, bytes, count) < 0) perror("write");
    fprintf(stderr, "LOW HOURS ARE IN THE PAY BOOK: %ld bytes\n", count);
    return 1;
}
