/* Maps low hours, closes them, then wants to write the pay book; and a shared mapping that may be written later keeps
   its handle. 0 where both are refused. */
#include <fcntl.h>
#include <stdio.h>
#include <sys/mman.h>
#include <unistd.h>

int main(int count, char **words)
{
    if (count > 1 && words[1][0] == 'w') {
        /* a mapping of the pay book that is not writable yet; the sheet must stay shut */
        int book = open("paybook.csv", O_RDWR);
        if (book < 0) { perror("paybook.csv"); return 2; }
        char *shared = mmap(0, 4096, PROT_READ, MAP_SHARED, book, 0);
        close(book);
        int sheet = open("sheets/1.csv", O_RDONLY);
        int changed = mprotect(shared, 4096, PROT_READ | PROT_WRITE);
        printf("sheet %s, mapping %s\n", sheet < 0 ? "refused" : "OPEN, A LEAK", changed ? "shut" : "writable");
        return sheet >= 0;
    }
    int sheet = open("sheets/1.csv", O_RDONLY);
    char *hours = mmap(0, 4096, PROT_READ, MAP_PRIVATE, sheet, 0);
    close(sheet);
    int book = open("paybook.csv", O_WRONLY);
    printf("%c: pay book %s\n", hours[2], book < 0 ? "refused" : "OPEN, A LEAK");
    return book >= 0;
}
