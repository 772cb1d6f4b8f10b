/* Appends records to a file, each made to last by two calls of fdatasync: one behind the record, and one behind
   a byte that says that it is there. Usage: append FILE COUNT SIZE */
#include <fcntl.h>
#include <stdio.h>
#include <stdlib.h>
#include <string.h>
#include <unistd.h>

int main(int argc, char **argv) {
    if (argc != 4)
        return 1;
    long count = atol(argv[2]);
    size_t size = (size_t)atol(argv[3]);
    char *record = malloc(size + 1);
    int file = open(argv[1], O_CREAT | O_TRUNC | O_WRONLY, 0644);
    off_t at = 0;
    if (!record || file < 0)
        return 1;
    memset(record, 'x', size);
    record[size] = 0;
    for (long i = 0; i < count; i++) {
        if (pwrite(file, record, size + 1, at) != (ssize_t)size + 1 || fdatasync(file))
            return 1;
        if (pwrite(file, "\1", 1, at) != 1 || fdatasync(file))
            return 1;
        at += (off_t)size;
    }
    printf("%ld\n", count);
    return close(file);
}
