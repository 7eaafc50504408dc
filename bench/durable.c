/* Appends records to a new file as durably as a store is written: a record behind a closed gate, a sync, the gate opened, a sync.
   Words: the file, the number of records, the bytes of each. */
#include <fcntl.h>
#include <stdlib.h>
#include <string.h>
#include <unistd.h>

int main(int argc, char **argv) {
    if (argc != 4) return 2;
    long count = atol(argv[2]), size = atol(argv[3]);
    int file = open(argv[1], O_RDWR | O_CREAT | O_EXCL, 0644);
    char *record = malloc(size);
    if (file < 0 || !record) return 1;
    memset(record, 'x', size);
    record[size - 1] = 0;
    if (pwrite(file, "header......", 13, 0) != 13 || fdatasync(file)) return 1;
    for (long at = 12, left = count; left > 0; left--, at += size) {
        if (pwrite(file, record, size, at + 1) != size || fdatasync(file)) return 1;
        if (pwrite(file, "\1", 1, at) != 1 || fdatasync(file)) return 1;
        if (write(1, "ok commit\n", 10) != 10) return 1;
    }
    return 0;
}
