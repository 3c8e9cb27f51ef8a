/* Files of row lines of a table with a BIGINT key that isn't negative and a text, as C programs put them into stores of
   others. */
#include <stdint.h>
#include <stdio.h>
#include <stdlib.h>

enum { KEY = 8, LONGEST = 4096 };

/* Calls `put` for each row of a file: its key as eight bytes, the highest first, and its text. */
static void read_rows(const char *path, void *store, void (*put)(void *, const char *, const char *, size_t)) {
    static char line[LONGEST], text[LONGEST];
    FILE *file = fopen(path, "r");
    if (!file) {
        perror(path);
        exit(1);
    }
    while (fgets(line, sizeof line, file)) {
        unsigned long long key;
        int length, i;
        char bytes[KEY];
        if (sscanf(line, "[\"+I\",%llu,\"%4000[^\"]%n", &key, text, &length) != 2) {
            fprintf(stderr, "%s has another line: %s", path, line);
            exit(1);
        }
        for (i = 0; i < KEY; i++) bytes[i] = (char)(key >> (56 - 8 * i));
        for (length = 0; text[length]; length++) {}
        put(store, bytes, text, (size_t)length);
    }
    fclose(file);
}
