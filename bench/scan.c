/* Scans a collector's text as Netdata's own parser does its first step: each line is cut into words, and
   the value of each SET line is read. Prints how many lines there are and the sum of the values. */
#include <stdio.h>
#include <stdlib.h>
#include <string.h>

int main(void) {
    static char line[8194];
    unsigned long long lines = 0, sum = 0;
    while (fgets(line, sizeof line, stdin)) {
        char *word = strtok(line, " \t\r\n\v\f=");
        lines++;
        if (!word)
            continue;
        int is_set = strcmp(word, "SET") == 0;
        for (int place = 0; word; place++) {
            if (is_set && place == 2)
                sum += (unsigned long long)strtoll(word, NULL, 10);
            word = strtok(NULL, " \t\r\n\v\f=");
        }
    }
    printf("%llu %llu\n", lines, sum);
    return 0;
}
