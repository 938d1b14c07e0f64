/* Replays the job file on standard input through the library and prints the report, or the refusal. An argument names the file of a window
 * block. Exit status: 0 a report; 1 a refusal; 2 a file could not be read. */
#include <stdio.h>
#include <stdlib.h>

#include "bench.h"

/* one byte more than the longest file and than a block, so that a longer one is refused and not cut */
static uint8_t file[BENCH_FILE + 1], windows[BENCH_WINDOWS + 1], work[BENCH_WORK], report[BENCH_REPORT];

/* how much a file holds, up to a limit; one that cannot be opened or read ends the program */
static size_t load(FILE *from, const char *name, uint8_t *bytes, size_t most) {
    size_t length = from == NULL ? 0 : fread(bytes, 1, most, from);
    if (from == NULL || ferror(from)) {
        perror(name);
        exit(2);
    }
    fclose(from);
    return length;
}

int main(int count, char **argument) {
    size_t length = load(stdin, "standard input", file, sizeof file), windows_length = 0;
    if (count > 1) windows_length = load(fopen(argument[1], "rb"), argument[1], windows, sizeof windows);
    uint64_t answer = bench_replay(file, length, windows, windows_length, work, sizeof work, report, sizeof report);
    if (BENCH_NUMBER(answer) != 0) {
        printf("refused %u\n", (unsigned)BENCH_NUMBER(answer));
        return 1;
    }
    fwrite(report, 1, BENCH_LENGTH(answer), stdout);
    return 0;
}
