/* Replays the job file on standard input through the C header, within the windows of the block in the file that an argument names, and checks
 * the read and the write on the way. */
#include <stdio.h>
#include <stdlib.h>
#include <string.h>

#include "bench.h"

static uint8_t file[BENCH_FILE + 1], windows[BENCH_WINDOWS + 1], work[BENCH_WORK], report[BENCH_REPORT], out[BENCH_FILE];

/* the block's length, 0 of none; a file that cannot be opened or read ends the program */
static size_t load(const char *name) {
    if (name == NULL) return 0;
    FILE *from = fopen(name, "rb");
    size_t n = from ? fread(windows, 1, sizeof windows, from) : 0;
    if (from == NULL || ferror(from)) {
        perror(name);
        exit(2);
    }
    fclose(from);
    return n;
}

static int refused(uint64_t answer) {
    if (BENCH_NUMBER(answer) != 0) printf("refused %u\n", (unsigned)BENCH_NUMBER(answer));
    return BENCH_NUMBER(answer) != 0;
}

int main(int count, char **argument) {
    size_t n = fread(file, 1, sizeof file, stdin), windows_length = load(count > 1 ? argument[1] : NULL);
    uint64_t read = bench_read(file, n, work, sizeof work);
    if (refused(read)) return 0;
    uint64_t written = bench_write(work, BENCH_LENGTH(read), out, sizeof out);
    if (written != n || memcmp(file, out, n) != 0) {
        puts("the file is not the one that the writer makes");
        return 1;
    }
    uint64_t replayed = bench_replay(file, n, windows, windows_length, work, sizeof work, report, sizeof report);
    if (!refused(replayed)) fwrite(report, 1, BENCH_LENGTH(replayed), stdout);
    return 0;
}
