/* What include/bench.h tells a caller, tried: calls JOB REPORT, a full-size job and its report. Its last line is 'N passed, M failed'. */
#define _POSIX_C_SOURCE 200809L
#include <pthread.h>
#include <stdio.h>
#include <stdlib.h>
#include <string.h>

#include "bench.h"

enum { PAINT = 0xa5, SLACK = 8, THREADS = 4, ROUNDS = 25, LARGE_STACK = 1 << 20 };

static uint8_t file[BENCH_FILE], expected[BENCH_REPORT], stream[BENCH_WORK], always[BENCH_WINDOWS];
static size_t file_length, expected_length, stream_length;
static int passed, failed;

static void expect(int holds, const char *what) {
    if (holds) {
        passed++;
    } else {
        failed++;
        printf("%s: no\n", what);
    }
}

static size_t load(const char *name, uint8_t *memory, size_t length) {
    FILE *from = fopen(name, "rb");
    size_t n = from ? fread(memory, 1, length, from) : 0;
    if (n == 0) {
        printf("%s cannot be read\n", name);
        exit(1);
    }
    fclose(from);
    return n;
}

/* Memories of one call, each `at` bytes behind the start of a painted one. */
struct Room {
    uint8_t work[BENCH_WORK + SLACK], report[BENCH_REPORT + SLACK], out[BENCH_FILE + SLACK];
};

static struct Room *painted(void) {
    struct Room *room = (struct Room *)malloc(sizeof *room);
    if (!room) exit(1);
    memset(room, PAINT, sizeof *room);
    return room;
}

static int all_are(const uint8_t *byte, size_t length, uint8_t value) {
    for (size_t i = 0; i < length; i++)
        if (byte[i] != value) return 0;
    return 1;
}

static int still_painted(const struct Room *room) {
    return all_are((const uint8_t *)room, sizeof *room, PAINT);
}

/* Writes a block's two sums. */
static void seal(uint8_t *block) {
    uint16_t a = 1, b = 0;
    for (int i = 0; i < 508; i++) {
        a = (uint16_t)(a + block[i]);
        b = (uint16_t)(b + a);
    }
    block[508] = (uint8_t)(a >> 8);
    block[509] = (uint8_t)a;
    block[510] = (uint8_t)(b >> 8);
    block[511] = (uint8_t)b;
}

/* A block within whose windows all eight processes may always work, from 29 February 2024, 0:00:00, on. */
static void make_always(void) {
    const uint8_t front[] = {0, 0, 2024 >> 8, 2024 & 255, 2, 29}, entry[] = {0x7f, 0, 0, 1440 >> 8, 1440 & 255};
    memcpy(always, front, sizeof front);
    for (size_t process = 0; process < 8; process++) memcpy(always + 10 + 5 * process, entry, sizeof entry);
    seal(always);
}

static int is_the_report(uint64_t answer, const uint8_t *report) {
    return BENCH_NUMBER(answer) == 0 && BENCH_LENGTH(answer) == expected_length && memcmp(report, expected, expected_length) == 0;
}

static int is_the_file(uint64_t answer, const uint8_t *out) {
    return answer == file_length && memcmp(out, file, file_length) == 0;
}

static void answers_are_taken_apart(void) {
    expect(BENCH_NUMBER(((uint64_t)12 << 32) + 345) == 12, "the number of an answer");
    expect(BENCH_LENGTH(((uint64_t)12 << 32) + 345) == 345, "the length of an answer");
}

static void least_lengths(void) {
    struct Room *room = painted();
    expect(bench_replay(file, file_length, NULL, 0, room->work, BENCH_WORK - 1, room->report, BENCH_REPORT) == (uint64_t)1 << 32, "replay, work short by one");
    expect(bench_replay(file, file_length, NULL, 0, room->work, BENCH_WORK, room->report, BENCH_REPORT - 1) == (uint64_t)1 << 32, "replay, report short by one");
    expect(bench_read(file, file_length, room->work, BENCH_WORK - 1) == (uint64_t)1 << 32, "read, work short by one");
    expect(bench_write(stream, stream_length, room->out, BENCH_FILE - 1) == (uint64_t)1 << 32, "write, output short by one");
    expect(bench_salvage(file, file_length, room->work, BENCH_WORK - 1, room->out, BENCH_FILE) == (uint64_t)1 << 32, "salvage, work short by one");
    expect(bench_salvage(file, file_length, room->work, BENCH_WORK, room->out, BENCH_FILE - 1) == (uint64_t)1 << 32, "salvage, output short by one");
    expect(bench_salvage(NULL, 0, room->work, BENCH_WORK, room->out, BENCH_FILE - 1) == (uint64_t)1 << 32, "salvage, output short by one and no file");
    expect(still_painted(room), "nothing is touched after number 1");

    expect(is_the_report(bench_replay(file, file_length, NULL, 0, room->work, BENCH_WORK, room->report, BENCH_REPORT), room->report), "replay, least lengths");
    expect(bench_read(file, file_length, room->work, BENCH_WORK) == stream_length, "read, least length");
    expect(memcmp(room->work, stream, BENCH_WORK) == 0, "read, the stream and zeros");
    expect(bench_write(stream, stream_length, room->out, BENCH_FILE) == file_length, "write, least length");
    expect(memcmp(room->out, file, file_length) == 0, "write, the file");
    memset(room->out, PAINT, sizeof room->out);
    expect(is_the_file(bench_salvage(file, file_length, room->work, BENCH_WORK, room->out, BENCH_FILE), room->out), "salvage, least lengths");
    free(room);
}

static void null_with_length_0(void) {
    struct Room *room = painted();
    expect(BENCH_NUMBER(bench_replay(NULL, 0, NULL, 0, room->work, BENCH_WORK, room->report, BENCH_REPORT)) == 2, "replay, no file");
    expect(BENCH_NUMBER(bench_replay(file, file_length, NULL, 0, NULL, 0, room->report, BENCH_REPORT)) == 1, "replay, no work");
    expect(BENCH_NUMBER(bench_replay(file, file_length, NULL, 0, room->work, BENCH_WORK, NULL, 0)) == 1, "replay, no report");
    expect(BENCH_NUMBER(bench_replay(NULL, 0, NULL, 0, NULL, 0, NULL, 0)) == 1, "replay, nothing");
    expect(BENCH_NUMBER(bench_read(NULL, 0, room->work, BENCH_WORK)) == 2, "read, no file");
    expect(BENCH_NUMBER(bench_read(file, file_length, NULL, 0)) == 1, "read, no work");
    expect(BENCH_NUMBER(bench_write(NULL, 0, room->out, BENCH_FILE)) == 2, "write, no stream");
    expect(BENCH_NUMBER(bench_write(stream, stream_length, NULL, 0)) == 1, "write, no output");
    expect(BENCH_NUMBER(bench_salvage(NULL, 0, room->work, BENCH_WORK, room->out, BENCH_FILE)) == 14, "salvage, no file");
    expect(BENCH_NUMBER(bench_salvage(file, file_length, NULL, 0, room->out, BENCH_FILE)) == 1, "salvage, no work");
    expect(BENCH_NUMBER(bench_salvage(file, file_length, room->work, BENCH_WORK, NULL, 0)) == 1, "salvage, no output");
    free(room);
}

static void any_alignment(void) {
    uint8_t *from = (uint8_t *)malloc(BENCH_FILE + SLACK), windows[BENCH_WINDOWS + SLACK];
    if (!from) exit(1);
    for (size_t at = 0; at < SLACK; at++) {
        struct Room *room = painted();
        uint8_t *work = room->work + at, *report = room->report + SLACK - 1 - at, *out = room->out + at;
        memcpy(from + at, file, file_length);
        memcpy(windows + at, always, BENCH_WINDOWS);
        expect(is_the_report(bench_replay(from + at, file_length, NULL, 0, work, BENCH_WORK, report, BENCH_REPORT), report), "replay, any alignment");
        expect(is_the_report(bench_replay(from + at, file_length, windows + at, BENCH_WINDOWS, work, BENCH_WORK, report, BENCH_REPORT), report),
               "replay within windows, any alignment");
        expect(bench_read(from + at, file_length, work, BENCH_WORK) == stream_length, "read, any alignment");
        expect(bench_write(work, stream_length, out, BENCH_FILE) == file_length && memcmp(out, file, file_length) == 0, "write, any alignment");
        memset(out, PAINT, BENCH_FILE);
        expect(is_the_file(bench_salvage(from + at, file_length, work, BENCH_WORK, out, BENCH_FILE), out), "salvage, any alignment");
        free(room);
    }
    free(from);
}

/* A replay within a block that is no block: 13, work zero, the report untouched. */
static void refused_windows(const uint8_t *windows, size_t length, const char *what) {
    struct Room *room = painted();
    expect(bench_replay(file, file_length, windows, length, room->work, BENCH_WORK, room->report, BENCH_REPORT) == (uint64_t)13 << 32, what);
    expect(all_are(room->work, BENCH_WORK, 0) && all_are(room->work + BENCH_WORK, SLACK, PAINT), "work is zero after number 13, and no more of it");
    expect(all_are(room->report, sizeof room->report, PAINT), "the report is untouched after number 13");
    free(room);
}

/* The same of the good block with one byte changed, and right sums. */
static void refused_byte(size_t at, uint8_t value, const char *what) {
    uint8_t block[BENCH_WINDOWS];
    memcpy(block, always, sizeof block);
    block[at] = value;
    seal(block);
    refused_windows(block, sizeof block, what);
}

static void bad_windows(void) {
    uint8_t twice[2 * BENCH_WINDOWS];
    memcpy(twice, always, BENCH_WINDOWS);
    memcpy(twice + BENCH_WINDOWS, always, BENCH_WINDOWS);
    const size_t lengths[] = {1, BENCH_WINDOWS - 1, BENCH_WINDOWS + 1, 2 * BENCH_WINDOWS};
    for (size_t i = 0; i < sizeof lengths / sizeof *lengths; i++) refused_windows(twice, lengths[i], "windows of another length");
    twice[511] ^= 1;
    refused_windows(twice, BENCH_WINDOWS, "windows with a wrong sum");
    refused_byte(1, 1, "windows with the number 1");
    refused_byte(3, 2100 & 255, "the year 2100");
    refused_byte(4, 13, "month 13");
    refused_byte(5, 30, "30 February");
    refused_byte(7, 2, "a second past the day");
    refused_byte(10, 0x80, "weekdays with bit 7, of process 0");
    refused_byte(46, 1536 >> 8, "an opening past the day, of process 7");
    refused_byte(49, 1441 & 255, "a closing past the day, of process 7");
    refused_byte(50, 1, "a byte behind the fields");
    refused_byte(507, 1, "the last byte before the sums");
}

static void windows(void) {
    struct Room *room = painted();
    uint8_t shut[BENCH_WINDOWS] = {0, 0, 2099 >> 8, 2099 & 255, 12, 31};
    seal(shut);
    expect(is_the_report(bench_replay(file, file_length, always, 0, room->work, BENCH_WORK, room->report, BENCH_REPORT), room->report), "windows of length 0");
    expect(is_the_report(bench_replay(file, file_length, always, BENCH_WINDOWS, room->work, BENCH_WORK, room->report, BENCH_REPORT), room->report),
           "windows that are always open");
    uint64_t answer = bench_replay(file, file_length, shut, BENCH_WINDOWS, room->work, BENCH_WORK, room->report, BENCH_REPORT);
    size_t length = BENCH_LENGTH(answer), waiting = 0;
    for (size_t i = 0; i + 8 < length; i++) waiting += memcmp(room->report + i, " waiting\n", 9) == 0;
    expect(BENCH_NUMBER(answer) == 0 && waiting == (size_t)stream[2] * 256 + stream[3], "windows that are shut: all operations wait");
    expect(all_are(room->work, BENCH_WORK, 0), "work is zero after a replay within windows");
    /* what comes before 13 */
    expect(BENCH_NUMBER(bench_replay(NULL, 0, shut, 1, room->work, BENCH_WORK, room->report, BENCH_REPORT)) == 2, "no file and bad windows");
    expect(BENCH_NUMBER(bench_replay(file, file_length, shut, 1, room->work, BENCH_WORK - 1, room->report, BENCH_REPORT)) == 1, "work short by one and bad windows");
    free(room);
}

/* What a salvage leaves behind: work is zero and no more of it, output is untouched from a length on. */
static void left_behind(const struct Room *room, size_t length) {
    expect(all_are(room->work, BENCH_WORK, 0) && all_are(room->work + BENCH_WORK, SLACK, PAINT), "work is zero after a salvage, and no more of it");
    expect(all_are(room->out + length, sizeof room->out - length, PAINT), "the output is untouched behind the file, or wholly after a refusal");
}

/* A salvage that keeps this many blocks of the file: they come out as they are, but for the number of entries and the sums of block 0. */
static void kept(const uint8_t *spoiled, size_t length, size_t blocks, const char *what) {
    static uint8_t wanted[BENCH_FILE];
    struct Room *room = painted();
    size_t entries = blocks * 506 - 6 - 4 * ((size_t)stream[2] * 256 + stream[3]), all = (size_t)stream[4] * 256 + stream[5];
    if (entries > all) entries = all;
    memcpy(wanted, file, blocks * 512);
    wanted[6] = (uint8_t)(entries >> 8);
    wanted[7] = (uint8_t)entries;
    seal(wanted);
    uint64_t answer = bench_salvage(spoiled, length, room->work, sizeof room->work, room->out, sizeof room->out);
    expect(answer == blocks * 512 && memcmp(room->out, wanted, blocks * 512) == 0, what);
    left_behind(room, blocks * 512);
    expect(BENCH_NUMBER(bench_read(room->out, blocks * 512, room->work, BENCH_WORK)) == 0, "what came out is accepted");
    free(room);
}

static void not_kept(const uint8_t *spoiled, size_t length, uint64_t number, const char *what) {
    struct Room *room = painted();
    expect(bench_salvage(spoiled, length, room->work, sizeof room->work, room->out, sizeof room->out) == number << 32, what);
    left_behind(room, 0);
    free(room);
}

/* A salvage refused for a byte of a block with right sums, of a file that is cut as well. */
static void not_kept_byte(size_t block, size_t at, uint8_t value, uint64_t number, const char *what) {
    static uint8_t spoiled[BENCH_FILE];
    memcpy(spoiled, file, file_length);
    spoiled[block * 512 + at] = value;
    seal(spoiled + block * 512);
    not_kept(spoiled, file_length - 1, number, what);
}

static void salvages_in_part(void) {
    static uint8_t longer[BENCH_FILE + 1000];
    size_t blocks = file_length / 512;
    memset(longer, PAINT, sizeof longer);
    memcpy(longer, file, file_length);
    kept(longer, file_length, blocks, "salvage, the whole file");
    kept(longer, sizeof longer, blocks, "salvage, a file with more behind it");
    kept(longer, file_length - 1, blocks - 1, "salvage, a file short by one byte");
    kept(longer, 3 * 512, 3, "salvage, the blocks with the records alone");
    not_kept(longer, 3 * 512 - 1, 14, "salvage, records that are not whole");
    not_kept(longer, 512, 14, "salvage, the header alone");
    not_kept(longer, 511, 14, "salvage, a header that is not whole");
    longer[file_length - 5] ^= 1; /* the last byte of the padding */
    seal(longer + file_length - 512);
    kept(longer, file_length, blocks, "salvage, padding that is not zero");
    longer[20 * 512 + 300] ^= 1;
    kept(longer, file_length, 20, "salvage, a block with a wrong sum");
    longer[10 * 512 + 1] ^= 1;
    seal(longer + 10 * 512);
    kept(longer, file_length, 10, "salvage, a block with another number");
    not_kept_byte(0, 1, 1, 14, "salvage, another number for block 0");
    not_kept_byte(0, 2, 9, 5, "salvage, kind 9");
    not_kept_byte(0, 3, 9, 6, "salvage, 9 processes");
    not_kept_byte(0, 4, 2, 7, "salvage, 512 operations");
    not_kept_byte(0, 6, 0x41, 8, "salvage, a schedule that is too long");
    not_kept_byte(2, 1, 1, 14, "salvage, another number for the block with the last records");
    not_kept_byte(0, 9, 3, 10, "salvage, action 3");
    not_kept_byte(20, 300, 200, 11, "salvage, an entry of no process");
}

/* A call made on a thread: which one, and how far below its caller the stack was used. */
struct Call {
    int (*make)(struct Room *);
    struct Room *room;
    int good;
    uint8_t *frame;
};

static int replays(struct Room *room) {
    return is_the_report(bench_replay(file, file_length, NULL, 0, room->work, BENCH_WORK, room->report, BENCH_REPORT), room->report);
}

static int replays_within(struct Room *room) {
    return is_the_report(bench_replay(file, file_length, always, BENCH_WINDOWS, room->work, BENCH_WORK, room->report, BENCH_REPORT), room->report);
}

static int reads(struct Room *room) {
    return bench_read(file, file_length, room->work, BENCH_WORK) == stream_length;
}

static int writes(struct Room *room) {
    return bench_write(stream, stream_length, room->out, BENCH_FILE) == file_length;
}

static int salvages(struct Room *room) {
    return is_the_file(bench_salvage(file, file_length, room->work, BENCH_WORK, room->out, BENCH_FILE), room->out);
}

static void *make(void *call) {
    struct Call *c = (struct Call *)call;
    c->frame = (uint8_t *)__builtin_frame_address(0);
    c->good = c->make(c->room);
    return NULL;
}

/* The same by a caller that has the 16 KB of its own in use which the header promises. */
static void *make_beside(void *call) {
    volatile uint8_t own[16 * 1024];
    for (size_t i = 0; i < sizeof own; i++) own[i] = PAINT;
    make(call);
    for (size_t i = 0; i < sizeof own; i++)
        if (own[i] != PAINT) ((struct Call *)call)->good = 0;
    return NULL;
}

static void on_thread(struct Call *call, pthread_attr_t *with, void *(*start)(void *)) {
    pthread_t thread;
    if (pthread_create(&thread, with, start, call) != 0 || pthread_join(thread, NULL) != 0) {
        puts("a thread cannot be made");
        exit(1);
    }
}

static void small_stack(int (*replay)(struct Room *)) {
    struct Call call = {replay, (struct Room *)malloc(sizeof(struct Room)), 0, NULL};
    pthread_attr_t with;
    pthread_attr_init(&with);
    if (!call.room || pthread_attr_setstacksize(&with, BENCH_STACK) != 0) exit(1);
    on_thread(&call, &with, make_beside);
    expect(call.good, "replay on a stack of BENCH_STACK bytes, 16 KB of them the caller's");
    pthread_attr_destroy(&with);
    free(call.room);
}

/* How many bytes of stack a call uses below its caller: the deepest that is no longer painted. */
static size_t stack_of(int (*calls)(struct Room *)) {
    struct Call call = {calls, painted(), 0, NULL};
    void *memory;
    pthread_attr_t with;
    pthread_attr_init(&with);
    if (posix_memalign(&memory, 4096, LARGE_STACK) != 0 || pthread_attr_setstack(&with, memory, LARGE_STACK) != 0) exit(1);
    memset(memory, PAINT, LARGE_STACK);
    on_thread(&call, &with, make);
    uint8_t *deepest = (uint8_t *)memory;
    while (*deepest == PAINT) deepest++;
    size_t used = (size_t)(call.frame - deepest);
    expect(call.good, "a call on a painted stack");
    pthread_attr_destroy(&with);
    free(memory);
    free(call.room);
    return used;
}

static void stack_used(void) {
    size_t replay = stack_of(replays), within = stack_of(replays_within), read = stack_of(reads), write = stack_of(writes), salvage = stack_of(salvages);
    printf("stack used: replay %zu, within windows %zu, read %zu, write %zu, salvage %zu bytes\n", replay, within, read, write, salvage);
    if (within > replay) replay = within;
    expect(replay < 39 * 1024, "a replay uses less than 39 KB of stack");
    expect(replay + 25 * 1024 <= BENCH_STACK, "BENCH_STACK leaves 16 KB for the caller, and 9 KB for the thread and the dynamic linker");
    expect(read < 1000 && write < 1000 && salvage < 1000, "a read, a write or a salvage uses less than 1 KB of stack");
}

static void *again_and_again(void *good) {
    struct Room *room = painted();
    *(int *)good = 1;
    for (int i = 0; i < ROUNDS; i++)
        if (!replays(room) || !replays_within(room) || !reads(room) || !writes(room) || !salvages(room)) *(int *)good = 0;
    free(room);
    return NULL;
}

static void threads_at_once(void) {
    pthread_t thread[THREADS];
    int good[THREADS];
    for (int i = 0; i < THREADS; i++)
        if (pthread_create(&thread[i], NULL, again_and_again, &good[i]) != 0) exit(1);
    for (int i = 0; i < THREADS; i++) {
        pthread_join(thread[i], NULL);
        expect(good[i], "calls of several threads at once, on the same file");
    }
}

int main(int count, char **argument) {
    if (count != 3) return 2;
    file_length = load(argument[1], file, sizeof file);
    expected_length = load(argument[2], expected, sizeof expected);
    /* first, so that on this small stack memset still has to be looked up by the dynamic linker */
    small_stack(replays);
    make_always();
    small_stack(replays_within);
    uint64_t read = bench_read(file, file_length, stream, sizeof stream);
    stream_length = BENCH_LENGTH(read);
    expect(BENCH_NUMBER(read) == 0 && stream_length > 0, "the job is accepted");
    answers_are_taken_apart();
    least_lengths();
    null_with_length_0();
    windows();
    bad_windows();
    salvages_in_part();
    any_alignment();
    stack_used();
    threads_at_once();
    printf("%d passed, %d failed\n", passed, failed);
    return failed != 0;
}
