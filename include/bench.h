/* The bench's calls for C and C++. `sh bin/library` writes target/staticlib/libbench.a, for x86-64 Linux; of a C library it needs memset
 * alone. README.md has the commands, examples/report.c is a whole program.
 *
 * What a caller must know:
 *
 * - A memory is a pointer and its length in bytes, at any address: no alignment is asked for. The pointer may be null where the length is 0.
 * - The file, the windows and the stream are only read; calls at the same time may read the same one. Work, report and output are written:
 *   each of them must lie apart from every other memory of the call, and nobody else may use it before the call returns. What they hold at
 *   first does not matter.
 * - A call allocates nothing, keeps nothing and has no globals. It is reentrant, and any number of threads may call at once.
 * - A replay uses less than 39 KB of stack below its caller, a read, a write or a salvage less than 1 KB: measured. A thread whose whole stack is BENCH_STACK
 *   bytes can make any call; that leaves it room for some 16 KB of its own, after what threads and dynamic linking take.
 * - Every call ends, for any bytes and any lengths, and gives number * 2^32 + length, to be taken apart by BENCH_NUMBER and BENCH_LENGTH.
 *   A refusal has length 0.
 *
 * What the number says:
 *
 *    0  The call was accepted.
 *    1  A lent memory is too short: work under BENCH_WORK, report under BENCH_REPORT or output under BENCH_FILE bytes. Nothing was touched.
 *    2  The file's length is 0, over BENCH_FILE or not a multiple of 512. Of a write: the stream is under 6 bytes long.
 *    3  A block's sum differs: the block is damaged.
 *    4  A block's number is not its position: blocks were lost or mixed up.
 *    5  The kind is neither 1, a queue, nor 2, a stack, nor 3, a two-way linked stack.
 *    6  The number of processes is not from 1 to 8.
 *    7  The number of operations is not from 1 to 256.
 *    8  The schedule is longer than 16,384 steps.
 *    9  The file does not have exactly the blocks that its header asks for. Of a write: the stream does not have exactly that length.
 *   10  An operation's process is none of the job's, its action is neither 1, a put, nor 2, a take, or it is a take with a value.
 *   11  A schedule entry is neither a process of the job nor 128 + one, which is a drop.
 *   12  A byte behind the stream is not zero.
 *   13  The window block is neither empty nor BENCH_WINDOWS bytes long, or has a wrong sum or number, a field out of its range, no such date,
 *       or a byte behind its fields that is not zero. Looked at only where the job is accepted.
 *   14  Of a salvage: the header, or the records of all operations, are not whole.
 *
 * Transmission windows: a replay may be held to a window block, outside of whose windows a process does nothing: the step is idle, a drop
 * too, and keeps its number. With length 0 there is no block, and nothing is shut. The block, numbers big-endian and unsigned:
 *
 *     0 to 1      its number, 0
 *     2 to 3      year, 2000 to 2099
 *     4, 5        month, 1 to 12, and day, of a date that there is
 *     6 to 9      second of the day, 0 to 86,399: step 1 falls there, and step k falls k - 1 seconds later; no clock changes
 *     10 to 49    an entry of 5 bytes for each of eight processes, whether the job has them or not:
 *                 a byte of weekdays (bit 0 Monday to bit 6 Sunday, bit 7 zero), opening minute and closing minute (2 bytes each, 0 to 1440)
 *     50 to 507   zeros
 *     508 to 511  the two sums, as those of a job file's block
 *
 * A window counts from the midnight with which its weekday begins. It includes its opening second and not its closing one. A closing before
 * its opening is a day later; where both are the same minute, the window is shut. 0 to 1440 is a whole day. docs/FORMAT.md says more.
 */
#ifndef BENCH_H
#define BENCH_H

#include <stddef.h>
#include <stdint.h>

#define BENCH_WORK 17710   /* the least length of work memory */
#define BENCH_REPORT 32768 /* the least length of report memory */
#define BENCH_FILE 17920   /* the least length of output memory, and the length of the longest file */
#define BENCH_WINDOWS 512  /* the length of a window block */
#define BENCH_STACK 65536  /* stack enough for a thread that makes any of the calls */

#define BENCH_NUMBER(answer) ((uint32_t)((uint64_t)(answer) >> 32))
#define BENCH_LENGTH(answer) ((size_t)((uint64_t)(answer) & 0xffffffff))

#ifdef __cplusplus
extern "C" {
#endif

/* Replays the job in a file, within the windows of a block, or without where `windows_length` is 0. Accepted: the report's length, the report
 * in `report`, bytes past it unchanged. Refused: `report` is unchanged. After every call but number 1 the first BENCH_WORK work bytes are
 * zero. Work bytes past them never change. */
uint64_t bench_replay(const uint8_t *file, size_t file_length,
                      const uint8_t *windows, size_t windows_length,
                      uint8_t *work, size_t work_length,
                      uint8_t *report, size_t report_length);

/* Reads a job file. Accepted: the stream's length, and the stream followed by zeros in the first BENCH_WORK work bytes. Refused, but for
 * number 1: those bytes are zero. Work bytes past them never change. */
uint64_t bench_read(const uint8_t *file, size_t file_length,
                    uint8_t *work, size_t work_length);

/* Writes the job file of a stream without padding. Accepted: the file's length, the file in `out`, bytes past it unchanged. Refused: `out`
 * is unchanged. */
uint64_t bench_write(const uint8_t *stream, size_t stream_length,
                     uint8_t *out, size_t out_length);

/* Keeps what remains of a spoiled job file: its leading full blocks up to the first that would be refused 3 or 4, and no more than the header
 * asks for. If these hold the header and the records of all operations, the schedule is cut to the entries that they hold, and a proper file is
 * written. Accepted: that file's length, the file in `out`, bytes past it unchanged. An undamaged file comes out the same. How many entries are
 * kept stands in bytes 6 and 7 of `out`, how many the header names in bytes 6 and 7 of `file`, both big-endian.
 *
 * Any length of `file` is taken; a part of a block at its end, blocks behind those that the header asks for, and what stands behind the schedule
 * are not looked at. Refused: `out` is unchanged. The numbers, in this order: 1 for work or output; 14 for the header; 5 to 8; 14 for the
 * records; 10; 11, of the entries kept. There is no other. After every call but number 1 the first BENCH_WORK work bytes are zero. Work bytes
 * past them never change. */
uint64_t bench_salvage(const uint8_t *file, size_t file_length,
                       uint8_t *work, size_t work_length,
                       uint8_t *out, size_t out_length);

#ifdef __cplusplus
}
#endif

#endif
