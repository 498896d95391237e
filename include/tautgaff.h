/* Tautgaff for C and C++: PL360 translated, and what it becomes run. Link with target/libtautgaff.a (`make library`), x86-64 Linux.
 *
 * Both functions are proved to do, for all they may be handed, what the papers say (docs/PROMISES.md): they have no state of their own, open, print and
 * allocate nothing, always return, and read and write no memory but the lent. So they may be called from any thread, and from several at once, each with
 * memory of its own. What is lent to one call must not overlap, save that things only read may. No pointer may be null, also before a length of 0. */
#ifndef TAUTGAFF_H
#define TAUTGAFF_H

#include <stddef.h>
#include <stdint.h>

#ifdef __cplusplus
extern "C" {
#endif

/* What is answered: 0, or the number of a refusal (docs/REFUSALS.md has each with an example). */
enum {
    TAUTGAFF_ACCEPTED = 0,
    TAUTGAFF_SOURCE_TOO_LONG = 1,
    TAUTGAFF_NO_TOKEN = 2,
    TAUTGAFF_NUMBER_OUT_OF_RANGE = 3,
    TAUTGAFF_NO_PROGRAM = 4,
    TAUTGAFF_NESTED_TOO_DEEP = 5,
    TAUTGAFF_NOT_DECLARED = 6,
    TAUTGAFF_DECLARED_TWICE = 7,
    TAUTGAFF_WRONG_KIND = 8,
    TAUTGAFF_WRONG_REGISTER = 9,
    TAUTGAFF_PROTECTED_REGISTER = 10,
    TAUTGAFF_VALUE_OUT_OF_BOUNDS = 11,
    TAUTGAFF_SEGMENT_FULL = 12,
    TAUTGAFF_TOO_MANY_NAMES = 13,
    TAUTGAFF_PROGRAM_TOO_LONG = 14,
    TAUTGAFF_NO_ROOM_FOR_LITERALS = 15,
    TAUTGAFF_BUFFER_TOO_SHORT = 16,
    TAUTGAFF_NO_OBJECT_TEXT = 17,
    TAUTGAFF_NO_CONDITION_CODE = 18,
    TAUTGAFF_TOO_LITTLE_STORAGE = 19
};

/* Why a run stopped. */
enum {
    TAUTGAFF_BUDGET_USED = 0,
    TAUTGAFF_AT_END = 1,
    TAUTGAFF_FORBIDDEN_OPERAND = 2,
    TAUTGAFF_MISALIGNED_OPERAND = 3,
    TAUTGAFF_NO_INSTRUCTION = 4
};

/* Sizes in bytes: the longest source that is read, a buffer that every object text fits, and the least storage of a run. */
#define TAUTGAFF_SOURCE_LIMIT 32768
#define TAUTGAFF_OBJECT_LIMIT 44095
#define TAUTGAFF_STORAGE_NEEDED 20480

/* Stack in bytes that a thread needs for a call: of `tautgaff_translate` by the length of its source, up to 1,024 bytes, up to 8,192, or longer; of
 * `tautgaff_run` always. */
#define TAUTGAFF_STACK_SHORT (128 * 1024)
#define TAUTGAFF_STACK_MIDDLING (640 * 1024)
#define TAUTGAFF_STACK_LONG (2400 * 1024)
#define TAUTGAFF_STACK_RUN (16 * 1024)

/* Where a source is refused, and how long its object text is. */
struct tautgaff_answer {
    size_t place;  /* the offset in the source of the first byte of what is refused */
    size_t line;   /* its line, from 1: one more than the bytes 10 before it */
    size_t column; /* its column, from 1: one more than the bytes since the last of them, or since the source's first byte */
    size_t length; /* how many bytes the object text has */
};

/* Translates a source into the buffer, and answers 0 or a refusal from 1 to 16.
 *
 * source   any bytes, any length; read only, and of more than 32,768 bytes not at all.
 * buffer   0: its first answer->length bytes are the object text, and every later byte is as it was. Otherwise: every byte is as it was.
 * *answer  all four are written; what stood there before is not read.
 *          0: length is at least 1 and at most buffer_length; place, line and column are 0.
 *          2 to 13: place, line and column of what is refused, which may be the source's end; length is 0.
 *          1, 14, 15, 16: place is 32768, 0, 0 and the length that is needed; line, column and length are 0. */
uint64_t tautgaff_translate(const uint8_t *source, size_t source_length, uint8_t *buffer, size_t buffer_length, struct tautgaff_answer *answer);

/* How a run ended. */
struct tautgaff_results {
    uint64_t place;   /* place, line and column are 0: what the runner refuses stands at no place of a text */
    uint64_t line;
    uint64_t column;
    uint64_t stop;    /* TAUTGAFF_BUDGET_USED to TAUTGAFF_NO_INSTRUCTION */
    uint64_t counter; /* the address of the next instruction, or of the one that stopped */
    uint64_t code;    /* the condition code, 0 to 3 */
    uint64_t count;   /* instructions completed */
};

/* Loads an object text into the storage and runs it for at most `budget` instructions; answers 0 or a refusal from 17 to 19.
 *
 * object     any bytes, any length; read only.
 * code       the condition code to begin with; over 3 is refusal 18.
 * registers  16 of them, 0 to 15. 0: as the run left them (14 is 8192 and 15 is 4096 when it begins). Otherwise: as they were.
 * storage    under 20,480 bytes is refusal 19. 0: the first 20,480 bytes are the loaded program and data as the run left them, whatever stood there, and
 *            every later byte is as it was. Otherwise: every byte is as it was. Segment k begins at 4096 * (k + 1), cells are big-endian.
 * *results   all seven are written. Otherwise than 0: stop, counter and count are 0, and code is as given. What stood there before is not read.
 *
 * The time is in proportion to the budget at most: a run cannot be broken off but by it. */
uint64_t tautgaff_run(const uint8_t *object, size_t object_length, uint64_t code, uint32_t budget, uint32_t registers[16], uint8_t *storage,
                      size_t storage_length, struct tautgaff_results *results);

#ifdef __cplusplus
}
#endif

#endif
