/* The names of include/tautgaff.h against what is answered, from C: each refusal and stop once, and every lent byte. */
#include <stdio.h>
#include <string.h>
#include "tautgaff.h"

static int tried, wrong;

static void expect(int is, const char *what) {
    tried++;
    if (!is) {
        wrong++;
        printf("not so: %s\n", what);
    }
}

static uint8_t buffer[TAUTGAFF_OBJECT_LIMIT], storage[TAUTGAFF_STORAGE_NEEDED + 100];

static int all(const uint8_t *bytes, size_t from, size_t to, uint8_t value) {
    for (size_t i = from; i < to; i++)
        if (bytes[i] != value) return 0;
    return 1;
}

static uint64_t translated(const char *text, size_t room, struct tautgaff_answer *answer) {
    *answer = (struct tautgaff_answer){77, 77, 77, 77};
    memset(buffer, 165, sizeof buffer);
    return tautgaff_translate((const uint8_t *)text, strlen(text), buffer, room, answer);
}

/* A refusal of a text: its number, its place, line and column, and nothing written. */
static void stands(const char *text, size_t room, uint64_t number, size_t place, size_t line, size_t column) {
    struct tautgaff_answer answer;
    uint64_t said = translated(text, room, &answer);
    expect(said == number && answer.length == 0 && all(buffer, 0, sizeof buffer, 165), text);
    expect(answer.place == place && answer.line == line && answer.column == column, text);
}

/* On the first line. */
static void refuses(const char *text, uint64_t number, size_t place) {
    stands(text, sizeof buffer, number, place, 1, place + 1);
}

static size_t object_of(const char *text) {
    struct tautgaff_answer answer;
    uint64_t said = translated(text, sizeof buffer, &answer);
    expect(said == TAUTGAFF_ACCEPTED && all(buffer, answer.length, sizeof buffer, 165), text);
    expect(answer.place == 0 && answer.line == 0 && answer.column == 0, text);
    return answer.length;
}

/* Place, line and column of a run. */
static int nowhere(const struct tautgaff_results *results) { return results->place == 0 && results->line == 0 && results->column == 0; }

/* A run: what it answers, and where it stops. */
static void ends(size_t length, uint64_t code, uint32_t budget, uint32_t index, uint64_t stop, uint64_t counter, uint64_t count, const char *what) {
    uint32_t registers[16] = {0};
    struct tautgaff_results results = {77, 77, 77, 77, 77, 77, 77};
    registers[1] = index;
    memset(storage, 165, sizeof storage);
    uint64_t said = tautgaff_run(buffer, length, code, budget, registers, storage, sizeof storage, &results);
    expect(said == TAUTGAFF_ACCEPTED && nowhere(&results) && results.stop == stop && results.counter == counter && results.code == code && results.count == count, what);
    expect(registers[14] == 8192 && registers[15] == 4096 && registers[1] == index, what);
    expect(all(storage, 0, 4096, 0) && all(storage, TAUTGAFF_STORAGE_NEEDED, sizeof storage, 165), what);
}

/* A refused run: its number, and nothing written but the results. */
static void refuses_run(size_t length, uint64_t code, size_t room, uint64_t number, const char *what) {
    uint32_t registers[16], before[16];
    struct tautgaff_results results = {77, 77, 77, 77, 77, 77, 77};
    for (uint32_t i = 0; i < 16; i++) registers[i] = before[i] = 1000 + i;
    memset(storage, 165, sizeof storage);
    uint64_t said = tautgaff_run(buffer, length, code, 100, registers, storage, room, &results);
    expect(said == number && nowhere(&results) && results.stop == 0 && results.counter == 0 && results.code == code && results.count == 0, what);
    expect(memcmp(registers, before, sizeof before) == 0 && all(storage, 0, sizeof storage, 165), what);
}

int main(void) {
    static char text[TAUTGAFF_SOURCE_LIMIT + 2];
    size_t length;
    memset(text, ' ', TAUTGAFF_SOURCE_LIMIT + 1);
    stands(text, sizeof buffer, TAUTGAFF_SOURCE_TOO_LONG, TAUTGAFF_SOURCE_LIMIT, 0, 0);
    memset(text, '\n', TAUTGAFF_SOURCE_LIMIT);
    text[TAUTGAFF_SOURCE_LIMIT] = 0;
    stands(text, sizeof buffer, TAUTGAFF_NO_PROGRAM, TAUTGAFF_SOURCE_LIMIT, TAUTGAFF_SOURCE_LIMIT + 1, 1);
    refuses("BEGIN r1 := R2; END @", TAUTGAFF_NO_TOKEN, 6);
    refuses("BEGIN R1 := 2147483648; END @", TAUTGAFF_NUMBER_OUT_OF_RANGE, 12);
    refuses("BEGIN END", TAUTGAFF_NO_PROGRAM, 9);
    text[0] = 0;
    for (int i = 0; i < 65; i++) strcat(text, "BEGIN ");
    refuses(text, TAUTGAFF_NESTED_TOO_DEEP, 64 * 6);
    refuses("BEGIN R1 := A; END @", TAUTGAFF_NOT_DECLARED, 12);
    refuses("BEGIN INTEGER A, A; END @", TAUTGAFF_DECLARED_TWICE, 17);
    refuses("BEGIN INTEGER A; A := A; END @", TAUTGAFF_WRONG_KIND, 22);
    refuses("BEGIN BYTE B; LTR(R1); END @", TAUTGAFF_WRONG_KIND, 14);
    refuses("BEGIN R2 := R2 * 3; END @", TAUTGAFF_WRONG_REGISTER, 15);
    refuses("BEGIN RE := R1; END @", TAUTGAFF_PROTECTED_REGISTER, 6);
    refuses("BEGIN BYTE B; LA(RE)(B); END @", TAUTGAFF_PROTECTED_REGISTER, 17);
    refuses("BEGIN R1 := R1 SHLL 64; END @", TAUTGAFF_VALUE_OUT_OF_BOUNDS, 20);
    refuses("BEGIN BYTE B; MVI(256)(B); END @", TAUTGAFF_VALUE_OUT_OF_BOUNDS, 18);
    refuses("BEGIN ARRAY (1021) INTEGER A; END @", TAUTGAFF_SEGMENT_FULL, 27);

    length = object_of("BEGIN ARRAY (4) INTEGER A; R2 := A(R1); END @");
    ends(length, 3, 0, 0, TAUTGAFF_BUDGET_USED, 4096, 0, "budget used");
    ends(length, 3, 9, 0, TAUTGAFF_AT_END, 4100, 1, "at the end");
    ends(length, 3, 9, 4096, TAUTGAFF_FORBIDDEN_OPERAND, 4096, 0, "a forbidden operand");
    ends(length, 3, 9, 2, TAUTGAFF_MISALIGNED_OPERAND, 4096, 0, "a misaligned operand");
    refuses_run(length - 1, 9, 9, TAUTGAFF_NO_OBJECT_TEXT, "no object text");
    refuses_run(length, 4, 9, TAUTGAFF_NO_CONDITION_CODE, "no condition code");
    refuses_run(length, 3, TAUTGAFF_STORAGE_NEEDED - 1, TAUTGAFF_TOO_LITTLE_STORAGE, "too little storage");
    length = object_of("BEGIN ARRAY (4) BYTE B; IC(R2)(B(R1)); END @");
    ends(length, 3, 9, 1, TAUTGAFF_AT_END, 4100, 1, "a byte at an odd address");

    stands("BEGIN END @", 10, TAUTGAFF_BUFFER_TOO_SHORT, 87, 0, 0);
    stands("BEGIN\n  RE := R1;\nEND @\n", sizeof buffer, TAUTGAFF_PROTECTED_REGISTER, 8, 2, 3);
    stands("BEGIN\r\nEND @\n", sizeof buffer, TAUTGAFF_NO_TOKEN, 5, 1, 6);
    stands("BEGIN END\n", sizeof buffer, TAUTGAFF_NO_PROGRAM, 10, 2, 1);
    stands("\nBEGIN ARRAY (1020) INTEGER A; R1 := 5; END @\n", sizeof buffer, TAUTGAFF_NO_ROOM_FOR_LITERALS, 0, 0, 0);
    printf("the header's names and every lent byte: %d tried, %d wrong\n", tried, wrong);
    return wrong != 0;
}
