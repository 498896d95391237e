/* A site from the old datum to the new one, by datum.pl360, through the library: datum SOURCE EAST NORTH [FLAG], in metres.
 * Writes the program's answer (0 shifted, 1 new already, 2 outside the grid) and the site in millimetres. */
#include <inttypes.h>
#include <stdio.h>
#include <stdlib.h>
#include "tautgaff.h"

/* Instructions that a site may take; it takes some hundred. */
#define BUDGET 100000

int main(int argc, char **argv) {
    static uint8_t source[TAUTGAFF_SOURCE_LIMIT + 1], object[TAUTGAFF_OBJECT_LIMIT], storage[TAUTGAFF_STORAGE_NEEDED];
    if (argc < 4 || 5 < argc) {
        fprintf(stderr, "datum SOURCE EAST NORTH [FLAG]\n");
        return 2;
    }
    FILE *file = fopen(argv[1], "rb");
    if (file == NULL) {
        perror(argv[1]);
        return 2;
    }
    size_t source_length = fread(source, 1, sizeof source, file);
    fclose(file);

    struct tautgaff_answer answer;
    uint64_t refusal = tautgaff_translate(source, source_length, object, sizeof object, &answer);
    if (refusal != TAUTGAFF_ACCEPTED) {
        fprintf(stderr, "%s:%zu:%zu: refusal %" PRIu64 "\n", argv[1], answer.line, answer.column, refusal);
        return 1;
    }

    uint32_t registers[16] = {0};
    registers[1] = (uint32_t)atol(argv[2]);
    registers[3] = (uint32_t)atol(argv[3]);
    registers[5] = argc == 5 ? (uint32_t)atol(argv[4]) : 0;
    struct tautgaff_results end;
    refusal = tautgaff_run(object, answer.length, 0, BUDGET, registers, storage, sizeof storage, &end);
    if (refusal != TAUTGAFF_ACCEPTED || end.stop != TAUTGAFF_AT_END) {
        fprintf(stderr, "%s: refusal %" PRIu64 ", stop %" PRIu64 " at %" PRIu64 "\n", argv[1], refusal, end.stop, end.counter);
        return 1;
    }
    printf("%" PRIu32 " %" PRId32 " %" PRId32 "\n", registers[5], (int32_t)registers[1], (int32_t)registers[3]);
    return 0;
}
