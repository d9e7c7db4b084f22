/* A C host: compiles the script `return 7`, checks and runs its tape, and lends buffers that are exactly long enough. */
#include "../ribbandage.h"
#include <stdio.h>
#include <stdlib.h>

enum { PROGRAM = 1, FUNC = 3, NUM = 20, RETURN = 37 };

int main(void) {
    uint32_t table[] = {PROGRAM, 1, 0, 0, FUNC, 0, 0, 0, RETURN, 0, 0, 0, NUM, 7, 0, 0};
    size_t words = sizeof table / sizeof *table;
    uint32_t one[1] = {0};
    uint8_t none[1];
    struct ribband_compiled short_of = ribband_compile(table, words, one, 0);
    printf("no room: refused %u, %zu records needed\n", short_of.number, short_of.place);
    uint32_t *tape = malloc(short_of.place * 4 * sizeof *tape);
    if (!tape)
        return 2;
    struct ribband_compiled c = ribband_compile(table, words, tape, short_of.place * 4);
    printf("compiled: %zu records, %u steps\n", c.records, c.steps);
    struct ribband_checked k = ribband_check(tape, c.records * 4);
    printf("checked: number %u, %u steps\n", k.number, k.steps);
    for (uint32_t limit = 12; limit < 14; limit++) {
        struct ribband_ran r = ribband_run(tape, c.records * 4, one, 0, none, 0, limit);
        printf("limit %u: outcome %u, value %u, steps %u, place %zu\n", limit, r.outcome, r.value, r.steps, r.place);
    }
    table[12] = 99;
    c = ribband_compile(table, words, tape, short_of.place * 4);
    printf("damaged: refused %u at record %zu\n", c.number, c.place);
    free(tape);
    return 0;
}
