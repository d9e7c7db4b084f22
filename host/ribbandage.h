/* Ribbandage for C: link crates/ribbandage/out/libribbandage.a, which `rt lib` in crates/ribbandage writes.

   What a caller owes, and nothing checks:
   - each pointer is aligned for its type and reaches as many initialized elements as the count beside it says; with a count of 0 it may be any aligned
     pointer that is not NULL;
   - `out` and `memory` overlap nothing else that is passed, and nobody else reads or writes them, or writes the others, while the call runs.
   What the caller need not look after: any words and bytes are taken, every call ends, and where it refuses nothing that was lent has changed. */
#ifndef RIBBANDAGE_H
#define RIBBANDAGE_H
#include <stddef.h>
#include <stdint.h>
#ifdef __cplusplus
extern "C" {
#endif

/* number 0: a tape was written, so many records of four words, whose every run takes so many steps.
   Else: refused with this number (1 to 13), at this place. */
struct ribband_compiled {
    uint32_t number, steps;
    size_t records, place;
};

/* number 0: the tape is accepted, and its every run takes so many steps. Else: refused (21 to 30). */
struct ribband_checked {
    uint32_t number, steps;
    size_t place;
};

/* outcome 0: done, with value and steps. 1: stopped by the limit, with the steps done and, as the place, the record of the next counted step.
   2: refused with this number (21 to 32), at this place. */
struct ribband_ran {
    uint32_t outcome, number, value, steps;
    size_t place;
};

/* Compiles the table into out; only the records written change. `out` may have room for any number of words. */
struct ribband_compiled ribband_compile(const uint32_t *table, size_t table_words, uint32_t *out, size_t out_words);

/* Checks a tape. */
struct ribband_checked ribband_check(const uint32_t *tape, size_t tape_words);

/* Checks a tape and runs it, for at most `limit` counted steps. */
struct ribband_ran ribband_run(const uint32_t *tape, size_t tape_words, const uint32_t *arguments, size_t arguments_count, uint8_t *memory,
                               size_t memory_bytes, uint32_t limit);

#ifdef __cplusplus
}
#endif
#endif
