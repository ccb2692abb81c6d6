/*
 * A data race on purpose: two cores add 1 to `total` ROUNDS times each, by a load, an addition and a store. Where one core
 * stores between the other's load and store, its addition is lost. Core 0 waits for core 1, and ends with the number of
 * lost additions.
 */
#include "board.h"

#ifndef ROUNDS
#define ROUNDS 10000
#endif
enum { ADDERS = 2 };

static volatile word total;
static volatile word ready;
static volatile word finished;

word main(word core, word cores)
{
    if (core >= ADDERS || cores < ADDERS)
        return 0;

    /* Both begin together. These words are touched by l.lwa and l.swa alone, so the only race is that on `total`. */
    add_atomically(&ready, 1);
    await(&ready, ADDERS);
    for (word round = 0; round < ROUNDS; round++)
        total = total + 1;
    add_atomically(&finished, 1);
    if (core != 0)
        return 0;

    await(&finished, ADDERS);
    put_text("the right sum is ");
    put_number(ADDERS * ROUNDS);
    put_char('\n');
    return ADDERS * ROUNDS - total;
}
