/* A line in C: an order of a hundred labels, of which a desk takes one and the owner gets one. */
#include "lbq.h"

#include <stdio.h>

enum { NB = 2, NE = 64, T = 1 };

static lbq_head head;
static lbq_block table[NB];
static uint32_t entries[NB * NE];

/* What every call is lent. */
#define LINE &head, table, NB, entries, NB * NE

/* Prints the paper's word for an answer to a step of this code, with the value. */
static void print(uint32_t code, lbq_answer answer)
{
    printf("%s %lu\n", lbq_word(code, answer.number), (unsigned long)answer.value);
}

int main(void)
{
    const uint32_t desk = 0;

    if (lbq_version() != LBQ_VERSION || lbq_open(LINE, NB, NE, T).number != LBQ_TAKEN) {
        return 1;
    }
    print(LBQ_ORDER, lbq_order(LINE, 1, 100));

    /* The owner is at block 0, so the lowest block that a desk can take from is block 1, with labels 65 to 100. */
    print(LBQ_LOOK, lbq_look(LINE, desk, lbq_survey(LINE).lowest));
    print(LBQ_CLAIM, lbq_claim(LINE, desk));
    print(LBQ_FETCH, lbq_fetch(LINE, desk));
    print(LBQ_FINISH, lbq_finish(LINE, desk));

    print(LBQ_GET, lbq_get(LINE));
    print(LBQ_PUT, lbq_put(LINE, 1000000));
    print(LBQ_CLAIM, lbq_claim(LINE, 16));
    return lbq_check(LINE).number == LBQ_TAKEN ? 0 : 1;
}
