/* Asks the library for every answer and every number that lbq.h has, and prints the word of each answer as
 * `word NUMBER WORD`. Where the library says something else than the header it names the line of this file and exits
 * with 1. examples/c/held runs it, and compares the words with the proved definitions. */
#include "lbq.h"

#include <stdio.h>
#include <stdlib.h>

static lbq_head head;
static lbq_block table[LBQ_MOST_NB + 1];
static uint32_t entries[(LBQ_MOST_NB + 1) * (LBQ_MOST_NE + 1)];
static size_t blocks, labels;

#define LINE &head, table, blocks, entries, labels

static void holds(int fact, int line)
{
    if (!fact) {
        printf("examples/c/held.c:%d: the library says something else than the header\n", line);
        exit(1);
    }
}
#define HOLDS(fact) holds((fact), __LINE__)

/* An answer with its number and value; the word is printed. */
static void says(int line, uint32_t code, lbq_answer answer, uint32_t number, uint32_t value)
{
    holds(answer.number == number && answer.value == value, line);
    printf("word %lu %s\n", (unsigned long)number, lbq_word(code, number));
}
#define SAYS(code, answer, number, value) says(__LINE__, (code), (answer), (number), (value))

/* Opens a line of these sizes in memory of the lengths that they ask for, and gives the number. */
static uint32_t open_line(uint32_t nb, uint32_t ne, uint32_t t)
{
    blocks = nb;
    labels = (size_t)nb * ne;
    return lbq_open(LINE, nb, ne, t).number;
}

static void limits(void)
{
    HOLDS(open_line(LBQ_LEAST_NB, LBQ_LEAST_NE, LBQ_LEAST_T) == LBQ_TAKEN);
    HOLDS(open_line(LBQ_LEAST_NB - 1, LBQ_LEAST_NE, LBQ_LEAST_T) == LBQ_UNFIT);
    HOLDS(open_line(LBQ_LEAST_NB, LBQ_LEAST_NE - 1, LBQ_LEAST_T) == LBQ_UNFIT);
    HOLDS(open_line(LBQ_LEAST_NB, LBQ_LEAST_NE, LBQ_LEAST_T - 1) == LBQ_UNFIT);
    HOLDS(open_line(LBQ_MOST_NB, LBQ_MOST_NE, LBQ_MOST_T) == LBQ_TAKEN);
    HOLDS(open_line(LBQ_MOST_NB + 1, LBQ_MOST_NE, LBQ_MOST_T) == LBQ_UNFIT);
    HOLDS(open_line(LBQ_MOST_NB, LBQ_MOST_NE + 1, LBQ_MOST_T) == LBQ_UNFIT);
    HOLDS(open_line(LBQ_MOST_NB, LBQ_MOST_NE, LBQ_MOST_T + 1) == LBQ_UNFIT);
    HOLDS(sizeof head.desks / sizeof head.desks[0] == LBQ_MOST_T);
}

/* Each code is that of its step and no other code is listed; a desk is the code's distance from the first. */
static void codes(void)
{
    uint32_t code, desk;

    for (code = 0; code < 70000; code++) {
        const int listed = code <= LBQ_ORDER || (code >= LBQ_CLAIM && code < LBQ_LOOK + LBQ_MOST_T);
        HOLDS(open_line(2, 2, LBQ_MOST_T) == LBQ_TAKEN);
        HOLDS((lbq_step(LINE, code, 1, 1).number != LBQ_BADSTEP) == listed);
        HOLDS((lbq_word(code, LBQ_TAKEN)[0] != '\0') == listed);
    }
    for (desk = 0; desk < LBQ_MOST_T; desk++) {
        HOLDS(open_line(2, 2, LBQ_MOST_T) == LBQ_TAKEN && lbq_step(LINE, LBQ_ORDER, 1, 4).value == 4);
        HOLDS(lbq_step(LINE, LBQ_LOOK + desk, 1, 0).number == LBQ_TAKEN && head.desks[desk].stage == LBQ_LOOKED);
        HOLDS(lbq_step(LINE, LBQ_CLAIM + desk, 0, 0).number == LBQ_TAKEN && head.desks[desk].stage == LBQ_CLAIMED);
        HOLDS(lbq_step(LINE, LBQ_FETCH + desk, 0, 0).value == 3 && head.desks[desk].stage == LBQ_FETCHED);
        HOLDS(lbq_step(LINE, LBQ_FINISH + desk, 0, 0).number == LBQ_TAKEN && head.desks[desk].stage == LBQ_IDLE);
    }
}

/* A desk that no code can carry: UNFIT, DAMAGED, NODESK, and the memory as it was. */
static void no_desk(void)
{
    static const uint32_t desks[] = {16, 17, 31, 32, 255, 256, 65536, 4294967232u, 4294967280u, 4294967295u};
    size_t i;

    for (i = 0; i < sizeof desks / sizeof desks[0]; i++) {
        HOLDS(open_line(2, 2, LBQ_MOST_T) == LBQ_TAKEN && lbq_order(LINE, 1, 4).number == LBQ_TAKEN);
        HOLDS(lbq_look(LINE, 0, 1).number == LBQ_TAKEN && lbq_claim(LINE, 0).number == LBQ_TAKEN);
        HOLDS(lbq_look(LINE, desks[i], 1).number == LBQ_NODESK);
        HOLDS(lbq_claim(LINE, desks[i]).number == LBQ_NODESK);
        HOLDS(lbq_fetch(LINE, desks[i]).number == LBQ_NODESK);
        HOLDS(lbq_finish(LINE, desks[i]).number == LBQ_NODESK);
        HOLDS(head.desks[0].stage == LBQ_CLAIMED && lbq_check(LINE).number == LBQ_TAKEN);
        head.k = 2;
        HOLDS(lbq_look(LINE, desks[i], 1).number == LBQ_DAMAGED);
        HOLDS(lbq_claim(LINE, desks[i]).number == LBQ_DAMAGED);
        labels = 3;
        HOLDS(lbq_fetch(LINE, desks[i]).number == LBQ_UNFIT);
        HOLDS(lbq_finish(LINE, desks[i]).number == LBQ_UNFIT);
    }
}

/* Every answer by the call that gives it: each word once at least. */
static void answers(void)
{
    uint32_t turn;

    HOLDS(open_line(2, 2, 2) == LBQ_TAKEN);
    SAYS(LBQ_GET, lbq_get(LINE), LBQ_EMPTY, 0);
    SAYS(LBQ_LOOK, lbq_look(LINE, 0, 0), LBQ_OWNED, 0);
    SAYS(LBQ_LOOK, lbq_look(LINE, 0, 1), LBQ_NOTHING, 0);
    SAYS(LBQ_LOOK, lbq_look(LINE, 0, 2), LBQ_NOBLOCK, 0);
    SAYS(LBQ_LOOK, lbq_look(LINE, 2, 2), LBQ_NODESK, 0);
    SAYS(LBQ_PUT, lbq_put(LINE, LBQ_LAST_LABEL), LBQ_TAKEN, LBQ_LAST_LABEL);
    SAYS(LBQ_PUT, lbq_put(LINE, LBQ_LAST_LABEL + 1), LBQ_NOTLABEL, 0);
    SAYS(LBQ_ORDER, lbq_order(LINE, 2, 1), LBQ_RANGE, 0);
    SAYS(LBQ_ORDER, lbq_order(LINE, LBQ_LAST_LABEL, LBQ_LAST_LABEL + 1), LBQ_RANGE, 0);
    SAYS(LBQ_ORDER, lbq_order(LINE, 2, 4), LBQ_TAKEN, 3);
    SAYS(LBQ_ORDER, lbq_order(LINE, 5, 6), LBQ_FULL, 0);
    SAYS(LBQ_CLAIM, lbq_claim(LINE, 0), LBQ_STAGE, 0);
    SAYS(LBQ_LOOK, lbq_look(LINE, 0, 1), LBQ_TAKEN, 0);
    SAYS(LBQ_LOOK, lbq_look(LINE, 1, 1), LBQ_TAKEN, 0);
    SAYS(LBQ_CLAIM, lbq_claim(LINE, 0), LBQ_TAKEN, 0);
    SAYS(LBQ_CLAIM, lbq_claim(LINE, 1), LBQ_LOST, 0);
    SAYS(LBQ_GET, lbq_get(LINE), LBQ_TAKEN, LBQ_LAST_LABEL);
    SAYS(LBQ_GET, lbq_get(LINE), LBQ_TAKEN, 2);
    SAYS(LBQ_GET, lbq_get(LINE), LBQ_TAKEN, 4);
    SAYS(LBQ_ORDER, lbq_order(LINE, 5, 7), LBQ_FULL, 2);
    SAYS(LBQ_GET, lbq_get(LINE), LBQ_TAKEN, 5);
    SAYS(LBQ_PUT, lbq_put(LINE, 7), LBQ_BUSY, 0);
    SAYS(LBQ_FETCH, lbq_fetch(LINE, 0), LBQ_TAKEN, 3);
    SAYS(LBQ_FINISH, lbq_finish(LINE, 0), LBQ_TAKEN, 0);
    SAYS(LBQ_ORDER + 1, lbq_step(LINE, LBQ_ORDER + 1, 1, 1), LBQ_BADSTEP, 0);
    head.k = head.p + 1;
    SAYS(LBQ_GET, lbq_get(LINE), LBQ_DAMAGED, 0);
    labels--;
    SAYS(LBQ_GET, lbq_get(LINE), LBQ_UNFIT, 0);

    /* Every round of two blocks, then WORN. */
    HOLDS(open_line(2, 1, 1) == LBQ_TAKEN);
    for (turn = 0; turn < 2 * (LBQ_LAST_ROUND + 1u); turn++) {
        HOLDS(lbq_put(LINE, 1).number == LBQ_TAKEN && lbq_get(LINE).number == LBQ_TAKEN);
    }
    HOLDS(table[0].round == LBQ_LAST_ROUND && table[1].round == LBQ_LAST_ROUND);
    SAYS(LBQ_PUT, lbq_put(LINE, 1), LBQ_WORN, 0);
}

/* A number that is not listed has no word, whatever the code. */
static void words(void)
{
    uint32_t code, number;

    for (number = LBQ_EMPTY + 1; number < 70000; number++) {
        for (code = 0; code < 300; code += 16) {
            HOLDS(lbq_word(code, number)[0] == '\0');
        }
    }
}

int main(void)
{
    HOLDS(lbq_version() == LBQ_VERSION);
    limits();
    codes();
    no_desk();
    words();
    answers();
    return 0;
}
