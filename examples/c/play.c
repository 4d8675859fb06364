/* Plays a schedule from standard input over a line in C's own memory, and prints what the proved player prints.
 *
 * A schedule is the letters LBQ, version 1 in two bytes, NB, NE and T in one byte each, then nine bytes for each step:
 * the code, and the numbers a and b in four bytes each, high byte first. */
#include "lbq.h"

#include <stdio.h>
#include <string.h>

enum { MOST_BYTES = 64808, HEADER_BYTES = 8, STEP_BYTES = 9 };

static unsigned char bytes[MOST_BYTES + 1];
static lbq_head head;
static lbq_block table[LBQ_MOST_NB];
static uint32_t entries[LBQ_MOST_NB * LBQ_MOST_NE];

static void print(unsigned long step, const char *word, uint32_t value)
{
    printf("%lu %s %lu\n", step, word, (unsigned long)value);
}

static size_t least(size_t a, size_t b)
{
    return a < b ? a : b;
}

/* Four bytes, high byte first. */
static uint32_t number(const unsigned char *at)
{
    return (uint32_t)at[0] << 24 | (uint32_t)at[1] << 16 | (uint32_t)at[2] << 8 | at[3];
}

int main(void)
{
    static const unsigned char start[] = {'L', 'B', 'Q', 0, 1};
    const size_t length = fread(bytes, 1, sizeof bytes, stdin);
    size_t nb, lent, at;
    unsigned long step = 0;
    lbq_answer answer;

    if (ferror(stdin)) {
        perror("play");
        return 1;
    }
    if (length > MOST_BYTES) {
        print(0, "LONG", 0);
        return 0;
    }
    if (length < HEADER_BYTES || memcmp(bytes, start, sizeof start) != 0) {
        print(0, "HEADER", 0);
        return 0;
    }

    /* A header may name more than there is: then all of it is lent, and opening refuses the sizes. */
    nb = least(bytes[5], LBQ_MOST_NB);
    lent = nb * least(bytes[6], LBQ_MOST_NE);
    answer = lbq_open(&head, table, nb, entries, lent, bytes[5], bytes[6], bytes[7]);
    if (answer.number != LBQ_TAKEN) {
        print(0, lbq_word(LBQ_PUT, answer.number), answer.value);
        return 0;
    }

    for (at = HEADER_BYTES; length - at >= STEP_BYTES; at += STEP_BYTES) {
        const uint32_t code = bytes[at];
        answer = lbq_step(&head, table, nb, entries, lent, code, number(bytes + at + 1), number(bytes + at + 5));
        print(++step, lbq_word(code, answer.number), answer.value);
    }
    if (at != length) {
        print(++step, "CUT", 0);
    }
    return fflush(stdout) == 0 ? 0 : 1;
}
