/* LBQ: a line of labels that idle presses may take from.
 *
 * The press that owns a line puts labels in and gets them out, first in, first out. Other presses have desks: a desk
 * looks at a block, claims the next label there, fetches it, and finishes. Every call is one step with one answer.
 *
 * What is lent. A call is lent a head, a block table of table_len records and entries_len entries, and keeps nothing
 * of them. The memory is the caller's; between the calls on one line nobody else may write it, and during a call
 * nobody may touch it.
 *
 * Any lengths may be lent and the memory may hold any numbers. What does not fit or is not a sound line is refused,
 * and stays as it was found. Outside the contract are only these: a null pointer (with length 0 too), a pointer that
 * is not aligned for its type, a length beyond the memory there is, and parts that overlap. Everything else gets an
 * answer from the tables below.
 *
 * What is proved. The calls that liblbq.a has are proved: lbq_open, lbq_step, lbq_order, lbq_check, lbq_survey and
 * lbq_version. The whole answer of each is proved, and what head, table and entries hold afterwards.
 *
 * What is not. The rest of this file is plain C and no part of the proof: its numbers and records, lbq_word, and
 * lbq_put to lbq_finish, which only make a step of their arguments. `make first` holds the numbers and words to the
 * proved definitions and asks the library for each of them. That a compiler and a linker keep to their languages is
 * assumed.
 *
 * Link with liblbq.a (-llbq).
 */
#ifndef LBQ_H
#define LBQ_H

#include <stddef.h>
#include <stdint.h>

#ifdef __cplusplus
extern "C" {
#endif

/* The number of this interface. A change of the calls, of the records or of the answers is a new number. The records
 * carry none: who stores a line beyond a run stores this number beside it, and lends the line to a library of that
 * number only. */
#define LBQ_VERSION 1

/* The number of the library that is linked; it has to be LBQ_VERSION. */
uint32_t lbq_version(void);

/* The limits. */
enum {
    LBQ_LEAST_NB = 2, /* blocks */
    LBQ_MOST_NB = 64,
    LBQ_LEAST_NE = 1, /* entries a block */
    LBQ_MOST_NE = 64,
    LBQ_LEAST_T = 1, /* desks */
    LBQ_MOST_T = 16,
    LBQ_LAST_ROUND = 65535, /* of a block */
    LBQ_LAST_LABEL = 999999
};

/* The numbers of an answer: 0 where the step was taken, else the refusal's. Where more than one of them could be
 * given it is the first: the paper makes the tests of these fifteen in the order of its numbers. A later version may
 * have more and test them in another order, so treat every number but 0 as a refusal. */
enum {
    LBQ_TAKEN = 0,
    LBQ_UNFIT = 1,     /* NB, NE or T outside its limits, or lent lengths not NB and NB x NE */
    LBQ_DAMAGED = 2,   /* a rule of a sound line is broken; lbq_check says which */
    LBQ_BADSTEP = 3,   /* code not listed */
    LBQ_NODESK = 4,    /* desk number T or more */
    LBQ_NOBLOCK = 5,   /* look at block NB or more */
    LBQ_STAGE = 6,     /* the desk's stage does not take this step */
    LBQ_OWNED = 7,     /* look at a block that the owner reads or has read */
    LBQ_NOTHING = 8,   /* look at an unused block, or one with no label to take */
    LBQ_LOST = 9,      /* claim of what is no longer as it was seen; the desk is idle now */
    LBQ_NOTLABEL = 10, /* put of a number above 999,999 */
    LBQ_RANGE = 11,    /* order with first above last, or last above 999,999 */
    LBQ_WORN = 12,     /* put, and the block to start has had all its rounds */
    LBQ_FULL = 13,     /* put, and the owner has not left the block to start */
    LBQ_BUSY = 14,     /* put, and a desk in the block to start has not finished */
    LBQ_EMPTY = 15     /* get, and there is nothing for the owner */
};

/* The codes of steps, as schedules have them. A desk's step has the code plus the desk's number, 0 to 15: a larger
 * sum is another step. So call lbq_look, lbq_claim, lbq_fetch and lbq_finish, which take any number for a desk. */
enum {
    LBQ_PUT = 0,     /* put label a */
    LBQ_GET = 1,     /* get */
    LBQ_ORDER = 2,   /* put the labels from a to b, both included */
    LBQ_CLAIM = 16,  /* claim the place seen */
    LBQ_FETCH = 32,  /* fetch the label claimed */
    LBQ_FINISH = 48, /* finish */
    LBQ_LOOK = 64    /* look at block a */
};

/* The stages of a desk. */
enum { LBQ_IDLE = 0, LBQ_LOOKED = 1, LBQ_CLAIMED = 2, LBQ_FETCHED = 3 };

/* A desk. An idle desk's turn and place are not read. */
typedef struct {
    uint16_t stage, place;
    uint32_t turn;
} lbq_desk;

/* A record of the block table. */
typedef struct {
    uint16_t round, written, claimed, finished;
} lbq_block;

/* The head. lbq_open writes it; the other calls move it on. */
typedef struct {
    uint16_t nb, ne, t, reading; /* NB, NE, T, the reading place */
    uint32_t p, k;               /* the put turn, the get turn */
    lbq_desk desks[16];
} lbq_head;

/* The answer to opening, a step or an order. The value is the label of a put, get or fetch, the place of a look or
 * claim, the count of an order, and 0 for finish, for opening, and in a refusal. A refused order has the number of
 * labels that it had placed. */
typedef struct {
    uint32_t number, value;
} lbq_answer;

/* The check's answer: number 0 for a sound line, 1 UNFIT, both with place and rule 0; or 2 DAMAGED with the place, 64
 * for the head and else the lowest block that breaks a rule, and the first rule broken there, 1 to 7. */
typedef struct {
    uint32_t number, place, rule;
} lbq_checked;

/* The survey's answer: number 0, 1 UNFIT or 2 DAMAGED; bit b of the mask says that an idle desk's look at block b
 * would be seen; how many such blocks there are; the lowest, or 64 where there is none. Refused: mask 0, count 0,
 * lowest 64. */
typedef struct {
    uint64_t mask;
    uint32_t number, count, lowest;
} lbq_findings;

/* The layout that the library reads and writes: where a compiler has another, this line is an error. */
typedef char lbq_layout[sizeof(lbq_desk) == 8 && sizeof(lbq_block) == 8 && sizeof(lbq_head) == 144 &&
                                sizeof(lbq_answer) == 8 && sizeof(lbq_checked) == 12 && sizeof(lbq_findings) == 24
                            ? 1
                            : -1];

/* Opens a line of nb blocks, ne entries a block and t desks: every number becomes 0 and every desk idle, whatever
 * stood there. UNFIT, with everything left as found, for a size outside its limits or lengths that are not nb and nb
 * x ne. The sizes are 32 bits wide so that no conversion makes a fit size of an unfit one. */
lbq_answer lbq_open(lbq_head *head, lbq_block *table, size_t table_len, uint32_t *entries, size_t entries_len,
                    uint32_t nb, uint32_t ne, uint32_t t);

/* Does one step: a code and two numbers, of which those that the code does not name are ignored. A code above 255 is
 * BADSTEP like any other that is not listed. A refusal leaves the memory as found, but for three: EMPTY keeps the
 * blocks that the get has left, LOST makes the desk idle, and an order keeps the labels that it has placed. */
lbq_answer lbq_step(lbq_head *head, lbq_block *table, size_t table_len, uint32_t *entries, size_t entries_len,
                    uint32_t code, uint32_t a, uint32_t b);

/* Puts the labels from first to last, both included, until one is refused: the step of code LBQ_ORDER. */
lbq_answer lbq_order(lbq_head *head, lbq_block *table, size_t table_len, uint32_t *entries, size_t entries_len,
                     uint32_t first, uint32_t last);

/* Says whether this memory is a sound line. It writes nothing, and reads no entry. */
lbq_checked lbq_check(const lbq_head *head, const lbq_block *table, size_t table_len, const uint32_t *entries,
                      size_t entries_len);

/* Says which blocks an idle desk could take from. It writes nothing, and reads no entry. */
lbq_findings lbq_survey(const lbq_head *head, const lbq_block *table, size_t table_len, const uint32_t *entries,
                     size_t entries_len);

/* The steps by their names. */

/* Puts a label. The value is that label. */
static inline lbq_answer lbq_put(lbq_head *head, lbq_block *table, size_t table_len, uint32_t *entries,
                                 size_t entries_len, uint32_t label)
{
    return lbq_step(head, table, table_len, entries, entries_len, LBQ_PUT, label, 0);
}

/* Gets the next label for the owner. The value is that label. */
static inline lbq_answer lbq_get(lbq_head *head, lbq_block *table, size_t table_len, uint32_t *entries,
                                 size_t entries_len)
{
    return lbq_step(head, table, table_len, entries, entries_len, LBQ_GET, 0, 0);
}

/* A desk's step. No code carries a desk above 15, and no line has one: that is NODESK, after UNFIT and DAMAGED. */
static inline lbq_answer lbq_by_desk(lbq_head *head, lbq_block *table, size_t table_len, uint32_t *entries,
                                     size_t entries_len, uint32_t code, uint32_t desk, uint32_t a)
{
    lbq_answer refused;
    if (desk < LBQ_MOST_T) {
        return lbq_step(head, table, table_len, entries, entries_len, code + desk, a, 0);
    }
    refused.number = lbq_check(head, table, table_len, entries, entries_len).number;
    refused.value = 0;
    if (refused.number == LBQ_TAKEN) {
        refused.number = LBQ_NODESK;
    }
    return refused;
}

/* Lets a desk look at a block. The value is the place seen. */
static inline lbq_answer lbq_look(lbq_head *head, lbq_block *table, size_t table_len, uint32_t *entries,
                                  size_t entries_len, uint32_t desk, uint32_t block)
{
    return lbq_by_desk(head, table, table_len, entries, entries_len, LBQ_LOOK, desk, block);
}

/* Lets a desk claim the place seen. The value is that place. */
static inline lbq_answer lbq_claim(lbq_head *head, lbq_block *table, size_t table_len, uint32_t *entries,
                                   size_t entries_len, uint32_t desk)
{
    return lbq_by_desk(head, table, table_len, entries, entries_len, LBQ_CLAIM, desk, 0);
}

/* Lets a desk fetch the label claimed. The value is that label. */
static inline lbq_answer lbq_fetch(lbq_head *head, lbq_block *table, size_t table_len, uint32_t *entries,
                                   size_t entries_len, uint32_t desk)
{
    return lbq_by_desk(head, table, table_len, entries, entries_len, LBQ_FETCH, desk, 0);
}

/* Lets a desk finish. */
static inline lbq_answer lbq_finish(lbq_head *head, lbq_block *table, size_t table_len, uint32_t *entries,
                                    size_t entries_len, uint32_t desk)
{
    return lbq_by_desk(head, table, table_len, entries, entries_len, LBQ_FINISH, desk, 0);
}

/* The paper's word for an answer with this number to a step of this code. The code tells only where the step was
 * taken: a refusal has one word for all codes. "" for a number that is not listed, and for 0 with such a code. */
static inline const char *lbq_word(uint32_t code, uint32_t number)
{
    switch (number) {
    case LBQ_TAKEN:
        break;
    case LBQ_UNFIT:
        return "UNFIT";
    case LBQ_DAMAGED:
        return "DAMAGED";
    case LBQ_BADSTEP:
        return "BADSTEP";
    case LBQ_NODESK:
        return "NODESK";
    case LBQ_NOBLOCK:
        return "NOBLOCK";
    case LBQ_STAGE:
        return "STAGE";
    case LBQ_OWNED:
        return "OWNED";
    case LBQ_NOTHING:
        return "NOTHING";
    case LBQ_LOST:
        return "LOST";
    case LBQ_NOTLABEL:
        return "NOTLABEL";
    case LBQ_RANGE:
        return "RANGE";
    case LBQ_WORN:
        return "WORN";
    case LBQ_FULL:
        return "FULL";
    case LBQ_BUSY:
        return "BUSY";
    case LBQ_EMPTY:
        return "EMPTY";
    default:
        return "";
    }
    switch (code) {
    case LBQ_PUT:
        return "PUT";
    case LBQ_GET:
        return "GOT";
    case LBQ_ORDER:
        return "WHOLE";
    default:
        break;
    }
    switch (code / 16) {
    case LBQ_CLAIM / 16:
        return "CLAIMED";
    case LBQ_FETCH / 16:
        return "TOOK";
    case LBQ_FINISH / 16:
        return "DONE";
    case LBQ_LOOK / 16:
        return "SEEN";
    default:
        return "";
    }
}

#ifdef __cplusplus
}
#endif

#endif
