/* Judges tables for the sorting hall at lag 2: ours, then ones that another program could have made. */
#include <stdio.h>

#include "loquatquoits.h"

static const uint8_t HALL[56] = {
    'S', 20, 0, 3, 0, 'P', 23, 0, 7, 0, 'C', 30, 0, 18, 0, 'U', 48, 0, 8, 0, /* contents */
    0,   2,  2,                                                             /* start 0, two commands, lag 2 */
    0,   0,  0, 0, 2, 2,   2,                                               /* positions */
    0,   0,  4, 0, 1, 4,   1,  0, 5, 1, 1,   5,  2, 0,  6, 3,   1,  6,       /* from, command, to */
    4,   2,  5, 3, 6, 0,   6,  1,                                           /* from, to */
};

static uint8_t table[64];
static size_t table_len;

static void judge(const char *what) {
    uint8_t verdict;
    size_t place;
    uint8_t refusal = lq_judge(HALL, sizeof HALL, table, table_len, &verdict, &place);
    if (refusal != 0) {
        printf("%s: refused %u\n", what, refusal);
    } else if (verdict == LQ_SOUND) {
        printf("%s: yes\n", what);
    } else {
        printf("%s: no, %s %zu\n", what, verdict == LQ_BAD_WORD ? "word" : "pair", place);
    }
}

int main(void) {
    uint8_t masks[14];
    uint16_t ranks[14];
    uint8_t losing;
    size_t reached;
    if (lq_make(HALL, sizeof HALL, masks, 14, ranks, 14, table, sizeof table, &table_len, &losing, &reached) != 0 || losing != LQ_WINS) {
        printf("no winning sheet\n");
        return 1;
    }
    uint8_t *start = table + 15; /* S: start, commands, lag, highest position */
    uint8_t *flags = table + 19; /* W: a first word has one command */
    uint8_t *mask = table + 21;  /* T: 1 1 2 2 3 0 0 3 and six 0 */
    judge("ours");
    mask[0] = 3; /* the start with 0 pending: what is given there is played in position 2, which permits 0 alone */
    judge("command 1 added at pair 0");
    mask[0] = 1;
    mask[4] = 2;
    mask[7] = 2;
    judge("only command 1 at pairs 4 and 7");
    mask[0] = 0; /* nothing leads there any more but the first word 0 */
    judge("no command at pair 0");
    flags[0] = 0;
    judge("and the first word 0 not flagged");
    *start = 1;
    judge("a table for another start");
    return 0;
}
