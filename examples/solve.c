/* Solves document 01's guess yard at lag 1 and prints how many positions are reached from the start, and the verdict. */
#include <stdio.h>

#include "loquatquoits.h"

static const uint8_t GUESS[45] = {
    'S', 20, 0, 3,  0, 'P', 23, 0, 4, 0, 'C', 27, 0, 12, 0, 'U', 39, 0, 6, 0, /* contents */
    0,   2,  1,                                                              /* start 0, two commands, lag 1 */
    0,   0,  2, 3,                                                           /* positions */
    0,   0,  2, 0,  1, 3,   1,  0, 3, 1, 1,   2,                             /* from, command, to */
    2,   0,  2, 1,  3, 0,                                                    /* from, to */
};

int main(void) {
    uint8_t masks[4];
    uint16_t ranks[4];
    uint8_t losing;
    size_t reached;
    uint8_t refusal = lq_solve(GUESS, sizeof GUESS, masks, 4, ranks, 4, &losing, &reached);
    if (refusal != 0) {
        printf("refused %u\n", refusal);
        return 1;
    }
    printf("reached %zu of 4\n", reached);
    if (losing == LQ_WINS) {
        printf("winning\n");
        return 0;
    }
    printf("losing %u\n", losing);
    for (unsigned k = 0; k < 4; k++) {
        if (ranks[k] != 0) {
            printf("pair %u rank %u\n", k, ranks[k]);
        }
    }
    return 0;
}
