/*
 * Gates that hold. In document 01's split gate the lorry comes from the yard, position 2, to bay 0, whose gate has a line for command 0
 * alone, or to bay 1, which has one for command 1 alone. At lag 1 the command is given before the bay is known, and no command is right
 * for both; a holding gate does command 0 where another one arrives, if it has a line for it. Makes the yard's table with either kind of
 * gate, and works a cabin where they hold.
 */
#include <stdio.h>

#include "loquatquoits.h"

static const uint8_t PLAIN[36] = {
    'S', 20, 0, 3, 0, 'P', 23, 0, 3, 0, 'C', 26, 0, 6, 0, 'U', 32, 0, 4, 0, /* contents */
    0,   2,  1,                                                            /* start 0, two commands, lag 1 */
    0,   0,  2,                                                            /* positions */
    0,   0,  2, 1, 1, 2,                                                   /* from, command, to */
    2,   0,  2, 1,                                                         /* from, to */
};

/* The same with an entry more in the contents, and its one byte at the end. */
static uint8_t gated[42] = {
    'S', 25, 0, 3, 0, 'P', 28, 0, 3, 0, 'C', 31, 0, 6, 0, 'U', 37, 0, 4, 0, 'G', 41, 0, 1, 0, /* contents */
    0,   2,  1,                                                                              /* start, commands, lag */
    0,   0,  2,                                                                              /* positions */
    0,   0,  2, 1, 1, 2,                                                                     /* from, command, to */
    2,   0,  2, 1,                                                                           /* from, to */
    1,                                                                                       /* holding gates */
};

static uint8_t table[32];
static size_t table_len;
static uint8_t state[LQ_STATE];

static void make(const char *what, const uint8_t *sheet, size_t sheet_len) {
    uint8_t header[3], holding, masks[3], losing;
    uint16_t ranks[3];
    size_t places[8], reached;
    uint8_t refusal = lq_read(sheet, sheet_len, header, places, &reached, &holding);
    if (refusal != 0) {
        printf("%s: refused %u\n", what, refusal);
        return;
    }
    if (lq_make(sheet, sheet_len, masks, 3, ranks, 3, table, sizeof table, &table_len, &losing, &reached) != 0) {
        return;
    }
    printf("%s: holding %u, reached %zu, ", what, holding, reached);
    if (losing == LQ_WINS) {
        printf("winning, masks %u %u %u\n", masks[0], masks[1], masks[2]);
    } else {
        printf("losing %u\n", losing);
    }
}

/* The turn at which the lorry is in this bay: bay 0 does command 0 whatever is given. */
static void give(uint8_t bay) {
    uint8_t action;
    uint8_t refusal = lq_act(table, table_len, state, &action);
    if (refusal == 0) {
        printf("give: command %u, bay %u does %u\n", action, bay, bay == 0 ? 0 : action);
    } else {
        printf("give: refused %u\n", refusal);
    }
}

static void hear(size_t index, uint8_t position) {
    uint8_t refusal = lq_observe(table, table_len, state, index, position);
    printf("hear %zu at %u: %u\n", index, position, refusal);
}

int main(void) {
    make("no G", PLAIN, sizeof PLAIN);
    gated[41] = 0;
    make("G = 0", gated, sizeof gated);
    gated[41] = 2;
    make("G = 2", gated, sizeof gated);
    gated[41] = 1;
    make("G = 1", gated, sizeof gated);
    if (lq_open(table, table_len, state) != 0) {
        return 1;
    }
    give(0); /* turn 0: the first word's command */
    give(1); /* turn 1: the report of index 1 has not come */
    hear(1, 2);
    give(1);
    hear(4, 0); /* overtakes the report of index 3 */
    give(0);    /* turn 2: only index 3 counts */
    hear(3, 2);
    give(0); /* 1 again, as the yard could have come to bay 1 */
    return 0;
}
