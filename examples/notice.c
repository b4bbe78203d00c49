/*
 * A bay is shut for the day. The yard has a gate and two bays: from the gate, position 0, command 0 leads by lane 3 to bay 1 and command 1
 * by lane 4 to bay 2, and from either bay any command leads back. Posts notices on its table at lag 2, and works the cabin by what is left.
 */
#include <stdio.h>

#include "loquatquoits.h"

static const uint8_t BAYS[53] = {
    'S', 20, 0, 3, 0, 'P', 23, 0, 6, 0, 'C', 29, 0, 18, 0, 'U', 47, 0, 6, 0, /* contents */
    0,   2,  2,                                                             /* start 0, two commands, lag 2 */
    0,   0,  0, 2, 2, 2,                                                    /* positions */
    0,   0,  3, 0, 1, 4,   1,  0, 5, 1, 1,   5,  2, 0,  5, 2,   1,  5,       /* from, command, to */
    3,   1,  4, 2, 5, 0,                                                    /* from, to */
};

static uint8_t table[64];
static size_t table_len;
static uint8_t posted[64];
static size_t posted_len;
static uint8_t state[LQ_STATE];

/* The flags of the two first words, and the masks of positions 0 to 2, each with command 0 and with command 1 pending. */
static void show(const char *what, const uint8_t *sheet) {
    printf("%s: first words %u %u, masks", what, sheet[19], sheet[20]);
    for (size_t k = 21; k < 27; k++) {
        printf(" %u", sheet[k]);
    }
    printf("\n");
}

static void post(const char *what, const uint8_t *notice, size_t notice_len) {
    uint8_t remains;
    uint8_t refusal = lq_post(BAYS, sizeof BAYS, table, table_len, notice, notice_len, posted, sizeof posted, &posted_len, &remains);
    if (refusal != 0) {
        printf("%s: refused %u\n", what, refusal);
        return;
    }
    show(what, posted);
    printf("%s\n", remains ? "a first word remains" : "no first word remains");
}

static void give(void) {
    uint8_t action;
    uint8_t refusal = lq_act(posted, posted_len, state, &action);
    if (refusal == 0) {
        printf("give: command %u\n", action);
    } else {
        printf("give: refused %u\n", refusal);
    }
}

static void hear(size_t index, uint8_t position) {
    uint8_t refusal = lq_observe(posted, posted_len, state, index, position);
    printf("hear %zu at %u: %u\n", index, position, refusal);
}

int main(void) {
    uint8_t masks[12];
    uint16_t ranks[12];
    uint8_t losing;
    size_t reached;
    if (lq_make(BAYS, sizeof BAYS, masks, 12, ranks, 12, table, sizeof table, &table_len, &losing, &reached) != 0 || losing != LQ_WINS) {
        printf("no winning sheet\n");
        return 1;
    }
    show("ours", table);
    const uint8_t one[1] = {1};
    post("nothing shut", one, 0); /* an empty notice leaves our own table as it is */
    post("bay 1 shut", one, 1);
    if (lq_open(posted, posted_len, state) != 0) {
        return 1;
    }
    give();     /* turn 0: the first word's command, to bay 2 */
    hear(0, 0); /* the gate */
    give();     /* turn 1: back from bay 2, by either command */
    hear(2, 2); /* bay 2 */
    give();     /* turn 2: to bay 2 again, command 0 would lead to bay 1 */
    const uint8_t both[3] = {2, 1, 2};
    post("both bays shut", both, 3); /* a position may be named twice */
    printf("open: refused %u\n", lq_open(posted, posted_len, state));
    const uint8_t missing[2] = {1, 6};
    post("a position that doesn't exist", missing, 2);
    return 0;
}
