/*
 * Works the sorting hall at lag 2 for some turns: makes its table, opens a cabin and runs it with reports that come late, overtake each
 * other, are repeated or get lost, one at a time and then in packets.
 */
#include <stdio.h>

#include "loquatquoits.h"

static const uint8_t HALL[56] = {
    'S', 20, 0, 3, 0, 'P', 23, 0, 7, 0, 'C', 30, 0, 18, 0, 'U', 48, 0, 8, 0, /* contents */
    0,   2,  2,                                                             /* start 0, two commands, lag 2 */
    0,   0,  0, 0, 2, 2,   2,                                               /* positions */
    0,   0,  4, 0, 1, 4,   1,  0, 5, 1, 1,   5,  2, 0,  6, 3,   1,  6,       /* from, command, to */
    4,   2,  5, 3, 6, 0,   6,  1,                                           /* from, to */
};

static uint8_t table[64];
static size_t table_len;
static uint8_t state[LQ_STATE];

static void hear(size_t index, uint8_t position) {
    uint8_t refusal = lq_observe(table, table_len, state, index, position);
    printf("hear %zu at %u: %u\n", index, position, refusal);
}

/* Hears all of a packet's reports, or nothing where one is refused. */
static void hear_packet(const lq_observation *packet, size_t count) {
    lq_heard heard = lq_observe_all(table, table_len, state, packet, count);
    for (size_t k = 0; k < count; k++) {
        printf("%s %zu at %u", k == 0 ? "hear" : ",", packet[k].index, packet[k].position);
    }
    if (heard.refusal == 0) {
        printf(": 0\n");
    } else {
        printf(": %u at place %zu\n", heard.refusal, heard.place);
    }
}

static void give(void) {
    uint8_t action;
    uint8_t refusal = lq_act(table, table_len, state, &action);
    if (refusal == 0) {
        printf("give: command %u\n", action);
    } else {
        printf("give: refused %u\n", refusal);
    }
}

int main(void) {
    uint8_t masks[14];
    uint16_t ranks[14];
    uint8_t losing;
    size_t reached;
    if (lq_make(HALL, sizeof HALL, masks, 14, ranks, 14, table, sizeof table, &table_len, &losing, &reached) != 0 || losing != LQ_WINS) {
        printf("no winning sheet\n");
        return 1;
    }
    if (reached != 7) {
        printf("part of the hall is cut off\n");
        return 1;
    }
    printf("a winning sheet of %zu bytes\n", table_len);
    if (lq_open(table, table_len, state) != 0) {
        return 1;
    }
    give();     /* turn 0: the first word's command */
    give();     /* turn 1: the report of index 0 has not come */
    hear(0, 0); /* late */
    hear(0, 0); /* repeated */
    give();
    hear(4, 1); /* overtakes the report of index 2 */
    give();     /* turn 2: only index 2 counts */
    hear(2, 2);
    hear(0, 0); /* too old now */
    give();
    give(); /* turn 3: index 4 is known already */
    give(); /* turn 4: the report of index 6 is lost */
    const lq_observation spoilt[2] = {{6, 3}, {4, 1}};
    hear_packet(spoilt, 2); /* the report of index 4 is too old, and that of index 6 is not heard either */
    give();
    const lq_observation mixed[3] = {{8, 0}, {6, 3}, {8, 0}};
    hear_packet(mixed, 3); /* the report of index 8 overtakes that of index 6, and is repeated */
    give();
    give(); /* turn 5: index 8 is known already */
    return 0;
}
