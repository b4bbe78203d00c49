/*
 * Two bays ring, and it doesn't matter which rings first. The yard has a gate and three bays: from the gate, position 0, command c leads by
 * lane 4 + c to bay 1 + c, and from any bay every command leads back by lane 7. Posts notices on its table at lag 2, one on what the other
 * left, in either order, at once and again, and then one more, by which no first word remains.
 */
#include <stdio.h>
#include <string.h>

#include "loquatquoits.h"

static const uint8_t BAYS[75] = {
    'S', 20, 0, 3, 0, 'P', 23, 0, 8, 0, 'C', 31, 0, 36, 0, 'U', 67, 0, 8, 0, /* contents */
    0,   3,  2,                                                              /* start 0, three commands, lag 2 */
    0,   0,  0, 0, 2, 2,   2,  2,                                            /* positions */
    0,   0,  4, 0, 1, 5,   0,  2, 6,                                         /* from, command, to: the gate */
    1,   0,  7, 1, 1, 7,   1,  2, 7, 2, 0,   7,  2, 1,  7, 2,   2,  7,        /* bays 1 and 2 */
    3,   0,  7, 3, 1, 7,   3,  2, 7,                                         /* bay 3 */
    4,   1,  5, 2, 6, 3,   7,  0,                                            /* from, to */
};

typedef struct {
    uint8_t bytes[72];
    size_t len;
} sheet;

/* The flags of the three first words, and the masks of the gate and the bays, each with commands 0, 1 and 2 pending. */
static void show(const char *what, const sheet *s) {
    printf("%s: first words %u %u %u, masks", what, s->bytes[19], s->bytes[20], s->bytes[21]);
    for (size_t k = 22; k < 34; k++) {
        printf("%s%u", k % 3 == 1 ? "  " : " ", s->bytes[k]);
    }
    printf("\n");
}

/* Posts a notice on a sheet; shows what it leaves, and whether a first word does. */
static sheet post(const char *what, const sheet *on, const uint8_t *notice, size_t notice_len) {
    sheet left = {{0}, 0};
    uint8_t remains;
    uint8_t refusal =
        lq_post(BAYS, sizeof BAYS, on->bytes, on->len, notice, notice_len, left.bytes, sizeof left.bytes, &left.len, &remains);
    if (refusal != 0) {
        printf("%s: refused %u\n", what, refusal);
        return left;
    }
    show(what, &left);
    if (!remains) {
        printf("no first word remains\n");
    }
    return left;
}

static void compare(const char *what, const sheet *a, const sheet *b) {
    printf("%s: %s\n", what, a->len == b->len && memcmp(a->bytes, b->bytes, a->len) == 0 ? "the same bytes" : "other bytes");
}

int main(void) {
    uint8_t masks[24];
    uint16_t ranks[24];
    uint8_t losing;
    size_t reached;
    sheet ours;
    uint8_t refusal =
        lq_make(BAYS, sizeof BAYS, masks, 24, ranks, 24, ours.bytes, sizeof ours.bytes, &ours.len, &losing, &reached);
    if (refusal != 0 || losing != LQ_WINS) {
        printf("no winning sheet\n");
        return 1;
    }
    const uint8_t one[1] = {1}, three[1] = {3}, both[2] = {1, 3}, otherwise[3] = {3, 1, 3}, two[1] = {2};
    show("ours", &ours);
    sheet first = post("bay 1 rings", &ours, one, 1);
    sheet second = post("then bay 3", &first, three, 1);
    sheet turned = post("bay 3 rings", &ours, three, 1);
    turned = post("then bay 1", &turned, one, 1);
    compare("the other way round", &turned, &second);
    sheet at_once = post("both at once", &ours, both, 2);
    compare("at once", &at_once, &second);
    at_once = post("otherwise listed", &ours, otherwise, 3);
    compare("in another order, one of them twice", &at_once, &second);
    sheet again = post("bay 1 again", &second, one, 1);
    compare("again", &again, &second);
    again = post("nothing shut", &second, one, 0);
    compare("an empty notice", &again, &second);
    sheet none = post("then bay 2", &second, two, 1);
    sheet other = post("bay 2 rings", &ours, two, 1);
    other = post("then bays 1 and 3", &other, both, 2);
    compare("also without a first word", &other, &none);
    return 0;
}
