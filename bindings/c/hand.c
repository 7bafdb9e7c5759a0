/* A hand between two seats: is it this library, build with the key of the hand, post the blinds, a bet refused, a raise,
 * a fold, the pot paid out; and which hand it was. */
#include <stdio.h>
#include <string.h>

#include "peatcloak.h"

static float floats[PEATCLOAK_FLOATS];
static uint32_t numbers[PEATCLOAK_NUMBERS];

/* The table, as the calls take it. */
#define TABLE floats, PEATCLOAK_FLOATS, numbers, PEATCLOAK_NUMBERS

static void show(const char *step, uint32_t refused) {
    printf("%-10s %2u  round %2u, seat %u to act, pot %g, bet %g\n", step, (unsigned)refused,
           (unsigned)numbers[PEATCLOAK_ROUND], (unsigned)numbers[PEATCLOAK_TO_ACT_IDX], floats[PEATCLOAK_TOTAL_POT],
           floats[PEATCLOAK_ROUND_BET]);
}

/* Whether the library and the header go together. */
static int is_ours(void) {
    const uint32_t header[4] = {PEATCLOAK_VERSION, PEATCLOAK_LAYOUT, PEATCLOAK_FLOATS, PEATCLOAK_NUMBERS};
    uint32_t library[4];
    return peatcloak_version(library, 4) == 0 && memcmp(library, header, sizeof header) == 0;
}

int main(void) {
    const float stacks[] = {100, 100};
    const float amounts[PEATCLOAK_AMOUNTS] = {[PEATCLOAK_AMOUNT_BIG_BLIND] = 10, [PEATCLOAK_AMOUNT_SMALL_BLIND] = 5};
    const uint32_t given[PEATCLOAK_GIVEN] = {
        [PEATCLOAK_GIVEN_STACKS] = 1,        [PEATCLOAK_GIVEN_BIG_BLIND] = 1, [PEATCLOAK_GIVEN_SMALL_BLIND] = 1,
        [PEATCLOAK_GIVEN_KEY] = 1,           [PEATCLOAK_GIVEN_KEY_CODE] = 3,  [PEATCLOAK_GIVEN_KEY_YEAR] = 2026,
        [PEATCLOAK_GIVEN_KEY_HAND] = 7};
    const uint8_t no_cards[1] = {0};
    const uint16_t ranks[PEATCLOAK_SEATS] = {7, 3};
    int32_t rewards[PEATCLOAK_SEATS];
    int round;

    if (!is_ours()) {
        fprintf(stderr, "hand: the library that is linked is not the one of peatcloak.h\n");
        return 1;
    }
    show("build", peatcloak_build(TABLE, stacks, 2, stacks, 0, no_cards, 0, amounts, PEATCLOAK_AMOUNTS, given,
                                  PEATCLOAK_GIVEN));
    for (round = 0; round < 3; round++) {
        show("advance", peatcloak_advance_round(TABLE));
    }
    show("post 5", peatcloak_do_bet(TABLE, 5, 1));
    show("post 10", peatcloak_do_bet(TABLE, 10, 1));
    show("bet 9", peatcloak_do_bet(TABLE, 9, 0));
    show("bet 20", peatcloak_do_bet(TABLE, 20, 0));
    show("fold", peatcloak_fold(TABLE));
    show("complete", peatcloak_complete(TABLE));
    show("settle", peatcloak_settle(TABLE, ranks, PEATCLOAK_SEATS, rewards, PEATCLOAK_SEATS));
    printf("rewards %d and %d\n", (int)rewards[0], (int)rewards[1]);
    printf("table %u, year %u, hand %u\n", (unsigned)numbers[PEATCLOAK_KEY_CODE],
           (unsigned)numbers[PEATCLOAK_KEY_YEAR], (unsigned)numbers[PEATCLOAK_KEY_HAND]);
    return 0;
}
