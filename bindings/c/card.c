/* A card of two hands: card FILE. The first hand is written in whole, the second block by block with little memory.
 * Then the file is read back hand by hand, line by line, and each hand is played again. */
#include <stdio.h>
#include <stdlib.h>
#include <string.h>

#include "peatcloak.h"

/* A line of a script: its letter and its numbers. */
struct line {
    char letter;
    size_t count;
    uint16_t numbers[PEATCLOAK_LINE_NUMBERS];
};

/* Says which call was refused, and ends. */
static void must(const char *call, uint32_t refused) {
    if (refused != 0) {
        fprintf(stderr, "card: %s is refused with %u\n", call, (unsigned)refused);
        exit(1);
    }
}

static void must_file(const char *what, int is_done) {
    if (!is_done) {
        fprintf(stderr, "card: the file cannot be %s\n", what);
        exit(1);
    }
}

/* Lays a line onto a tape; gives how many entries are used then. */
static size_t put(uint32_t *tape, size_t tape_len, size_t used, const struct line *line) {
    uint32_t out[1];
    must("put_line", peatcloak_put_line(tape, tape_len, used, (unsigned char)line->letter, line->numbers, line->count,
                                        out, 1));
    return out[0];
}

/* ---- A hand in whole */

static void write_first(FILE *card) {
    static const struct line lines[] = {
        {'t', 6, {0, 10, 5, 0, 100, 100}}, {'n', 0, {0}},  {'n', 0, {0}}, {'n', 0, {0}}, {'p', 1, {5}},
        {'p', 1, {10}},                    {'b', 1, {20}}, {'f', 0, {0}}, {'x', 0, {0}}, {'w', 2, {7, 3}}};
    const uint32_t title[4] = {3, 2026, 7, PEATCLOAK_EDITION};
    uint32_t tape[PEATCLOAK_TAPE], out[1];
    uint8_t bytes[2 * PEATCLOAK_BLOCK];
    size_t used = 0, i;
    for (i = 0; i < sizeof lines / sizeof *lines; i++) {
        used = put(tape, PEATCLOAK_TAPE, used, &lines[i]);
    }
    must("write_hand", peatcloak_write_hand(title, 4, tape, used, bytes, sizeof bytes, out, 1));
    must_file("written", fwrite(bytes, PEATCLOAK_BLOCK, out[0], card) == out[0]);
}

/* ---- A hand block by block: at no time is there more of it than one block and one line */

struct writer {
    FILE *card;
    uint32_t title[4], index, tape[PEATCLOAK_TAPE];
    size_t used;
};

/* Writes a block of what is collected, and keeps what is behind it. */
static void flush_block(struct writer *w) {
    uint8_t bytes[PEATCLOAK_BLOCK];
    uint32_t out[1];
    size_t taken = w->used < PEATCLOAK_BLOCK_ENTRIES ? w->used : PEATCLOAK_BLOCK_ENTRIES;
    must("write_block", peatcloak_write_block(w->title, 4, w->index, w->tape, w->used, bytes, sizeof bytes, out, 1));
    must_file("written", fwrite(bytes, PEATCLOAK_BLOCK, 1, w->card) == 1);
    printf("block %u of hand %u is written, %s\n", (unsigned)w->index, (unsigned)w->title[2],
           out[0] ? "another follows" : "the last");
    w->used -= taken;
    memmove(w->tape, w->tape + taken, w->used * sizeof *w->tape);
    w->index++;
}

static void write_line(struct writer *w, const struct line *line) {
    w->used = put(w->tape, PEATCLOAK_TAPE, w->used, line);
    while (w->used > PEATCLOAK_BLOCK_ENTRIES) {
        flush_block(w);
    }
}

static void write_second(FILE *card) {
    static const struct line begin[] = {
        {'t', 6, {0, 10, 5, 0, 9000, 9000}}, {'n', 0, {0}}, {'n', 0, {0}}, {'n', 0, {0}},
        {'p', 1, {5}},                       {'p', 1, {10}}};
    static const struct line fold = {'f', 0, {0}};
    struct writer w = {card, {3, 2026, 8, PEATCLOAK_EDITION}, 0, {0}, 0};
    size_t i;
    uint16_t bet;
    for (i = 0; i < sizeof begin / sizeof *begin; i++) {
        write_line(&w, &begin[i]);
    }
    for (bet = 20; bet <= 600; bet += 10) {
        const struct line raise = {'b', 1, {bet}};
        write_line(&w, &raise);
    }
    write_line(&w, &fold);
    flush_block(&w);
}

/* ---- The card read back */

/* The blocks of the next hand, behind each other; gives their bytes, 0 at the end of the card. */
static size_t next_hand(FILE *card, uint8_t *bytes) {
    size_t len = 0;
    uint32_t head[7] = {0};
    while (!head[5]) {
        size_t got = fread(bytes + len, 1, PEATCLOAK_BLOCK, card);
        if (got == 0 && len == 0 && feof(card)) {
            return 0;
        }
        must_file("read: it ends within a hand", got == PEATCLOAK_BLOCK);
        must("read_block", peatcloak_read_block(bytes + len, PEATCLOAK_BLOCK, head, 7));
        len += PEATCLOAK_BLOCK;
        must_file("read: no block is the last", head[5] || len < PEATCLOAK_HAND_BLOCKS * PEATCLOAK_BLOCK);
    }
    return len;
}

static void show_lines(const uint8_t *bytes, size_t len) {
    uint32_t line[3], i, count = 0;
    uint16_t numbers[PEATCLOAK_LINE_NUMBERS];
    size_t at = 0;
    for (;;) {
        must("line_at", peatcloak_line_at(bytes, len, at, line, 3, numbers, PEATCLOAK_LINE_NUMBERS));
        if (line[0] == 0) {
            break;
        }
        printf("%s%c", count % 12 ? ", " : count ? ",\n  " : "  ", (char)line[0]);
        for (i = 0; i < line[1] && i < PEATCLOAK_LINE_NUMBERS; i++) {
            printf(" %u", (unsigned)numbers[i]);
        }
        at = line[2];
        count++;
    }
    printf("\n");
}

static void show_hand(const uint8_t *bytes, size_t len) {
    static float floats[PEATCLOAK_FLOATS];
    static uint32_t numbers[PEATCLOAK_NUMBERS];
    uint32_t head[6], out[1];
    must("read_hand", peatcloak_read_hand(bytes, len, head, 6));
    printf("table %u, year %u, hand %u; blocks %u, entries %u\n", (unsigned)head[0], (unsigned)head[1],
           (unsigned)head[2], (unsigned)head[4], (unsigned)head[5]);
    show_lines(bytes, len);
    must("replay_hand",
         peatcloak_replay_hand(floats, PEATCLOAK_FLOATS, numbers, PEATCLOAK_NUMBERS, bytes, len, out, 1));
    printf("  %u lines played: pot %g, stacks %g and %g, hand %u\n", (unsigned)out[0], floats[PEATCLOAK_TOTAL_POT],
           floats[PEATCLOAK_STACKS], floats[PEATCLOAK_STACKS + 1], (unsigned)numbers[PEATCLOAK_KEY_HAND]);
}

int main(int argc, char **argv) {
    static uint8_t bytes[PEATCLOAK_HAND_BLOCKS * PEATCLOAK_BLOCK];
    FILE *card;
    size_t len;
    if (argc != 2) {
        fprintf(stderr, "usage: card FILE\n");
        return 2;
    }
    must_file("opened", (card = fopen(argv[1], "wb")) != NULL);
    write_first(card);
    write_second(card);
    must_file("written", fclose(card) == 0);
    must_file("opened", (card = fopen(argv[1], "rb")) != NULL);
    while ((len = next_hand(card, bytes)) > 0) {
        show_hand(bytes, len);
        /* What the check is for. */
        bytes[100] ^= 1;
        printf("  with a bit turned round it is refused with %u\n",
               (unsigned)peatcloak_read_hand(bytes, len, (uint32_t[6]){0}, 6));
    }
    must_file("closed", fclose(card) == 0);
    return 0;
}
