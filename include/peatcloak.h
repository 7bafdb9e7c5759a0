/* The betting core of a card table, proved: the boundary of the static library libpeatcloak.a.
 *
 * Every function takes any input. A list crosses as its first place, which is never NULL, and its length; the memory
 * must be there, and what a call writes must overlap nothing else that it is given. A table is two lists of the
 * caller's: floats (at least PEATCLOAK_FLOATS places) and numbers (at least PEATCLOAK_NUMBERS). Later versions may ask
 * for more places, or use some of those from PEATCLOAK_FREE on, and raise PEATCLOAK_LAYOUT then: a host asks
 * peatcloak_version when it starts.
 *
 * A table may have the key of its hand: table code, year, hand number (since 2.2.0). A build takes it, and every call on
 * the table leaves it as it is. Nothing else hangs on it, but that a table with year 0 and a code or a hand is 19.
 *
 * A hand that has a key can be kept on a card, as blocks of bytes, and read back (since 2.3.0): see "The hand journal"
 * below.
 *
 * Stack: a call takes at most so many bytes on x86-64 in this version, with its return address, and without what C's
 * memcpy and memset take themselves: peatcloak_do_bet 336, _fold 224, _advance_round 240, _complete 1,560, _award
 * 1,832, _settle 2,904, _build 3,000, _queries 1,016, _player_reward 1,048; _play 9,400, _play_table 10,840,
 * _replay_hand 7,352, where the largest single frame is 3,424 (a line played, console::act::obey); _write_hand 1,144,
 * _write_block 600, _read_hand 208, _read_block 96, _line_at 192, _put_line 56; _round_do_bet 129, _round_new 32,
 * _round_new_with_bets 152, _round_advance_action 24, _round_queries 148; every other call 8.
 *
 * A function answers 0, or the refusal number of documents 01 and 02; then nothing at all is written, but where it is
 * said: peatcloak_write_hand and peatcloak_replay_hand may tell a number in out. 19 is also given where a list is too
 * short or a word is out of the range of what it stands for. */
#ifndef PEATCLOAK_H
#define PEATCLOAK_H

#include <stddef.h>
#include <stdint.h>

#ifdef __cplusplus
extern "C" {
#endif

/* The most seats that there are; each list of seats has so many places. */
#define PEATCLOAK_SEATS 16

/* ---- Written by .ci/layout from crates/layout/src/places.rt */

/* The library's version: 20300 is 2.3.0. The layout's goes up when a place moves or is added. */
#define PEATCLOAK_VERSION 20300
#define PEATCLOAK_LAYOUT 2

/* How many places each list has. */
#define PEATCLOAK_NUMBERS 32
#define PEATCLOAK_FLOATS 88
#define PEATCLOAK_GIVEN 24
#define PEATCLOAK_AMOUNTS 3

/* Places of the numbers. A set of seats is the number of its bits: seat 0 is 1, seat 1 is 2, seat 2 is 4. */
enum peatcloak_number {
    PEATCLOAK_NUM_PLAYERS = 0,
    PEATCLOAK_DEALER_IDX = 1,
    PEATCLOAK_ROUND = 2, /* 0 Starting, 1 Ante, 2 DealPreflop, 3 Preflop, .. 10 Showdown, 11 Complete */
    PEATCLOAK_ROUND_BEFORE = 3,
    PEATCLOAK_PLAYER_ACTIVE = 4,
    PEATCLOAK_PLAYER_ALL_IN = 5,
    PEATCLOAK_STARTING_PLAYER_ACTIVE = 6,
    PEATCLOAK_NEEDS_ACTION = 7,
    PEATCLOAK_TO_ACT_IDX = 8,
    PEATCLOAK_ROUND_LENGTH = 9, /* of the round's bets */
    PEATCLOAK_TOTAL_BET_COUNT = 10,
    PEATCLOAK_TOTAL_RAISE_COUNT = 11,
    PEATCLOAK_FORCED_BET_COUNT = 12,
    PEATCLOAK_BB_POSTED = 13,
    PEATCLOAK_SB_POSTED = 14,
    PEATCLOAK_HAS_CAP = 15, /* whether there is a cap on raises */
    PEATCLOAK_CAP = 16,
    PEATCLOAK_BOARD_LENGTH = 17,
    PEATCLOAK_BOARD = 18, /* five places */
    PEATCLOAK_PASSED = 23, /* answer: seats that the walk of the last accepted step passed to */
    /* From here on stands what the Rust's record lacks: the key of the hand, zeros where it has none. */
    PEATCLOAK_ADDED = 24,
    PEATCLOAK_KEY_CODE = 24, /* of the table, below 65536 */
    PEATCLOAK_KEY_YEAR = 25, /* below 65536; 0 means no key */
    PEATCLOAK_KEY_HAND = 26,
    /* From here on no call reads or writes anything. A host keeps 0 there, for later versions. */
    PEATCLOAK_FREE = 27
};

/* Places of the floats. A list has 16 of them, one for each seat. */
enum peatcloak_float {
    PEATCLOAK_TOTAL_POT = 0,
    PEATCLOAK_BIG_BLIND = 1,
    PEATCLOAK_SMALL_BLIND = 2,
    PEATCLOAK_ANTE = 3,
    PEATCLOAK_ROUND_BET = 4,
    PEATCLOAK_MIN_RAISE = 5,
    PEATCLOAK_PAID = 6, /* answer: what the last accepted step paid */
    PEATCLOAK_STACKS = 8,
    PEATCLOAK_STARTING_STACKS = 24,
    PEATCLOAK_HAND_BETS = 40,
    PEATCLOAK_WINNINGS = 56,
    PEATCLOAK_ROUND_BETS = 72
};

/* Places of what a build is told: whether each is given, and its number. */
enum peatcloak_given {
    PEATCLOAK_GIVEN_STACKS = 0, /* 0 no, 1 yes, as wherever something is given */
    PEATCLOAK_GIVEN_BIG_BLIND = 1,
    PEATCLOAK_GIVEN_SMALL_BLIND = 2,
    PEATCLOAK_GIVEN_ANTE = 3,
    PEATCLOAK_GIVEN_DEALER = 4,
    PEATCLOAK_GIVEN_DEALER_IS = 5,
    PEATCLOAK_GIVEN_CAP = 6,
    PEATCLOAK_GIVEN_CAP_CAPS = 7, /* 0: the cap that is given is none */
    PEATCLOAK_GIVEN_CAP_IS = 8, /* below 256 */
    PEATCLOAK_GIVEN_ROUND = 9,
    PEATCLOAK_GIVEN_ROUND_IS = 10, /* 0 to 11 */
    PEATCLOAK_GIVEN_BOARD = 11,
    PEATCLOAK_GIVEN_HANDS = 12,
    PEATCLOAK_GIVEN_HANDS_ARE = 13,
    PEATCLOAK_GIVEN_PLAYER_BET = 14,
    PEATCLOAK_GIVEN_ROUND_DATA = 15, /* what stands at the round's places of floats and numbers before the call */
    PEATCLOAK_GIVEN_KEY = 16, /* 0: the table has no key */
    PEATCLOAK_GIVEN_KEY_CODE = 17, /* below 65536 */
    PEATCLOAK_GIVEN_KEY_YEAR = 18, /* below 65536 */
    PEATCLOAK_GIVEN_KEY_HAND = 19,
    /* From here on nothing is read. A host keeps 0 there, for later versions. */
    PEATCLOAK_GIVEN_FREE = 20
};

/* Places of its amounts. */
enum peatcloak_amount {
    PEATCLOAK_AMOUNT_BIG_BLIND = 0,
    PEATCLOAK_AMOUNT_SMALL_BLIND = 1,
    PEATCLOAK_AMOUNT_ANTE = 2
};

/* ---- So far written by .ci/layout from crates/layout/src/places.rt */

/* The refusal numbers of documents 01 and 02. */
enum peatcloak_refusal {
    PEATCLOAK_MISSING_STACKS = 1,
    PEATCLOAK_MISSING_BIG_BLIND = 2,
    PEATCLOAK_INVALID_PLAYER_COUNT = 3,
    PEATCLOAK_INVALID_DEALER_INDEX = 4,
    PEATCLOAK_INVALID_BIG_BLIND = 5,
    PEATCLOAK_INVALID_SMALL_BLIND = 6,
    PEATCLOAK_INVALID_ANTE = 7,
    PEATCLOAK_INVALID_STACK = 8,
    PEATCLOAK_INSUFFICIENT_ACTIVE_PLAYERS = 9,
    PEATCLOAK_HANDS_LENGTH_MISMATCH = 10,
    PEATCLOAK_PLAYER_BET_LENGTH_MISMATCH = 11,
    PEATCLOAK_INVALID_BOARD_SIZE = 12,
    PEATCLOAK_DUPLICATE_CARD = 13,
    PEATCLOAK_BET_INVALID_SIZE = 14,
    PEATCLOAK_BET_SIZE_DOESNT_CALL_SELF = 15,
    PEATCLOAK_BET_SIZE_DOESNT_CALL = 16,
    PEATCLOAK_RAISE_SIZE_TOO_SMALL = 17,
    PEATCLOAK_BAD_CARD = 18,
    PEATCLOAK_BAD_RECORD = 19,
    PEATCLOAK_BAD_SEAT = 20,
    PEATCLOAK_COUNTER_FULL = 21,
    PEATCLOAK_NOBODY_LEFT = 22,
    PEATCLOAK_NOT_WHOLE_CHIPS = 23,
    PEATCLOAK_ALREADY_PAID = 24,
    PEATCLOAK_BAD_LINE = 25,
    PEATCLOAK_SCRIPT_TOO_LONG = 26,
    PEATCLOAK_BAD_JOURNAL = 27, /* bytes that are no block or no hand, entries that are no lines of a hand */
    PEATCLOAK_NOT_KEPT = 28     /* a hand that has no key, or more entries than fit */
};

/* out (4): PEATCLOAK_VERSION, PEATCLOAK_LAYOUT, PEATCLOAK_FLOATS and PEATCLOAK_NUMBERS of the library that is linked.
 * Where they are not this header's, header and library do not go together. 0, or 19 where out is shorter. */
uint32_t peatcloak_version(uint32_t *out, size_t out_len);

/* The seat to act bets; is_forced: 0 no, other yes. */
uint32_t peatcloak_do_bet(float *floats, size_t floats_len, uint32_t *numbers, size_t numbers_len, float amount,
                          uint32_t is_forced);

/* The seat to act folds. */
uint32_t peatcloak_fold(float *floats, size_t floats_len, uint32_t *numbers, size_t numbers_len);

/* The next round; at Complete nothing changes. */
uint32_t peatcloak_advance_round(float *floats, size_t floats_len, uint32_t *numbers, size_t numbers_len);

/* The hand is ended. */
uint32_t peatcloak_complete(float *floats, size_t floats_len, uint32_t *numbers, size_t numbers_len);

/* Chips to a seat; the pot stays. */
uint32_t peatcloak_award(float *floats, size_t floats_len, uint32_t *numbers, size_t numbers_len, uint32_t player_idx,
                         float amount);

/* out[0]: the seat's stack less its starting stack. */
uint32_t peatcloak_player_reward(const float *floats, size_t floats_len, const uint32_t *numbers, size_t numbers_len,
                                 uint32_t player_idx, float *out, size_t out_len);

/* All queries at once.
 * amounts (6): current_player_stack, current_player_starting_stack, current_round_current_player_bet,
 *   current_round_bet, current_round_player_bet of player_idx, current_round_min_raise
 * answers (7): is_raise_capped, num_active_players, num_all_in_players, is_complete, to_act_idx,
 *   current_round_num_active_players, whether the table is sound */
uint32_t peatcloak_queries(const float *floats, size_t floats_len, const uint32_t *numbers, size_t numbers_len,
                           uint32_t player_idx, float *amounts, size_t amounts_len, uint32_t *answers,
                           size_t answers_len);

/* Makes a table. Lists are of any length, given with their true one. amounts (PEATCLOAK_AMOUNTS) has its places under
 * enum peatcloak_amount, given (PEATCLOAK_GIVEN) under enum peatcloak_given. Round data, where given, is what stands at
 * the round's places of floats and numbers before the call; every one of the numbers must then be in its range. The key
 * is what stands under PEATCLOAK_GIVEN_KEY_CODE, _YEAR and _HAND where PEATCLOAK_GIVEN_KEY is 1, and none where it is 0,
 * whatever the numbers hold before the call: the next hand may be built over the last. 19 for year 0 beside a code or a
 * hand, after every other refusal. No place from PEATCLOAK_FREE on is written: a host sets the numbers to 0 before its
 * first build. */
uint32_t peatcloak_build(float *floats, size_t floats_len, uint32_t *numbers, size_t numbers_len, const float *stacks,
                         size_t stacks_len, const float *player_bet, size_t player_bet_len, const uint8_t *board,
                         size_t board_len, const float *amounts, size_t amounts_len, const uint32_t *given,
                         size_t given_len);

/* Pays the pot out by PEATCLOAK_SEATS ranks, higher is better; as many rewards are each seat's stack less its starting
 * stack. Odd chips go one each to a layer's winners in order from the first seat after the dealer (since 2.1.0). */
uint32_t peatcloak_settle(float *floats, size_t floats_len, uint32_t *numbers, size_t numbers_len,
                          const uint16_t *ranks, size_t ranks_len, int32_t *rewards, size_t rewards_len);

/* What a script of documents 01 and 02 prints from its start, as many whole lines as out is sure to hold (72 bytes for
 * each); answers the bytes written. */
size_t peatcloak_play(const uint8_t *script, size_t script_len, uint8_t *out, size_t out_len);

/* The table that stands at a script's end, laid as a build lays one, with the key that it carries (since 2.2.0). A line
 * that is refused is passed over, as in peatcloak_play. 19 where a list is too short, then 26 for a script of more than
 * 65,536 bytes, then 25 where no table stands at its end. */
uint32_t peatcloak_play_table(float *floats, size_t floats_len, uint32_t *numbers, size_t numbers_len,
                              const uint8_t *script, size_t script_len);

/* ---- Sets of seats and round data alone */

/* Sets of seats. These four answer the set (get: 0 or 1) and 65536 times the refusal number. */
uint32_t peatcloak_seats_new(uint32_t players);
uint32_t peatcloak_seats_enable(uint16_t set, uint32_t idx);
uint32_t peatcloak_seats_disable(uint16_t set, uint32_t idx);
uint32_t peatcloak_seats_get(uint16_t set, uint32_t idx);
uint32_t peatcloak_seats_count(uint16_t set);
uint32_t peatcloak_seats_empty(uint16_t set);
/* The first seat at or above from, PEATCLOAK_SEATS where there is none. */
uint32_t peatcloak_seats_next(uint16_t set, uint32_t from);
uint16_t peatcloak_seats_or(uint16_t a, uint16_t b);
uint16_t peatcloak_seats_and(uint16_t a, uint16_t b);

/* Round data alone, at the round's places of floats and numbers; the others are not looked at. What makes round data
 * does not look at the round's places either. */
uint32_t peatcloak_round_new(float *floats, size_t floats_len, uint32_t *numbers, size_t numbers_len,
                             uint32_t num_players, float min_raise, uint16_t active, uint32_t to_act);
uint32_t peatcloak_round_new_with_bets(float *floats, size_t floats_len, uint32_t *numbers, size_t numbers_len,
                                       float min_raise, uint16_t active, uint32_t to_act, const float *bets,
                                       size_t bets_len);
/* The place PEATCLOAK_PASSED tells the seats passed to. */
uint32_t peatcloak_round_advance_action(float *floats, size_t floats_len, uint32_t *numbers, size_t numbers_len);
uint32_t peatcloak_round_do_bet(float *floats, size_t floats_len, uint32_t *numbers, size_t numbers_len, float extra,
                                uint32_t is_forced);
/* amounts (1): current_player_bet, 0 where it is refused; answers (3): num_players_need_action, is_action_unopened,
 * the refusal number of current_player_bet */
uint32_t peatcloak_round_queries(const float *floats, size_t floats_len, const uint32_t *numbers, size_t numbers_len,
                                 float *amounts, size_t amounts_len, uint32_t *answers, size_t answers_len);

/* ---- The hand journal (since 2.3.0)
 *
 * A hand is its accepted script lines: a `t` first, then n, f, b, p, x and w, as document 01 has them. On a card it is
 * 1 to PEATCLOAK_HAND_BLOCKS blocks of PEATCLOAK_BLOCK bytes. A block holds up to PEATCLOAK_BLOCK_ENTRIES entries, and
 * each but the last is filled. A line is an entry for its letter and one for each of its numbers, and may go on in the
 * next block. A hand of the same title and lines is the same bytes, whoever writes it.
 *
 * On its way an entry is a number of 32 bits; a list of them is a tape. peatcloak_put_line lays a line onto a tape.
 *
 * To write a hand in whole: lay each line onto one tape (used begins at 0), then call peatcloak_write_hand.
 *
 * To write it block by block, with little memory: collect entries until a 121st is there, then lay a block of the
 * first PEATCLOAK_BLOCK_ENTRIES; the 121st begins the rest. A filled block is not laid sooner, for it may be the last.
 * As a line is laid in whole, the tape must hold a filled block and the longest line of a table: PEATCLOAK_TAPE. So lay
 * a line. While more than PEATCLOAK_BLOCK_ENTRIES are used, call peatcloak_write_block with all that are used as the
 * rest; it tells 1. Move those behind the first PEATCLOAK_BLOCK_ENTRIES to the front, and count the index up. When the
 * hand is over, one more call with what is left tells 0, and the hand is closed. A hand of more than
 * PEATCLOAK_HAND_ENTRIES entries shows late so: 28 comes when 254 of its blocks are laid, and they are no hand.
 *
 * To read a card: take blocks of PEATCLOAK_BLOCK bytes, ask peatcloak_read_block of each, and stop behind the one that
 * is the last of its hand, or behind PEATCLOAK_HAND_BLOCKS of them: then there is none, which is 27, as is a part of a
 * block at the end. Ask peatcloak_read_hand of all of them together, in one list: it looks at the order of the
 * blocks and at the lines. Then read line by line: at begins at 0, and goes on with the entry that peatcloak_line_at
 * tells, until the letter is 0. */

/* The bytes of a block, and the entries that fit into one. */
#define PEATCLOAK_BLOCK 512
#define PEATCLOAK_BLOCK_ENTRIES 120
/* The most blocks and entries of a hand. */
#define PEATCLOAK_HAND_BLOCKS 255
#define PEATCLOAK_HAND_ENTRIES 30600
/* The numbers of a line that are told, as many as a `t` with PEATCLOAK_SEATS stacks has. */
#define PEATCLOAK_LINE_NUMBERS 20
/* The entries of a tape for one block and one more line: 120, a letter and 20 numbers. */
#define PEATCLOAK_TAPE 141
/* The one edition that is known. */
#define PEATCLOAK_EDITION 1

/* Lays a line behind the used entries of a tape. out (1): how many are used then. 19 where out is empty; 27 for another
 * letter, or a count of numbers that its letter never has (t below 4, b and p not 1, n, f and x not 0; w any); 19 where
 * the tape has no room. A refusal writes nothing. */
uint32_t peatcloak_put_line(uint32_t *tape, size_t tape_len, size_t used, uint32_t letter, const uint16_t *numbers,
                            size_t numbers_len, uint32_t *out, size_t out_len);

/* Writes the blocks of a hand over the first bytes. title (4): code, year, hand, edition. tape: all entries of the
 * hand and no more. out (1): how many blocks. 19 where a list is too short, or a word of the title out of its range
 * (code and year below 65536, edition below 256); 27 for entries that are no hand, or an edition that is not known; 28
 * for year 0, or above PEATCLOAK_HAND_ENTRIES entries; 19 where bytes has too little room: then out[0] tells the blocks
 * that it needs. No byte is written but those of the blocks, and none where it is refused. */
uint32_t peatcloak_write_hand(const uint32_t *title, size_t title_len, const uint32_t *tape, size_t tape_len,
                              uint8_t *bytes, size_t bytes_len, uint32_t *out, size_t out_len);

/* Writes block index of a hand over the first PEATCLOAK_BLOCK bytes. rest: what is left of the hand's entries from this
 * block on. out (1): 1 where another block must follow, else 0. 19 as above, or for an index above 255; 27 where
 * nothing is left, for one of the first PEATCLOAK_BLOCK_ENTRIES entries that is none, or an edition that is not known;
 * 28 for year 0, or where the rest would go on above block 254; 19 where bytes is too short. A refusal writes nothing.
 * Whether the entries of all blocks together are the lines of a hand is asked by peatcloak_read_hand. */
uint32_t peatcloak_write_block(const uint32_t *title, size_t title_len, uint32_t index, const uint32_t *rest,
                               size_t rest_len, uint8_t *bytes, size_t bytes_len, uint32_t *out, size_t out_len);

/* What one block says of itself: exactly PEATCLOAK_BLOCK bytes. head (7): code, year, hand, edition, block within the
 * hand, whether it is the last (0, 1), entries used. 19, 27. */
uint32_t peatcloak_read_block(const uint8_t *bytes, size_t bytes_len, uint32_t *head, size_t head_len);

/* What the blocks of one hand say: exactly its bytes. head (6): code, year, hand, edition, blocks, entries. 19, 27. */
uint32_t peatcloak_read_hand(const uint8_t *bytes, size_t bytes_len, uint32_t *head, size_t head_len);

/* The line of a hand whose letter is entry at. line (3): letter, count of numbers, the entry after it; numbers
 * (PEATCLOAK_LINE_NUMBERS): the first of them, and zeros. At the end letter 0, no numbers, and at itself. Entries and
 * places are told by their lowest 32 bits. It looks at these entries, and at byte 10 of the last block for their
 * count, and not at whether they are a hand: ask peatcloak_read_hand first. 19. */
uint32_t peatcloak_line_at(const uint8_t *bytes, size_t bytes_len, size_t at, uint32_t *line, size_t line_len,
                           uint16_t *numbers, size_t numbers_len);

/* Plays a hand again, line by line from no table, and lays the table that it leads to, with the hand's key. out (1):
 * how many lines were played. 19 where a list is too short; 27 for bytes that are no hand; else the number of the first
 * line that is refused: then out[0] tells which, counted from 0, and nothing else is written. */
uint32_t peatcloak_replay_hand(float *floats, size_t floats_len, uint32_t *numbers, size_t numbers_len,
                               const uint8_t *bytes, size_t bytes_len, uint32_t *out, size_t out_len);

#ifdef __cplusplus
}
#endif

#endif
