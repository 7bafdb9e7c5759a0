//! The boundary as it is: C functions of libpeatcloak.a. include/peatcloak.h says what each one does.
//!
//! Each pointer is followed by its length. Memory must be there, and what is written must overlap nothing else.
//! `library::check` tells whether the library that is linked is the one that `places` is of.

unsafe extern "C" {
    /// The version of the library and of its layout, and the sizes of floats and numbers, in 4 words.
    pub fn peatcloak_version(out: *mut u32, out_len: usize) -> u32;
    /// The seat to act bets; `is_forced` is 0 for no.
    pub fn peatcloak_do_bet(
        floats: *mut f32,
        floats_len: usize,
        numbers: *mut u32,
        numbers_len: usize,
        amount: f32,
        is_forced: u32,
    ) -> u32;
    /// The seat to act folds.
    pub fn peatcloak_fold(
        floats: *mut f32,
        floats_len: usize,
        numbers: *mut u32,
        numbers_len: usize,
    ) -> u32;
    /// The next round; at Complete nothing changes.
    pub fn peatcloak_advance_round(
        floats: *mut f32,
        floats_len: usize,
        numbers: *mut u32,
        numbers_len: usize,
    ) -> u32;
    /// The hand is ended.
    pub fn peatcloak_complete(
        floats: *mut f32,
        floats_len: usize,
        numbers: *mut u32,
        numbers_len: usize,
    ) -> u32;
    /// Chips to a seat; the pot stays.
    pub fn peatcloak_award(
        floats: *mut f32,
        floats_len: usize,
        numbers: *mut u32,
        numbers_len: usize,
        player_idx: u32,
        amount: f32,
    ) -> u32;
    /// A seat's stack less its starting stack, at the first place of `out`.
    pub fn peatcloak_player_reward(
        floats: *const f32,
        floats_len: usize,
        numbers: *const u32,
        numbers_len: usize,
        player_idx: u32,
        out: *mut f32,
        out_len: usize,
    ) -> u32;
    /// All queries at once: 6 amounts and 7 answers.
    pub fn peatcloak_queries(
        floats: *const f32,
        floats_len: usize,
        numbers: *const u32,
        numbers_len: usize,
        player_idx: u32,
        amounts: *mut f32,
        amounts_len: usize,
        answers: *mut u32,
        answers_len: usize,
    ) -> u32;
    /// Makes a table of the lists, the amounts, and the words that say what is given.
    pub fn peatcloak_build(
        floats: *mut f32,
        floats_len: usize,
        numbers: *mut u32,
        numbers_len: usize,
        stacks: *const f32,
        stacks_len: usize,
        player_bet: *const f32,
        player_bet_len: usize,
        board: *const u8,
        board_len: usize,
        amounts: *const f32,
        amounts_len: usize,
        given: *const u32,
        given_len: usize,
    ) -> u32;
    /// Pays the pot out by a rank for each of 16 seats; tells as many rewards.
    pub fn peatcloak_settle(
        floats: *mut f32,
        floats_len: usize,
        numbers: *mut u32,
        numbers_len: usize,
        ranks: *const u16,
        ranks_len: usize,
        rewards: *mut i32,
        rewards_len: usize,
    ) -> u32;
    /// What a script prints, as many lines as `out` is sure to hold at 72 bytes each; gives the bytes written.
    pub fn peatcloak_play(
        script: *const u8,
        script_len: usize,
        out: *mut u8,
        out_len: usize,
    ) -> usize;
    /// The table that a script leads to; 26 where it is too long, 25 where no table stands at its end.
    pub fn peatcloak_play_table(
        floats: *mut f32,
        floats_len: usize,
        numbers: *mut u32,
        numbers_len: usize,
        script: *const u8,
        script_len: usize,
    ) -> u32;

    /// Lays a line behind the used entries of a tape; `out` tells how many are used then.
    pub fn peatcloak_put_line(
        tape: *mut u32,
        tape_len: usize,
        used: usize,
        letter: u32,
        numbers: *const u16,
        numbers_len: usize,
        out: *mut u32,
        out_len: usize,
    ) -> u32;
    /// Writes the blocks of a hand: title (code, year, hand, edition) and all its entries; `out` tells the blocks.
    pub fn peatcloak_write_hand(
        title: *const u32,
        title_len: usize,
        tape: *const u32,
        tape_len: usize,
        bytes: *mut u8,
        bytes_len: usize,
        out: *mut u32,
        out_len: usize,
    ) -> u32;
    /// Writes one block from the entries that are left of a hand; `out` tells 1 where another must follow.
    pub fn peatcloak_write_block(
        title: *const u32,
        title_len: usize,
        index: u32,
        rest: *const u32,
        rest_len: usize,
        bytes: *mut u8,
        bytes_len: usize,
        out: *mut u32,
        out_len: usize,
    ) -> u32;
    /// What one block says of itself, in 7 words.
    pub fn peatcloak_read_block(
        bytes: *const u8,
        bytes_len: usize,
        head: *mut u32,
        head_len: usize,
    ) -> u32;
    /// What the blocks of one hand say, in 6 words.
    pub fn peatcloak_read_hand(
        bytes: *const u8,
        bytes_len: usize,
        head: *mut u32,
        head_len: usize,
    ) -> u32;
    /// The line of a hand whose letter is an entry: 3 words and 20 numbers.
    pub fn peatcloak_line_at(
        bytes: *const u8,
        bytes_len: usize,
        at: usize,
        line: *mut u32,
        line_len: usize,
        numbers: *mut u16,
        numbers_len: usize,
    ) -> u32;
    /// The table that a hand leads to when it is played again; `out` tells the lines that were played.
    pub fn peatcloak_replay_hand(
        floats: *mut f32,
        floats_len: usize,
        numbers: *mut u32,
        numbers_len: usize,
        bytes: *const u8,
        bytes_len: usize,
        out: *mut u32,
        out_len: usize,
    ) -> u32;

    /// The first seats, and 65536 times the refusal number.
    pub safe fn peatcloak_seats_new(players: u32) -> u32;
    /// The set with a seat, and 65536 times the refusal number.
    pub safe fn peatcloak_seats_enable(set: u16, idx: u32) -> u32;
    /// The set without a seat, and 65536 times the refusal number.
    pub safe fn peatcloak_seats_disable(set: u16, idx: u32) -> u32;
    /// 1 where the seat is in it, and 65536 times the refusal number.
    pub safe fn peatcloak_seats_get(set: u16, idx: u32) -> u32;
    /// How many seats are in it.
    pub safe fn peatcloak_seats_count(set: u16) -> u32;
    /// 1 where nobody is in it.
    pub safe fn peatcloak_seats_empty(set: u16) -> u32;
    /// The first seat at or above `from`, 16 where there is none.
    pub safe fn peatcloak_seats_next(set: u16, from: u32) -> u32;
    /// The seats of either.
    pub safe fn peatcloak_seats_or(a: u16, b: u16) -> u16;
    /// The seats of both.
    pub safe fn peatcloak_seats_and(a: u16, b: u16) -> u16;

    /// Round data with no bets yet.
    pub fn peatcloak_round_new(
        floats: *mut f32,
        floats_len: usize,
        numbers: *mut u32,
        numbers_len: usize,
        num_players: u32,
        min_raise: f32,
        active: u16,
        to_act: u32,
    ) -> u32;
    /// Round data with these bets.
    pub fn peatcloak_round_new_with_bets(
        floats: *mut f32,
        floats_len: usize,
        numbers: *mut u32,
        numbers_len: usize,
        min_raise: f32,
        active: u16,
        to_act: u32,
        bets: *const f32,
        bets_len: usize,
    ) -> u32;
    /// The turn goes to the next seat that owes.
    pub fn peatcloak_round_advance_action(
        floats: *mut f32,
        floats_len: usize,
        numbers: *mut u32,
        numbers_len: usize,
    ) -> u32;
    /// The seat to act puts so much in.
    pub fn peatcloak_round_do_bet(
        floats: *mut f32,
        floats_len: usize,
        numbers: *mut u32,
        numbers_len: usize,
        extra: f32,
        is_forced: u32,
    ) -> u32;
    /// The queries of round data: 1 amount and 3 answers.
    pub fn peatcloak_round_queries(
        floats: *const f32,
        floats_len: usize,
        numbers: *const u32,
        numbers_len: usize,
        amounts: *mut f32,
        amounts_len: usize,
        answers: *mut u32,
        answers_len: usize,
    ) -> u32;
}
