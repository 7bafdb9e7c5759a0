//! The refusals of documents 01 and 02, those of the Rust under its names. They carry no values: a refusal is its number.

use std::error::Error;
use std::fmt;

macro_rules! refusals {
    ($(#[$about:meta])* $name:ident { $($variant:ident = $number:literal,)* }) => {
        $(#[$about])*
        #[derive(Debug, Clone, Copy, PartialEq, Eq, Hash)]
        #[non_exhaustive]
        pub enum $name { $(#[doc = concat!("Refusal ", $number, ".")] $variant = $number,)* }

        impl $name {
            /// Its number.
            pub fn number(self) -> u32 {
                self as u32
            }

            pub(crate) fn of(number: u32) -> Self {
                match number {
                    $($number => Self::$variant,)*
                    _ => unreachable!("{number} is no refusal of this call"),
                }
            }
        }

        impl fmt::Display for $name {
            fn fmt(&self, f: &mut fmt::Formatter<'_>) -> fmt::Result {
                write!(f, "{self:?} ({})", self.number())
            }
        }

        impl Error for $name {}
    };
}

refusals! {
    /// Why a table was not built.
    GameStateBuilderError {
        MissingStacks = 1,
        MissingBigBlind = 2,
        InvalidPlayerCount = 3,
        InvalidDealerIndex = 4,
        InvalidBigBlind = 5,
        InvalidSmallBlind = 6,
        InvalidAnte = 7,
        InvalidStack = 8,
        InsufficientActivePlayers = 9,
        HandsLengthMismatch = 10,
        PlayerBetLengthMismatch = 11,
        InvalidBoardSize = 12,
        DuplicateCard = 13,
        BadCard = 18,
        BadRecord = 19,
    }
}

refusals! {
    /// Why a step was not taken; the table is as it was.
    GameStateError {
        BetInvalidSize = 14,
        BetSizeDoesntCallSelf = 15,
        BetSizeDoesntCall = 16,
        RaiseSizeTooSmall = 17,
        BadCard = 18,
        BadRecord = 19,
        BadSeat = 20,
        CounterFull = 21,
        NobodyLeft = 22,
        NotWholeChips = 23,
        AlreadyPaid = 24,
    }
}

refusals! {
    /// Why a script leads to no table.
    ScriptError {
        BadLine = 25,
        ScriptTooLong = 26,
    }
}

refusals! {
    /// Why bytes are no hand, or a hand was not written.
    JournalError {
        BadJournal = 27,
        NotKept = 28,
    }
}

refusals! {
    /// Why a set was not made or changed; the set is as it was.
    PlayerBitSetError {
        InvalidPlayerCount = 3,
        BadSeat = 20,
    }
}
