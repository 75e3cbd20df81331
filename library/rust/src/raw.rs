//! The structs and functions of the library as `library/ants.h` has them; made of the same source by `make documents`.
//!
//! Each function hands on what a slice and a reference are, which is all that the library asks of a pointer. So it is safe.
#![allow(clippy::too_many_arguments)]

/// The version of this source and of the program: three numbers, followed by `-dev` between releases (this project's own).
pub const VERSION: &str = "1.2.0-dev";

/// Done.
pub const DONE: u32 = 0;
/// The words of a command, or the names and sizes of its files, can't be read.
pub const UNREADABLE: u32 = 1;
/// A number is outside its limits, or the words are not a command.
pub const NUMBER: u32 = 2;
/// The words of a command name a file that is missing.
pub const NO_FILE: u32 = 3;
/// The caller's room is too small.
pub const NO_ROOM: u32 = 4;
/// A text was refused, or an element of a generated world has no room.
pub const REFUSED: u32 = 5;
/// Out of memory.
pub const MEMORY: u32 = 6;

/// The kinds of faults.
pub mod kind {
    /// A text has more than 4,194,304 bytes.
    pub const TOO_LONG: u32 = 1;
    /// Bad width.
    pub const WORLD_BAD_WIDTH: u32 = 10;
    /// Bad height.
    pub const WORLD_BAD_HEIGHT: u32 = 11;
    /// A row is missing.
    pub const WORLD_MISSING_ROW: u32 = 12;
    /// A bad cell.
    pub const WORLD_BAD_CELL: u32 = 13;
    /// A row is short.
    pub const WORLD_SHORT_ROW: u32 = 14;
    /// A row is long.
    pub const WORLD_LONG_ROW: u32 = 15;
    /// A row more.
    pub const WORLD_EXTRA_ROW: u32 = 16;
    /// The rim is open.
    pub const WORLD_OPEN_RIM: u32 = 17;
    /// Too many ants.
    pub const WORLD_TOO_MANY_ANTS: u32 = 18;
    /// A bad byte.
    pub const BRAIN_BAD_BYTE: u32 = 20;
    /// An unknown word.
    pub const BRAIN_UNKNOWN_WORD: u32 = 21;
    /// A token is missing.
    pub const BRAIN_MISSING_TOKEN: u32 = 22;
    /// A bad number.
    pub const BRAIN_BAD_NUMBER: u32 = 23;
    /// A token more.
    pub const BRAIN_EXTRA_TOKEN: u32 = 24;
    /// Too many instructions.
    pub const BRAIN_TOO_MANY: u32 = 25;
    /// No instruction.
    pub const BRAIN_EMPTY: u32 = 26;
    /// No such state.
    pub const BRAIN_NO_SUCH_STATE: u32 = 27;
    /// A bad byte.
    pub const PROGRAM_BAD_BYTE: u32 = 30;
    /// An unknown word.
    pub const PROGRAM_UNKNOWN_WORD: u32 = 31;
    /// A token is missing.
    pub const PROGRAM_MISSING_TOKEN: u32 = 32;
    /// A bad number.
    pub const PROGRAM_BAD_NUMBER: u32 = 33;
    /// A token more.
    pub const PROGRAM_EXTRA_TOKEN: u32 = 34;
    /// A bad name.
    pub const PROGRAM_BAD_NAME: u32 = 35;
    /// Misplaced.
    pub const PROGRAM_MISPLACED: u32 = 36;
    /// A name is taken.
    pub const PROGRAM_TWICE: u32 = 37;
    /// No such block.
    pub const PROGRAM_NO_BLOCK: u32 = 38;
    /// A different number of labels.
    pub const PROGRAM_WRONG_COUNT: u32 = 39;
    /// Too many.
    pub const PROGRAM_TOO_MANY: u32 = 40;
    /// An empty block.
    pub const PROGRAM_EMPTY_BLOCK: u32 = 41;
    /// No instruction.
    pub const PROGRAM_EMPTY: u32 = 42;
    /// No such label.
    pub const PROGRAM_NO_LABEL: u32 = 43;
    /// A line isn't in its form.
    pub const SAVE_BAD_LINE: u32 = 50;
    /// No state of a game.
    pub const SAVE_BAD_STATE: u32 = 51;
    /// More rounds are done than were requested.
    pub const SAVE_ALREADY_AT: u32 = 52;
    /// An element of a world to be generated has no room.
    pub const NO_ROOM: u32 = 60;
    /// An unknown word.
    pub const BREAKS_UNKNOWN_WORD: u32 = 70;
    /// A token is missing.
    pub const BREAKS_MISSING_TOKEN: u32 = 71;
    /// A bad number.
    pub const BREAKS_BAD_NUMBER: u32 = 72;
    /// A token more.
    pub const BREAKS_EXTRA_TOKEN: u32 = 73;
    /// Too many breaks.
    pub const BREAKS_TOO_MANY: u32 = 74;
}

/// An ant: 16 bytes. For a dead ant all numbers are 0.
#[repr(C)]
#[derive(Clone, Copy, Debug, Default, PartialEq, Eq)]
pub struct Ant {
    /// The state of its colour's brain that it executes next.
    pub state: u32,
    /// How many turns it still rests.
    pub resting: u32,
    /// Its column, from 0.
    pub column: u16,
    /// Its row, from 0.
    pub row: u16,
    /// 1 if it is alive, otherwise 0.
    pub alive: u8,
    /// 0 for red, 1 for black.
    pub colour: u8,
    /// Its direction: 0 is east, 1 southeast, and so on clockwise to 5.
    pub direction: u8,
    /// 1 if it carries food, otherwise 0.
    pub laden: u8,
}

/// Why a text, a word or a call was refused, in numbers (this project's own). The kinds are those of [`kind`].
#[repr(C)]
#[derive(Clone, Copy, Debug, Default, PartialEq, Eq)]
pub struct Fault {
    /// Which text, counted from 1 in the order in which the texts are passed; for `ants_call` which
    /// file, in the order of the names. 0 if the fault is of no text.
    pub text: u32,
    /// The kind. 0 if a word of `ants_call` is at fault.
    pub kind: u32,
    /// The line, counted from 1, or the row of a world, counted from 0. 0 if the kind has neither.
    pub line: u32,
    /// The column of a world, counted from 0. 0 if the kind has none.
    pub column: u32,
    /// The number of ants (kind 18), the missing state (27), the round of the save (52), the element,
    /// counted from 0 (60), or the word, counted from 1 (kind 0). Otherwise 0.
    pub number: u64,
    /// The length of the fault's words, in bytes. 0 if a word of `ants_call` is at fault.
    pub words: u64,
}

/// The food on the cells of each colour's hill.
#[repr(C)]
#[derive(Clone, Copy, Debug, Default, PartialEq, Eq)]
pub struct Score {
    /// The food on the red hill.
    pub red: u32,
    /// The food on the black hill.
    pub black: u32,
}

/// Writes the version of the library to `out`: what the program's `--version` prints between `ants
/// ` and the LF (this project's own). The status is
/// - 0: `out` begins with the version;
/// - 4: the version is longer than `out`, which holds the front of it.
///
/// `used` is the length of the version in both cases, and the bytes of `out` beyond it are
/// unchanged. This function never changes, so a caller that was built for a different version can
/// call it before any other function.
pub fn ants_version(out: &mut [u8], used: &mut usize) -> u32 {
    unsafe { c::ants_version(out.as_mut_ptr(), out.len(), used) }
}

/// Plays a game by the contest's rules, turn after turn, and returns its score (the task's game
/// play). The status is
/// - 0: done; the score is that of the game of this world and these brains, after this number of
///   rounds with this seed;
/// - 2: there are more than 1,000,000 rounds;
/// - 5: a text is refused; the fault says which one, the first that is refused, and why, and its
///   words are written to `words`, as many bytes as have room;
/// - 6: out of memory.
///
/// The score is written at 0 only, the fault and the words at 5 only.
pub fn ants_score(world: &[u8], red: &[u8], black: &[u8], seed: u32, rounds: u32, score: &mut Score, fault: &mut Fault, words: &mut [u8]) -> u32 {
    unsafe {
        c::ants_score(
            world.as_ptr(),
            world.len(),
            red.as_ptr(),
            red.len(),
            black.as_ptr(),
            black.len(),
            seed,
            rounds,
            score,
            fault,
            words.as_mut_ptr(),
            words.len(),
        )
    }
}

/// Plays a game as `ants_score` does for each of the seeds, and reads the texts once (the task's
/// game play). The status is that of `ants_score`, or
/// - 4: there is room for fewer scores than there are seeds.
///
/// The scores are written at 0 only, in the order of the seeds; elements of `scores` beyond them are
/// unchanged. The fault and the words are written at 5 only. It takes memory for the scores and for
/// a copy of the world.
pub fn ants_scores(
    world: &[u8],
    red: &[u8],
    black: &[u8],
    seeds: &[u32],
    rounds: u32,
    scores: &mut [Score],
    fault: &mut Fault,
    words: &mut [u8],
) -> u32 {
    unsafe {
        c::ants_scores(
            world.as_ptr(),
            world.len(),
            red.as_ptr(),
            red.len(),
            black.as_ptr(),
            black.len(),
            seeds.as_ptr(),
            seeds.len(),
            rounds,
            scores.as_mut_ptr(),
            scores.len(),
            fault,
            words.as_mut_ptr(),
            words.len(),
        )
    }
}

/// Plays a game as `ants_score` does, and looks at it after each of the rounds (the task's game
/// play and biology). A look is the score, and an ant for each id of the game, in order. The ants
/// of a later round follow those of the round before it. The status is that of `ants_score`, or
/// - 2: a round isn't above the one before it, or is above 1,000,000;
/// - 4: there is room for fewer scores than there are rounds, or for fewer ants than all rounds have
///   together.
///
/// `ids` is the number of ants of one round; it is written at 0 and at 4. The scores and the ants
/// are written at 0 only; elements beyond them are unchanged. The fault and the words are written at
/// 5 only.
pub fn ants_look(
    world: &[u8],
    red: &[u8],
    black: &[u8],
    seed: u32,
    rounds: &[u32],
    scores: &mut [Score],
    ants: &mut [Ant],
    ids: &mut usize,
    fault: &mut Fault,
    words: &mut [u8],
) -> u32 {
    unsafe {
        c::ants_look(
            world.as_ptr(),
            world.len(),
            red.as_ptr(),
            red.len(),
            black.as_ptr(),
            black.len(),
            seed,
            rounds.as_ptr(),
            rounds.len(),
            scores.as_mut_ptr(),
            scores.len(),
            ants.as_mut_ptr(),
            ants.len(),
            ids,
            fault,
            words.as_mut_ptr(),
            words.len(),
        )
    }
}

/// Runs a command of the program over files that you pass (this project's own). `words` has a line
/// for each word of the command line, without the program's name. `names` has a line for each file,
/// and `-` is a name like any other. `sizes` has the length of each file, and `bytes` has the files
/// one after another, in the order of the names. If two files have the same name, the first one is
/// used. `--far` is not an option. The call writes the program's output to `out`, and the line that
/// says what is wrong to `said`. The status is the program's own:
/// - 0: done; nothing is wrong, so there is no line;
/// - 2: the words are not a command; the fault's `number` is the first refused word, counted from
///   1, or one more than there are words if some are missing;
/// - 3: the words name a file that is not among `names`; the fault's `number` is the first word
///   that names it, counted from 1;
/// - 5: a file is refused, and the fault says which file and why; or an element of the world to be
///   generated has no room (kind 60);
/// - 6: out of memory.
///
/// Or the call itself fails:
/// - 1: the words or the names aren't UTF-8, the number of sizes isn't the number of names, or the
///   sizes don't add up to the length of `bytes`;
/// - 4: the output is longer than `out`, or the line is longer than `said`; both hold the part
///   that has room.
///
/// `used` is the length of the output and `told` the length of the line, at 4 too. The rest of
/// `out` and `said` is unchanged. The fault is written at 2, 3 and 5 only. At 5 its words are the
/// end of the line: the last `fault.words` bytes before the LF. At 1 nothing is written, nor at 6
/// if memory ran out before the command began. The call plays on the caller's thread, however many
/// workers the words name. It takes memory for a copy of each file while it is read, and for what
/// the command needs.
pub fn ants_call(
    words: &[u8],
    names: &[u8],
    sizes: &[u32],
    bytes: &[u8],
    out: &mut [u8],
    used: &mut usize,
    said: &mut [u8],
    told: &mut usize,
    fault: &mut Fault,
) -> u32 {
    unsafe {
        c::ants_call(
            words.as_ptr(),
            words.len(),
            names.as_ptr(),
            names.len(),
            sizes.as_ptr(),
            sizes.len(),
            bytes.as_ptr(),
            bytes.len(),
            out.as_mut_ptr(),
            out.len(),
            used,
            said.as_mut_ptr(),
            said.len(),
            told,
            fault,
        )
    }
}

mod c {
    use super::{Ant, Fault, Score};

    extern "C" {
        pub fn ants_version(out: *mut u8, out_len: usize, used: *mut usize) -> u32;
        pub fn ants_score(
            world: *const u8,
            world_len: usize,
            red: *const u8,
            red_len: usize,
            black: *const u8,
            black_len: usize,
            seed: u32,
            rounds: u32,
            score: *mut Score,
            fault: *mut Fault,
            words: *mut u8,
            words_len: usize,
        ) -> u32;
        pub fn ants_scores(
            world: *const u8,
            world_len: usize,
            red: *const u8,
            red_len: usize,
            black: *const u8,
            black_len: usize,
            seeds: *const u32,
            seeds_len: usize,
            rounds: u32,
            scores: *mut Score,
            scores_len: usize,
            fault: *mut Fault,
            words: *mut u8,
            words_len: usize,
        ) -> u32;
        pub fn ants_look(
            world: *const u8,
            world_len: usize,
            red: *const u8,
            red_len: usize,
            black: *const u8,
            black_len: usize,
            seed: u32,
            rounds: *const u32,
            rounds_len: usize,
            scores: *mut Score,
            scores_len: usize,
            ants: *mut Ant,
            ants_len: usize,
            ids: *mut usize,
            fault: *mut Fault,
            words: *mut u8,
            words_len: usize,
        ) -> u32;
        pub fn ants_call(
            words: *const u8,
            words_len: usize,
            names: *const u8,
            names_len: usize,
            sizes: *const u32,
            sizes_len: usize,
            bytes: *const u8,
            bytes_len: usize,
            out: *mut u8,
            out_len: usize,
            used: *mut usize,
            said: *mut u8,
            said_len: usize,
            told: *mut usize,
            fault: *mut Fault,
        ) -> u32;
    }
}
