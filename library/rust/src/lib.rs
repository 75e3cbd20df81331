//! The ant world of the ICFP Programming Contest 2004 for Rust: safe calls of the proved library `libants.a`.
//!
//! You pass a text as anything that is bytes, such as a `&str` or what `fs::read` returns. A text is returned as a `String`: what the program `ants`
//! prints. No call has a condition that a caller in safe Rust could break, except what the head of `library/ants.h` says of the machine, the stack,
//! signal handlers and forked children.
//!
//! ```
//! let world = "6\n4\n######\n#+.3-#\n #.5..#\n######\n";
//! let game = ants::Game::new(world, "Move 1 0\nPickUp 0 0\n", "Flip 2 0 0\n");
//! for score in game.scores(&[12345, 7], 1000)? {
//!     println!("red {} black {}", score.red, score.black);
//! }
//! # Ok::<(), ants::Error>(())
//! ```
#![deny(unsafe_op_in_unsafe_fn, missing_docs)]

pub mod raw;

pub use raw::{kind, Fault, Score};
use std::alloc::{alloc_zeroed, Layout};
use std::fmt;
use std::io::Write;

/// Why a call has no result.
///
/// ```
/// let error = ants::minimise("Move 0 7\n").unwrap_err();
/// assert_eq!(error.to_string(), "brain: line 1: no such state 7");
/// let ants::Error::Refused { name, fault, .. } = error else { panic!("{error}") };
/// assert_eq!((name, fault.kind, fault.line, fault.number), ("brain", ants::kind::BRAIN_NO_SUCH_STATE, 1, 7));
/// ```
#[derive(Clone, Debug, PartialEq, Eq)]
#[non_exhaustive]
pub enum Error {
    /// A number is beyond its limits: rounds 0 to 1,000,000, width and height 3 to 512, rocks and blobs 0 to 255.
    Limit,
    /// A text is refused, or an element of a generated world has no room. It is displayed as the program's line, with the text's name for a file's.
    Refused {
        /// Which text, as the call's parameter is called, or the game's; empty if it is none.
        name: &'static str,
        /// The program's words.
        words: String,
        /// The same in numbers.
        fault: Fault,
    },
    /// The text has this many bytes, and fewer are allowed: [`MOST`], or for [`call_within`] what you say.
    TooLong(usize),
    /// Memory ran out.
    OutOfMemory,
    /// A word or the name of a file of a [`call`] has a line break.
    Unreadable,
    /// The `libants.a` that is linked is of this version, and this crate is of [`raw::VERSION`].
    OtherVersion(String),
}

impl fmt::Display for Error {
    fn fmt(&self, f: &mut fmt::Formatter<'_>) -> fmt::Result {
        match self {
            Error::Limit => f.write_str("a number is beyond its limits"),
            Error::Refused { name: "", words, .. } => f.write_str(words),
            Error::Refused { name, words, .. } => write!(f, "{name}: {words}"),
            Error::TooLong(length) => write!(f, "the text has {length} bytes, and fewer are allowed"),
            Error::OutOfMemory => f.write_str("out of memory"),
            Error::Unreadable => f.write_str("a line break in a word or a name"),
            Error::OtherVersion(version) => write!(f, "libants.a is of version {version}, and this crate of {}", raw::VERSION),
        }
    }
}

impl std::error::Error for Error {}

/// The two hills' brains on a world, as texts.
///
/// ```
/// let (world, red) = (ants::world(12345, 150, 150, 14, 11)?, String::from("Move 0 0\n"));
/// let game = ants::Game::new(&world, &red, b"Drop 0\n");
/// assert_eq!(game.score(7, 0)?, ants::Score { red: 0, black: 0 });
/// # Ok::<(), ants::Error>(())
/// ```
#[derive(Clone, Copy, Debug)]
pub struct Game<'a> {
    /// The world.
    pub world: &'a [u8],
    /// The brain of the red ants.
    pub red: &'a [u8],
    /// The brain of the black ants.
    pub black: &'a [u8],
}

/// Where two brains first differ. An answer is what an instruction comes to: met, or unmet if it names two states.
#[derive(Clone, Debug, PartialEq, Eq)]
pub struct Difference {
    /// After how many answers they differ.
    pub answers: u64,
    /// In which state the first brain is then.
    pub first_state: u32,
    /// Its instruction there.
    pub first: String,
    /// In which state the second brain is then.
    pub second_state: u32,
    /// Its instruction there.
    pub second: String,
}

/// A game after a round.
#[derive(Clone, Debug, PartialEq, Eq)]
pub struct Look {
    /// After which round.
    pub round: u32,
    /// The score.
    pub score: Score,
    /// The ants by their ids, `None` for a dead one.
    pub ants: Vec<Option<Ant>>,
}

/// A colour of ants.
#[derive(Clone, Copy, Debug, PartialEq, Eq, Hash)]
#[allow(missing_docs)]
pub enum Colour {
    Red,
    Black,
}

/// An ant that is alive.
#[derive(Clone, Copy, Debug, PartialEq, Eq, Hash)]
pub struct Ant {
    /// Its colour.
    pub colour: Colour,
    /// Its column, from 0.
    pub column: u16,
    /// Its row, from 0.
    pub row: u16,
    /// Its direction: 0 is east, 1 southeast, and so on clockwise to 5.
    pub direction: u8,
    /// Whether it carries food.
    pub laden: bool,
    /// The state of its colour's brain that it executes next.
    pub state: u32,
    /// How many turns it still rests.
    pub resting: u32,
}

impl Ant {
    /// The ant of a record, if it is alive.
    fn of(it: &raw::Ant) -> Option<Ant> {
        let raw::Ant { state, resting, column, row, alive, colour, direction, laden } = *it;
        let colour = if colour == 0 { Colour::Red } else { Colour::Black };
        (alive != 0).then_some(Ant { colour, column, row, direction, laden: laden != 0, state, resting })
    }
}

/// What came of a command.
#[derive(Clone, Debug, PartialEq, Eq)]
pub struct Called {
    /// The program's status.
    pub status: u32,
    /// What it printed.
    pub output: String,
    /// The line that says what is wrong, empty at status 0.
    pub fault: String,
    /// The same in numbers at status 2, 3 and 5, and otherwise `None`. At 2 `number` is the refused word, and at 3 the word that names a file that isn't
    /// there, both counted from 1.
    pub numbers: Option<Fault>,
}

/// How many bytes a text has at most: 268,435,456. Of a room of so many bytes, only those that are written take memory.
pub const MOST: usize = 1 << 28;

/// How many bytes a file may have.
const MOST_OF_FILE: usize = 1 << 22;

/// How many bytes a line has at most besides the name in it.
const REST_OF_LINE: usize = 256;

/// How many ants a world has at most.
const MOST_ANTS: usize = 1 << 14;

/// Whether the library is of this crate's version.
fn has_same_version() -> Result<(), Error> {
    let (mut out, mut used) = ([0; 64], 0);
    raw::ants_version(&mut out, &mut used);
    let version = &out[..used.min(out.len())];
    if version == raw::VERSION.as_bytes() {
        Ok(())
    } else {
        Err(Error::OtherVersion(String::from_utf8_lossy(version).into_owned()))
    }
}

/// An empty list with room for this many elements.
fn list<T>(count: usize) -> Result<Vec<T>, Error> {
    let mut list = Vec::new();
    list.try_reserve_exact(count).map_err(|_| Error::OutOfMemory)?;
    Ok(list)
}

/// A room of this many elements, all of them their type's default.
fn room<T: Default + Clone>(count: usize) -> Result<Vec<T>, Error> {
    let mut room = list(count)?;
    room.resize(count, T::default());
    Ok(room)
}

/// A room of this many bytes, at least 1. They are 0, and only those that are written take memory: a `Vec` can't be asked for such a room without the
/// process ending if it can't be had.
fn room_for_text(size: usize) -> Result<Vec<u8>, Error> {
    let size = size.max(1);
    let layout = Layout::array::<u8>(size).map_err(|_| Error::OutOfMemory)?;
    // Safety: the layout has at least 1 byte. The block, if there is one, is the allocator's, has this layout, and its bytes are initialised.
    unsafe {
        let block = alloc_zeroed(layout);
        if block.is_null() {
            return Err(Error::OutOfMemory);
        }
        Ok(Vec::from_raw_parts(block, size, size))
    }
}

/// The front of a room as text. The rest of the room is given back.
fn cut(mut room: Vec<u8>, used: usize) -> String {
    room.truncate(used);
    room.shrink_to_fit();
    String::from_utf8(room).unwrap_or_else(|error| String::from_utf8_lossy(error.as_bytes()).into_owned())
}

/// A refusal of the text of this place among these names, whose words end this text.
fn refused(names: &[&'static str], fault: Fault, line: &str) -> Error {
    let name = (fault.text as usize).checked_sub(1).and_then(|at| names.get(at)).copied().unwrap_or("");
    let length = usize::try_from(fault.words).unwrap_or(usize::MAX);
    let words = &line.as_bytes()[line.len().saturating_sub(length)..];
    match list(words.len()) {
        Ok(mut copy) => {
            copy.extend_from_slice(words);
            Error::Refused { name, words: cut(copy, length), fault }
        }
        Err(error) => error,
    }
}

/// Calls a function that returns numbers of a game, with room for a fault and its words.
fn done(call: impl FnOnce(&mut Fault, &mut [u8]) -> u32) -> Result<(), Error> {
    has_same_version()?;
    let (mut fault, mut words) = (Fault::default(), [0; 1024]);
    match call(&mut fault, &mut words) {
        raw::DONE => Ok(()),
        raw::NUMBER => Err(Error::Limit),
        raw::REFUSED => {
            let length = usize::try_from(fault.words).map_or(words.len(), |it| it.min(words.len()));
            Err(refused(&Game::NAMES, fault, std::str::from_utf8(&words[..length]).unwrap_or("")))
        }
        _ => Err(Error::OutOfMemory),
    }
}

/// Words or names, as a line each.
#[derive(Default)]
struct Lines(Vec<u8>);

impl Lines {
    /// These words.
    fn of<'w>(words: impl IntoIterator<Item = &'w str>) -> Result<Lines, Error> {
        words.into_iter().try_fold(Lines::default(), Lines::word)
    }

    /// One more word.
    fn word(mut self, word: &str) -> Result<Lines, Error> {
        if word.contains('\n') {
            return Err(Error::Unreadable);
        }
        self.0.try_reserve(word.len() + 1).map_err(|_| Error::OutOfMemory)?;
        self.0.extend_from_slice(word.as_bytes());
        self.0.push(b'\n');
        Ok(self)
    }

    /// A number, and this byte after it.
    fn number(mut self, number: u32, end: u8) -> Result<Lines, Error> {
        self.0.try_reserve(11).map_err(|_| Error::OutOfMemory)?;
        write!(self.0, "{number}").map_err(|_| Error::OutOfMemory)?;
        self.0.push(end);
        Ok(self)
    }

    /// An option with its number.
    fn option(self, name: &str, number: u32) -> Result<Lines, Error> {
        self.word(name)?.number(number, b'\n')
    }

    /// The option for dumps after these rounds, of which none comes after the last one.
    fn dumps(self, dumps: &[u32], rounds: u32) -> Result<Lines, Error> {
        let mut chosen = dumps.iter().filter(|it| **it <= rounds).peekable();
        let mut lines = self.word("--dump")?;
        if chosen.peek().is_none() {
            return lines.word("none");
        }
        while let Some(round) = chosen.next() {
            lines = lines.number(*round, if chosen.peek().is_some() { b',' } else { b'\n' })?;
        }
        Ok(lines)
    }

    /// Runs the program with these words over these files. What it prints has at most this many bytes.
    fn call(self, files: &[(&str, &[u8])], most: usize) -> Result<Called, Error> {
        has_same_version()?;
        let names = Lines::of(files.iter().map(|it| it.0))?;
        let texts = files.iter().map(|it| &it.1[..it.1.len().min(MOST_OF_FILE + 1)]); // a longer one is as wrong
        let (mut sizes, mut bytes) = (list(files.len())?, list(texts.clone().map(<[u8]>::len).sum())?);
        for text in texts {
            sizes.push(text.len() as u32);
            bytes.extend_from_slice(text);
        }
        let (mut out, mut line) = (room_for_text(most)?, room(self.0.len() + REST_OF_LINE)?);
        let (mut used, mut told, mut fault) = (0, 0, Fault::default());
        let allowed = &mut out[..most];
        match raw::ants_call(&self.0, &names.0, &sizes, &bytes, allowed, &mut used, &mut line, &mut told, &mut fault) {
            raw::NO_ROOM => Err(Error::TooLong(used)),
            raw::UNREADABLE => Err(Error::Unreadable),
            raw::MEMORY => Err(Error::OutOfMemory),
            status => Ok(Called { status, output: cut(out, used), fault: cut(line, told), numbers: (status != raw::DONE).then_some(fault) }),
        }
    }

    /// What the program prints with these words over the texts of these names.
    fn output<const N: usize>(self, texts: [(&'static str, &[u8]); N]) -> Result<String, Error> {
        let called = self.call(&texts, MOST)?;
        match (called.status, called.numbers) {
            (raw::DONE, _) => Ok(called.output),
            (raw::REFUSED, Some(fault)) => Err(refused(&texts.map(|it| it.0), fault, called.fault.trim_end_matches('\n'))),
            _ => Err(Error::Limit),
        }
    }
}

impl<'a> Game<'a> {
    const NAMES: [&'static str; 3] = ["world", "red", "black"];

    /// The game of these texts.
    pub fn new<W, R, B>(world: &'a W, red: &'a R, black: &'a B) -> Game<'a>
    where
        W: AsRef<[u8]> + ?Sized,
        R: AsRef<[u8]> + ?Sized,
        B: AsRef<[u8]> + ?Sized,
    {
        Game { world: world.as_ref(), red: red.as_ref(), black: black.as_ref() }
    }

    /// The score after this number of rounds.
    ///
    /// ```
    /// let game = ants::Game::new("3\n3\n###\n#+#\n###\n", "Drop 0\n", "Drop 0\n");
    /// assert_eq!(game.score(12345, 10)?, ants::Score { red: 0, black: 0 });
    /// # Ok::<(), ants::Error>(())
    /// ```
    pub fn score(self, seed: u32, rounds: u32) -> Result<Score, Error> {
        let mut score = Score::default();
        done(|fault, words| raw::ants_score(self.world, self.red, self.black, seed, rounds, &mut score, fault, words))?;
        Ok(score)
    }

    /// The score of a game for each of these seeds; the texts are read once.
    ///
    /// ```
    /// let game = ants::Game::new("3\n3\n###\n#+#\n###\n", "Drop 0\n", "Drop 0\n");
    /// assert_eq!(game.scores(&[1, 2, 3], 10)?, [ants::Score { red: 0, black: 0 }; 3]);
    /// # Ok::<(), ants::Error>(())
    /// ```
    pub fn scores(self, seeds: &[u32], rounds: u32) -> Result<Vec<Score>, Error> {
        let mut scores = room(seeds.len())?;
        done(|fault, words| raw::ants_scores(self.world, self.red, self.black, seeds, rounds, &mut scores, fault, words))?;
        Ok(scores)
    }

    /// The score and the ants after each of these rounds, in rising order; a round that is given twice is looked at once.
    ///
    /// ```
    /// let game = ants::Game::new("5\n3\n#####\n#+.-#\n#####\n", "Move 0 0\n", "Drop 0\n");
    /// let looks = game.look(7, &[0, 15])?;
    /// let columns = looks.iter().map(|it| it.ants[0].map(|ant| ant.column));
    /// assert_eq!(columns.collect::<Vec<_>>(), [Some(1), Some(2)]);
    /// # Ok::<(), ants::Error>(())
    /// ```
    pub fn look(self, seed: u32, rounds: &[u32]) -> Result<Vec<Look>, Error> {
        let mut after = list(rounds.len())?;
        after.extend_from_slice(rounds);
        after.sort_unstable();
        after.dedup();
        let hills = self.world.iter().filter(|it| matches!(it, b'+' | b'-')).count().min(MOST_ANTS);
        let (mut scores, mut ants, mut ids) = (room(after.len())?, room(after.len().saturating_mul(hills))?, 0);
        done(|fault, words| raw::ants_look(self.world, self.red, self.black, seed, &after, &mut scores, &mut ants, &mut ids, fault, words))?;
        let mut looks = list(after.len())?;
        for (at, (round, score)) in after.into_iter().zip(scores).enumerate() {
            let mut seen = list(ids)?;
            seen.extend(ants[at * ids..][..ids].iter().map(Ant::of));
            looks.push(Look { round, score, ants: seen });
        }
        Ok(looks)
    }

    /// What `ants run` prints, with a dump after each of these rounds.
    ///
    /// ```
    /// let game = ants::Game::new("3\n3\n###\n#+#\n###\n", "Drop 0\n", "Drop 0\n");
    /// assert_eq!(game.run(7, 0, &[1])?, "random seed: 7\n\nscore: red 0 black 0\n");
    /// # Ok::<(), ants::Error>(())
    /// ```
    pub fn run(self, seed: u32, rounds: u32, dumps: &[u32]) -> Result<String, Error> {
        self.words("run", seed, rounds)?.dumps(dumps, rounds)?.output(self.texts())
    }

    /// The game as it is after this number of rounds, as `ants save` prints it.
    ///
    /// ```
    /// let game = ants::Game::new("3\n3\n###\n#+#\n###\n", "Drop 0\n", "Drop 0\n");
    /// assert!(game.save(7, 10)?.starts_with("ants save "));
    /// # Ok::<(), ants::Error>(())
    /// ```
    pub fn save(self, seed: u32, rounds: u32) -> Result<String, Error> {
        self.words("save", seed, rounds)?.output(self.texts())
    }

    /// The words of a command of this game.
    fn words(self, command: &str, seed: u32, rounds: u32) -> Result<Lines, Error> {
        Lines::of([command].into_iter().chain(Self::NAMES))?.option("--seed", seed)?.option("--rounds", rounds)
    }

    /// The texts by their names.
    fn texts(self) -> [(&'static str, &'a [u8]); 3] {
        [("world", self.world), ("red", self.red), ("black", self.black)]
    }
}

/// What `ants resume` prints of a saved game that goes on to this number of rounds in all.
///
/// ```
/// let game = ants::Game::new("3\n3\n###\n#+#\n###\n", "Drop 0\n", "Drop 0\n");
/// assert_eq!(ants::resume(game.save(7, 10)?, 20, &[])?, "\nscore: red 0 black 0\n");
/// # Ok::<(), ants::Error>(())
/// ```
pub fn resume(save: impl AsRef<[u8]>, rounds: u32, dumps: &[u32]) -> Result<String, Error> {
    Lines::of(["resume", "save"])?.option("--rounds", rounds)?.dumps(dumps, rounds)?.output([("save", save.as_ref())])
}

/// The canonical text of a brain.
///
/// ```
/// assert_eq!(ants::brain("flip 02 0 0 ; draws\n")?, "Flip 2 0 0\n");
/// # Ok::<(), ants::Error>(())
/// ```
pub fn brain(brain: impl AsRef<[u8]>) -> Result<String, Error> {
    Lines::of(["brain", "brain"])?.output([("brain", brain.as_ref())])
}

/// The canonical text of a brain with equivalent states merged: what `ants minimise` prints below its first line.
///
/// ```
/// assert_eq!(ants::minimise("Drop 1\nDrop 0\n")?, "Drop 0\n");
/// # Ok::<(), ants::Error>(())
/// ```
pub fn minimise(brain: impl AsRef<[u8]>) -> Result<String, Error> {
    let mut printed = Lines::of(["minimise", "brain"])?.output([("brain", brain.as_ref())])?;
    printed.drain(..printed.find('\n').map_or(0, |at| at + 1));
    Ok(printed)
}

/// The canonical text of the brain that a program with labels and blocks becomes.
///
/// ```
/// assert_eq!(ants::asm("on:\ndrop on\n")?, "Drop 0\n");
/// # Ok::<(), ants::Error>(())
/// ```
pub fn asm(program: impl AsRef<[u8]>) -> Result<String, Error> {
    Lines::of(["asm", "program"])?.output([("program", program.as_ref())])
}

/// Whether two brains are the same except for the numbers of their states.
///
/// ```
/// assert!(ants::same("Drop 0\n", "Drop 1\nDrop 0\n")?);
/// # Ok::<(), ants::Error>(())
/// ```
pub fn same(first: impl AsRef<[u8]>, second: impl AsRef<[u8]>) -> Result<bool, Error> {
    Ok(difference(first, second)?.is_none())
}

/// Where two brains first differ, or `None` if they are the same except for the numbers of their states.
///
/// ```
/// let found = ants::difference("Move 1 0\nDrop 0\n", "Move 1 0\nTurn Left 0\n")?.unwrap();
/// assert_eq!((found.answers, found.first_state, found.first.as_str()), (1, 1, "Drop 0"));
/// assert_eq!((found.second_state, found.second.as_str()), (1, "Turn Left 0"));
/// # Ok::<(), ants::Error>(())
/// ```
pub fn difference(first: impl AsRef<[u8]>, second: impl AsRef<[u8]>) -> Result<Option<Difference>, Error> {
    let printed = Lines::of(["same", "first", "second"])?.output([("first", first.as_ref()), ("second", second.as_ref())])?;
    Ok(if printed == "same\n" { None } else { Some(told(&printed).expect("three lines tell of a difference")) })
}

/// What the three lines of a difference tell.
fn told(lines: &str) -> Option<Difference> {
    let rest = lines.strip_prefix("different after ")?;
    let (answers, rest) = rest.split_once(" answers\nfirst ")?;
    let (first, second) = rest.strip_suffix('\n')?.split_once("\nsecond ")?;
    let ((first_state, first), (second_state, second)) = (first.split_once(": ")?, second.split_once(": ")?);
    Some(Difference {
        answers: answers.parse().ok()?,
        first_state: first_state.parse().ok()?,
        first: first.to_string(),
        second_state: second_state.parse().ok()?,
        second: second.to_string(),
    })
}

/// A world in the contest's manner, as `ants gen` prints it.
///
/// ```
/// assert!(ants::world(12345, 150, 150, 14, 11)?.starts_with("150\n150\n# # # "));
/// # Ok::<(), ants::Error>(())
/// ```
pub fn world(seed: u32, width: u32, height: u32, rocks: u32, blobs: u32) -> Result<String, Error> {
    let words = Lines::of(["gen"])?.number(seed, b'\n')?.option("--width", width)?.option("--height", height)?;
    words.option("--rocks", rocks)?.option("--blobs", blobs)?.output([])
}

/// Runs the program with these words, without its name, over these files by name; `-` is a name like any other.
///
/// Nothing is read from the machine: a file that isn't among these is one that can't be read, with status 3. `--far` is no option, and workers
/// play on this thread.
///
/// ```
/// let files: [(&str, &[u8]); 2] = [("a", b"Drop 0\n"), ("b", b"Drop 1\nMove 0 7\n")];
/// assert_eq!(ants::call(&["brain", "a"], &files)?.output, "Drop 0\n");
/// let called = ants::call(&["same", "a", "b"], &files)?;
/// assert_eq!((called.status, called.fault.as_str()), (5, "ants: b: line 2: no such state 7\n"));
/// let fault = called.numbers.unwrap();
/// assert_eq!((fault.text, fault.kind, fault.line, fault.number), (2, ants::kind::BRAIN_NO_SUCH_STATE, 2, 7));
/// # Ok::<(), ants::Error>(())
/// ```
pub fn call(words: &[&str], files: &[(&str, &[u8])]) -> Result<Called, Error> {
    call_within(MOST, words, files)
}

/// Runs the program as [`call`] does, and allows its output this many bytes. A longer one is [`Error::TooLong`].
///
/// ```
/// assert_eq!(ants::call_within(6, &["brain", "a"], &[("a", b"Drop 0\n")]), Err(ants::Error::TooLong(7)));
/// ```
pub fn call_within(most: usize, words: &[&str], files: &[(&str, &[u8])]) -> Result<Called, Error> {
    Lines::of(words.iter().copied())?.call(files, most)
}

#[cfg(test)]
mod tests {
    use super::*;

    #[test]
    fn another_version_is_reported() {
        assert_eq!(
            Error::OtherVersion("0.9.0".to_string()).to_string(),
            format!("libants.a is of version 0.9.0, and this crate of {}", raw::VERSION)
        );
    }
}
