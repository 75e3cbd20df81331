//! Holds the crate against the program that PROGRAM names.
use ants::{Ant, Colour, Error, Game};
use std::{collections::BTreeMap, env, fs, path::PathBuf, process::Command};

const WORLD: &[u8] = b"6\n4\n######\n#+.3-#\n #.5..#\n######\n";
const RED: &[u8] = b"Move 1 0\nPickUp 0 0\n";
const BLACK: &[u8] = b"Flip 2 0 0\n";
const GAME: Game = Game { world: WORLD, red: RED, black: BLACK };

/// A folder with the texts of a game as files.
fn folder(name: &str) -> PathBuf {
    let folder = env::temp_dir().join(format!("ants-{}-{name}", std::process::id()));
    fs::create_dir_all(&folder).unwrap();
    for (name, text) in [("world", WORLD), ("red", RED), ("black", BLACK)] {
        fs::write(folder.join(name), text).unwrap();
    }
    folder
}

/// What the program writes for these words, in a folder of its own.
fn written(name: &str, words: &str) -> String {
    let folder = folder(name);
    let program = env::var("PROGRAM").expect("PROGRAM names the program");
    let ran = Command::new(program).args(words.split(' ')).current_dir(&folder).output().unwrap();
    fs::remove_dir_all(folder).unwrap();
    let text = if ran.status.success() { ran.stdout } else { ran.stderr };
    String::from_utf8(text).unwrap()
}

#[test]
fn games_are_those_of_the_program() {
    let printed = written("run", "run world red black --seed 7 --rounds 20 --dump 0,20");
    assert_eq!(GAME.run(7, 20, &[20, 0]).unwrap(), printed);
    let score = GAME.score(7, 20).unwrap();
    assert!(printed.ends_with(&format!("score: red {} black {}\n", score.red, score.black)));
    assert_eq!(GAME.scores(&[3, 7, 7], 20).unwrap()[1..], [score, score]);
    assert_eq!(GAME.scores(&[], 20).unwrap(), []);
}

/// The ant of a line of a dump, with its id.
fn ant_of(line: &str) -> Option<(usize, Ant)> {
    let (place, ant) = line.strip_prefix("cell (")?.split_once(" ant of id ")?;
    let (column, row) = place.split_once(')')?.0.split_once(", ")?;
    let colour = if place.ends_with("red") { Colour::Red } else { Colour::Black };
    let numbers: Vec<u32> = ant.split(", ").map(|it| it.rsplit(' ').next().unwrap().parse().unwrap()).collect();
    let [id, direction, food, state, resting] = numbers[..] else { panic!("{line}") };
    let (column, row) = (column.parse().unwrap(), row.parse().unwrap());
    Some((id as usize, Ant { colour, column, row, direction: direction as u8, laden: food == 1, state, resting }))
}

#[test]
fn looks_are_the_dumps_of_the_program() {
    let rounds = [40, 0, 7, 7, 33];
    let looks = GAME.look(7, &rounds).unwrap();
    assert_eq!(looks.iter().map(|it| it.round).collect::<Vec<_>>(), [0, 7, 33, 40]);
    for look in &looks {
        let printed = written("look", &format!("run world red black --seed 7 --rounds {0} --dump {0}", look.round));
        let living: BTreeMap<_, _> = printed.lines().filter_map(ant_of).collect();
        assert_eq!(look.ants, (0..2).map(|id| living.get(&id).copied()).collect::<Vec<_>>());
        assert!(printed.ends_with(&format!("score: red {} black {}\n", look.score.red, look.score.black)));
    }
    assert!(looks.iter().any(|it| it.ants[0].unwrap().laden));
    assert_eq!(GAME.look(7, &[]), Ok(vec![]));
    assert_eq!(GAME.look(7, &[3, 1_000_001]), Err(Error::Limit));
    assert_eq!(Game { red: b"", ..GAME }.look(7, &[3]).unwrap_err().to_string(), "red: no instruction");
}

#[test]
fn a_dead_ant_is_none() {
    let ambush = "7\n6\n#######\n#.....#\n#..-#.#\n#-.+-##\n#+.--##\n#######\n";
    let look = &Game::new(ambush, "Flip 2 0 0\n", "Move 0 0\n").look(12345, &[1]).unwrap()[0];
    assert_eq!((look.ants.len(), look.ants[2], look.score.red), (7, None, 3));
    assert!(look.ants.iter().enumerate().all(|(id, ant)| ant.is_some() == (id != 2)));
}

#[test]
fn a_saved_game_goes_on() {
    let saved = GAME.save(7, 10).unwrap();
    assert_eq!(saved, written("save", "save world red black --seed 7 --rounds 10"));
    let whole = GAME.run(7, 20, &[]).unwrap();
    assert_eq!(ants::resume(&saved, 20, &[]).unwrap().lines().last(), whole.lines().last());
}

#[test]
fn texts_are_those_of_the_program() {
    assert_eq!(ants::brain(RED).unwrap(), written("brain", "brain red"));
    assert_eq!(ants::minimise(RED).unwrap(), written("minimise", "minimise red").split_once('\n').unwrap().1);
    let found = ants::difference(RED, BLACK).unwrap().unwrap();
    let (first, second) = (format!("first {}: {}", found.first_state, found.first), format!("second {}: {}", found.second_state, found.second));
    assert_eq!(format!("different after {} answers\n{first}\n{second}\n", found.answers), written("same", "same red black"));
    assert!(!ants::same(RED, BLACK).unwrap());
    assert_eq!(ants::asm(b"on:\nMove on on\n").unwrap(), "Move 0 0\n");
    assert_eq!(ants::world(12345, 150, 150, 14, 11).unwrap(), written("gen", "gen 12345"));
}

#[test]
fn a_refusal_has_the_words_of_the_program() {
    let Err(Error::Refused { name, words, fault }) = ants::brain(WORLD) else { panic!("a world is no brain") };
    assert_eq!(format!("ants: world: {words}\n"), written("refused", "brain world"));
    assert_eq!((name, fault.text, fault.line), ("brain", 1, 1));
    assert_eq!(GAME.score(1, 1_000_001), Err(Error::Limit));
    let refused = Game { black: b"hop\n", ..GAME }.score(1, 1).unwrap_err();
    assert_eq!(refused.to_string(), "black: line 1: unknown word");
    assert_eq!(ants::world(1, 12, 12, 14, 11).unwrap_err().to_string(), "no room for element 0");
}

#[test]
fn commands_are_those_of_the_program() {
    let files = [("world", WORLD), ("red", RED), ("black", BLACK)];
    for line in [
        "show world 7",
        "run world red black --seed 7 --rounds 20 --dump 0,20 --workers 2",
        "cup --worlds world --brains red black --seed 7 --rounds 20 --games",
        "turn world",
        "brain none",
        "brain world",
    ] {
        let called = ants::call(&line.split(' ').collect::<Vec<_>>(), &files).unwrap();
        let text = if called.status == 0 { called.output } else { called.fault };
        assert_eq!(text, written("call", line), "{line}");
    }
    let far = ants::call(&["run", "world", "red", "black", "--far"], &files).unwrap();
    assert_eq!((far.status, far.output.as_str(), far.fault.as_str()), (2, "", "ants: word 5 refused\n"));
    assert_eq!(ants::call(&["brain", "a\nb"], &[]), Err(Error::Unreadable));
    assert_eq!(ants::call(&["brain", "a"], &[("a\nb", RED)]), Err(Error::Unreadable));
}

#[test]
fn a_text_has_no_more_bytes_than_are_allowed() {
    let game = [("world", WORLD), ("red", RED), ("black", BLACK)];
    let words: Vec<_> = "run world red black --seed 7 --rounds 0".split(' ').collect();
    let text = "random seed: 7\n\nscore: red 0 black 0\n";
    assert_eq!(ants::call_within(text.len(), &words, &game).unwrap().output, text);
    for most in [text.len() - 1, 0] {
        assert_eq!(ants::call_within(most, &words, &game), Err(Error::TooLong(text.len())));
    }
}

/// In a process that may have 200 MB the rooms of a call, of a large look and of many scores can't be had.
#[test]
fn rooms_that_cant_be_had_are_an_error() {
    if env::var_os("ANTS_FEW_BYTES").is_none() {
        let test = "ulimit -v 200000 && exec \"$0\" --exact rooms_that_cant_be_had_are_an_error";
        let ran = Command::new("sh").args(["-c", test]).arg(env::current_exe().unwrap()).env("ANTS_FEW_BYTES", "1").output().unwrap();
        return assert!(ran.status.success(), "{}{}", String::from_utf8_lossy(&ran.stdout), String::from_utf8_lossy(&ran.stderr));
    }
    let rounds: Vec<u32> = (0..1_000).collect();
    let game = Game { world: &[b'+'; 1 << 14], ..GAME };
    assert_eq!(game.look(7, &rounds), Err(Error::OutOfMemory));
    assert_eq!(GAME.scores(&vec![7; 20_000_000], 0), Err(Error::OutOfMemory));
    assert_eq!(ants::call(&["--version"], &[]), Err(Error::OutOfMemory));
    assert_eq!(GAME.run(7, 1, &[]), Err(Error::OutOfMemory));
    assert_eq!(ants::brain(RED), Err(Error::OutOfMemory));
    assert_eq!(ants::call_within(1 << 20, &["brain", "red"], &[("red", BLACK)]).unwrap().output.as_bytes(), BLACK);
    assert_eq!(GAME.look(7, &[0]).unwrap().len(), 1);
}
