//! Runs each row of library/faults.txt, which the variable FAULTS names. The head of the file says what a row is.
use std::{env, fs};

/// The bytes of a text as it is written in a row, up to a closing brace or the end; what is left then.
fn text_of(mut written: &str) -> (Vec<u8>, &str) {
    let mut bytes = Vec::new();
    while let Some(first) = written.chars().next().filter(|it| *it != '}') {
        written = &written[1..];
        match first {
            '{' => {
                let (count, part) = written.split_once(' ').unwrap();
                let (text, rest) = text_of(part);
                (0..count.parse().unwrap()).for_each(|_| bytes.extend_from_slice(&text));
                written = &rest[1..];
            }
            '\\' if written.starts_with('x') => {
                bytes.push(u8::from_str_radix(&written[1..3], 16).unwrap());
                written = &written[3..];
            }
            '\\' => {
                bytes.push(b'\n');
                written = &written[1..];
            }
            other => bytes.push(other as u8),
        }
    }
    (bytes, written)
}

#[test]
fn refusals_have_the_numbers_of_the_table() {
    let table = fs::read_to_string(env::var("FAULTS").expect("FAULTS names the table")).unwrap();
    let lines: Vec<&str> = table.lines().filter(|it| !it.starts_with('#')).collect();
    let mut rows = 0;
    for row in lines.join("\n").split("\n\n").map(str::trim).filter(|it| !it.is_empty()) {
        let lines: Vec<&str> = row.lines().collect();
        let [words, files @ .., numbers, line] = &lines[..] else { panic!("{row}") };
        let words: Vec<&str> = words.split(' ').skip(2).collect();
        let given: Vec<_> = files.iter().map(|it| it.split_once(": ").unwrap()).map(|(name, text)| (name, text_of(text).0)).collect();
        let files: Vec<_> = given.iter().map(|(name, text)| (*name, text.as_slice())).collect();
        let numbers: Vec<u64> = numbers.split(' ').map(|it| it.parse().unwrap()).collect();
        let called = ants::call(&words, &files).unwrap();
        let fault = called.numbers.unwrap();
        let found = [called.status, fault.text, fault.kind, fault.line, fault.column].map(u64::from);
        assert_eq!((&found[..], fault.number), (&numbers[..5], numbers[5]), "{row}");
        assert_eq!((called.output.as_str(), called.fault.as_str()), ("", format!("{line}\n").as_str()), "{row}");
        let name = files.get((fault.text as usize).wrapping_sub(1)).map_or(String::new(), |it| format!("{}: ", it.0));
        let words = line.strip_prefix(&format!("ants: {name}")).unwrap();
        assert_eq!(fault.words, if fault.kind == 0 { 0 } else { words.len() as u64 }, "{row}");
        rows += 1;
    }
    assert!(rows > 60);
}
