//! Answers a replay stream with the model. With a second file, compares line by line and stops at the first difference.

use model::replay::{split, Inputs};

/// The stream's lines, handed on record by record; stops when `keep` says so.
fn replay(stream: &[u8], mut keep: impl FnMut(&str) -> bool) {
    let mut inputs = Inputs::default();
    let mut rest = stream;
    let mut number = 0;
    while !rest.is_empty() {
        let mut lines = String::new();
        match split(rest) {
            Some((record, after)) => {
                inputs.take(&record, &mut lines);
                rest = after;
            }
            None => {
                lines = format!("stream {number}\n");
                rest = &[];
            }
        }
        if !keep(&lines) {
            return;
        }
        number += 1;
    }
}

/// Compares with the expected lines; true where all agree.
fn agrees(stream: &[u8], expected: &str) -> bool {
    let mut left = expected;
    let mut line = 1;
    let mut same = true;
    replay(stream, |lines| {
        for got in lines.split_inclusive('\n') {
            match left.strip_prefix(got) {
                Some(rest) => left = rest,
                None => {
                    println!("line {line}: expected {}, got {}", left.lines().next().unwrap_or("nothing"), got.trim_end());
                    same = false;
                    return false;
                }
            }
            line += 1;
        }
        true
    });
    if same && !left.is_empty() {
        println!("line {line}: expected {}, got nothing", left.lines().next().unwrap_or(""));
    }
    same && left.is_empty()
}

/// Prints the lines of the first file's stream, or compares them with the second file.
fn main() {
    let names: Vec<String> = std::env::args().skip(1).collect();
    let stream = std::fs::read(&names[0]).expect("a stream");
    match names.get(1) {
        None => replay(&stream, |lines| {
            print!("{lines}");
            true
        }),
        Some(name) => {
            let expected = std::fs::read_to_string(name).expect("expected lines");
            std::process::exit(i32::from(!agrees(&stream, &expected)));
        }
    }
}
