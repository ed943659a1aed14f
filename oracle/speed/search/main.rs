//! The search's speed beside the Rust's: see ../run.

mod clock;
mod frames;
mod growth;
mod plot;
mod rows;
mod sides;

use cases::rng::Rng;
use growth::Point;
use rows::Measured;

/// Runs one side alone on one row for so many seconds.
fn alone(side: &str, row: usize, seconds: f64) {
    let mut rng = Rng::new(1);
    let given = frames::base(&mut rng);
    let row = rows::rows(&mut rng, &given, Some(row)).pop().expect("a row of that number");
    let start = clock::now();
    let mut runs = 0.0;
    while clock::now() - start < seconds {
        match side {
            "port" => drop(row.port()),
            _ => row.rust(),
        }
        runs += 1.0;
    }
    println!("{}, {side}: {:.2} ms", row.name, (clock::now() - start) / runs * 1e3);
}

/// Measures every row and prints each as it is done.
fn all_rows(count: usize) -> Vec<Measured> {
    let mut rng = Rng::new(1);
    let given = frames::base(&mut rng);
    println!("{}", rows::HEAD);
    let mut list = Vec::new();
    for row in rows::rows(&mut rng, &given, None) {
        let measured = row.measure(count);
        println!("{}", measured.line());
        list.push(measured);
    }
    list
}

/// Measures both growth curves and prints them.
fn all_growth(count: usize) -> (Vec<Point>, Vec<Point>) {
    let mut rng = Rng::new(2);
    let given = frames::base(&mut rng);
    let combinations = growth::combinations(&mut rng, &given, count);
    println!("\n| combinations | port, ns each | Rust, ns each | ratio |\n|---:|---:|---:|---:|");
    combinations.iter().for_each(|p| println!("| {} | {:.1} | {:.1} | {:.3} |", p.much, p.port, p.rust, p.port / p.rust));
    let slots = growth::slots(&mut rng, &given, count);
    println!("\n| slots | port, ns a read | Rust, ns a read | ratio | plain random reads, ns | each waiting for the last, ns | port / plain |\n|---:|---:|---:|---:|---:|---:|---:|");
    for p in &slots {
        let [apart, chained] = p.plain;
        println!(
            "| 2^{} | {:.2} | {:.2} | {:.3} | {apart:.2} | {chained:.2} | {:.1} |",
            p.much.ilog2(),
            p.port,
            p.rust,
            p.port / p.rust,
            p.port / apart
        );
    }
    (combinations, slots)
}

/// Does what the words ask for.
fn main() {
    let words: Vec<String> = std::env::args().skip(1).collect();
    if let [side, row, seconds] = words.as_slice() {
        return alone(side, row.parse().expect("a number"), seconds.parse().expect("a number"));
    }
    let says = |word: &str| words.iter().any(|one| one == word);
    let (quick, all) = (says("quick"), !says("rows") && !says("growth"));
    let count = if quick { 1 } else { 5 };
    let rows = if all || says("rows") { all_rows(count) } else { Vec::new() };
    if all || says("growth") {
        let (combinations, slots) = all_growth(count);
        if all {
            let beside = std::env::current_exe().expect("this program").with_file_name("speed.svg");
            let path = if quick { beside } else { "docs/speed.svg".into() };
            std::fs::write(path, plot::svg(&rows, &combinations, &slots)).expect("a folder to write to");
        }
    }
    std::process::exit(i32::from(!rows.iter().all(Measured::met)));
}
