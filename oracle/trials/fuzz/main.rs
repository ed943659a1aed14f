//! Hostile calls over the C interface: see ../run.

#[allow(dead_code)]
#[path = "../../../bindings/rust/src/raw.rs"]
mod raw;

mod fault;
mod guard;
mod hostile;
mod judge;
mod round;

use cases::given;
use cases::oracle::Case;
use cases::rng::Rng;
use round::{Arenas, Round};
use star_search::Pass;

/// The valid lendings that hostile ones are made from: four of each kind, and a frame of 256 spots.
fn bases() -> Vec<hostile::Lending> {
    let mut list: Vec<_> = (0..52).map(|seed| hostile::Lending::of(&given::case(seed).lent)).collect();
    let large = Case::new("large", given::large(&mut Rng::new(31)));
    list.push(hostile::Lending::of(&large.lent));
    list
}

/// One lending: valid or spoilt in up to three ways, now and then of the largest sizes.
fn lending(rng: &mut Rng, bases: &[hostile::Lending]) -> hostile::Lending {
    let mut lending = bases[rng.below(bases.len() as u64) as usize].clone();
    if rng.once_in(3_000) {
        lending.enlarge(rng);
    }
    for _ in 0..rng.pick(&[0, 0, 1, 1, 2, 3]) {
        lending.spoil(rng);
    }
    lending
}

/// Makes so many calls, then says how many of which kind.
fn main() {
    let words: Vec<String> = std::env::args().skip(1).collect();
    let [way, calls, seed] = [0, 1, 2].map(|at| words.get(at).expect("pages or heap, a number of calls, a seed").as_str());
    let (calls, seed): (u64, u64) = (calls.parse().expect("a number"), seed.parse().expect("a number"));
    fault::watch();
    let bases = bases();
    let mut arenas = Arenas::new(way == "pages");
    let mut tally = round::Tally::default();
    let mut number = seed << 32;
    while tally.calls() < calls && tally.wrong == 0 {
        number += 1;
        fault::LENDING.store(number, std::sync::atomic::Ordering::Relaxed);
        let mut rng = Rng::new(number);
        let lending = lending(&mut rng, &bases);
        Round { lending: &lending, rng, tally: &mut tally, number }.run(&mut arenas);
    }
    println!("{way}, seed {seed}: {} lendings, {tally}", number - (seed << 32));
    std::process::exit(i32::from(tally.wrong > 0));
}
