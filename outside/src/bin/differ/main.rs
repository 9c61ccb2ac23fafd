//! Differential runs: random inputs for every call, to the proved library and to the independent implementation, with lent tables full of
//! different garbage. Answers, counts and every entry of every lent table are compared.
//!
//!     differ [COUNT [SEED]]        1,000,000 inputs, and the time as the seed
mod asks;
mod chance;
mod run;
mod shapes;

use asks::Maker;
use run::Runner;
use std::collections::BTreeMap;
use std::time::{SystemTime, UNIX_EPOCH};

const NUMBERS: usize = 11; // 0 for an answer, then the refusals

#[derive(Default)]
struct Tally {
    kinds: BTreeMap<&'static str, u64>,
    numbers: BTreeMap<&'static str, [u64; NUMBERS]>,
}

impl Tally {
    fn count(&mut self, kinds: &[&'static str], call: &'static str, number: u8) {
        kinds.iter().for_each(|k| *self.kinds.entry(k).or_default() += 1);
        self.numbers.entry(call).or_default()[number as usize % NUMBERS] += 1;
    }

    fn count_answer(&mut self, answer: Option<&'static str>) {
        answer.iter().for_each(|k| *self.kinds.entry(k).or_default() += 1);
    }

    fn print(&self) {
        println!("\nInputs of each kind:");
        self.kinds.iter().for_each(|(k, n)| println!("{n:>10}  {k}"));
        println!("\nAnswers of each call (0: none refused):");
        let heads: String = (0..NUMBERS).map(|k| format!("{k:>9}")).collect();
        println!("{:12}{heads}", "");
        for (call, row) in &self.numbers {
            println!("{call:12}{}", row.map(|n| format!("{n:>9}")).concat());
        }
    }
}

fn number_at(k: usize) -> Option<u64> {
    let word = std::env::args().nth(k)?;
    match word.parse() {
        Ok(n) => Some(n),
        Err(_) => {
            eprintln!("differ [COUNT [SEED]]: whole numbers");
            std::process::exit(2)
        }
    }
}

fn main() {
    let count = number_at(1).unwrap_or(1_000_000);
    let now = SystemTime::now().duration_since(UNIX_EPOCH).map_or(1, |t| t.as_nanos() as u64);
    let seed = number_at(2).unwrap_or(now);
    println!("seed {seed}, {count} inputs");
    let (mut maker, mut runner, mut tally) = (Maker::new(seed), Runner::new(), Tally::default());
    for i in 0..count {
        let input = maker.next();
        match runner.compare(&input) {
            Ok(number) => {
                tally.count(&input.kinds, input.ask.call(), number);
                tally.count_answer(runner.answer(&input, number));
            }
            Err(difference) => {
                println!("DIFFERENCE at input {i} of seed {seed}: {difference}\n{}", input.shown());
                std::process::exit(1);
            }
        }
    }
    tally.print();
    println!("\n{count} inputs, no difference");
}
