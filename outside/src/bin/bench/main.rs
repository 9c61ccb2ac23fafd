//! Benchmarks: the proved library and the independent implementation by turns in one run, tables in and tables out, on the stored inputs
//! of `workloads/` and on inputs of growing size. CPU time, the best of many runs; answers are compared before anything is timed.
mod clock;
mod inputs;

use clock::best_of;
use inputs::{growing, stored, Input};
use skopelyne::compare::{ask_independent, ask_proved, Ask, Board};
use skopelyne::independent::{Engine, Independent};

/// Microseconds of one call: proved, independent, and for a merge the engine `recent`.
struct Times {
    proved: f64,
    plain: f64,
    recent: Option<f64>,
}

struct Contender {
    board: Board,
    twin: Option<(Independent, Engine)>,
}

impl Contender {
    fn new(engine: Option<Engine>) -> Contender {
        Contender { board: Board::new(-1), twin: engine.map(|e| (Independent::new(), e)) }
    }

    fn ask(&mut self, ask: &Ask) -> u8 {
        match &mut self.twin {
            None => ask_proved(ask, &mut self.board),
            Some((twin, engine)) => ask_independent(twin, *engine, ask, &mut self.board),
        }
    }
}

fn merges(ask: &Ask) -> bool {
    matches!(ask, Ask::Merge(..) | Ask::MergeText(_))
}

// Every contender gives the same answer, or the run ends.
fn check(input: &Input, contenders: &mut [Contender]) {
    let numbers: Vec<u8> = contenders
        .iter_mut()
        .map(|c| {
            c.board.lend(&input.ask, input.ask.usual_lengths());
            c.ask(&input.ask)
        })
        .collect();
    for (number, c) in numbers.iter().zip(&*contenders).skip(1) {
        if *number != numbers[0] || contenders[0].board.difference(&c.board).is_some() {
            println!("DIFFERENCE: {} of {}: the answers are not the same", input.ask.call(), input.name);
            std::process::exit(1);
        }
    }
}

fn timed(input: &Input) -> Times {
    let mut contenders = vec![Contender::new(None), Contender::new(Some(Engine::Plain))];
    if merges(&input.ask) {
        contenders.push(Contender::new(Some(Engine::Recent)));
    }
    check(input, &mut contenders);
    let mut turns: Vec<Box<dyn FnMut() + '_>> = Vec::new();
    for mut c in contenders {
        let ask = &input.ask;
        turns.push(Box::new(move || {
            std::hint::black_box(c.ask(std::hint::black_box(ask)));
        }));
    }
    let best = best_of(&mut turns);
    Times { proved: best[0], plain: best[1], recent: best.get(2).copied() }
}

fn micro(t: f64) -> String {
    match t {
        t if t < 10.0 => format!("{t:.2}"),
        t if t < 100.0 => format!("{t:.1}"),
        t => format!("{t:.0}"),
    }
}

fn or_none(t: Option<f64>) -> String {
    t.map_or("".into(), micro)
}

fn stored_table(inputs: &[Input]) {
    println!("## Stored inputs\n");
    println!("Microseconds of CPU time of one call, the best of many. Ratios: the proved library's time over the independent one's, whose calls");
    println!("other than merges have one way, told under plain.\n");
    println!("| Call | Input | Rows, planes | Proved | Independent: plain | recent | Ratio to plain | to recent |");
    println!("|---|---|---|---:|---:|---:|---:|---:|");
    for input in inputs {
        let t = timed(input);
        println!(
            "| {} | {} | {} | {} | {} | {} | {:.2} | {} |",
            input.ask.call(),
            input.name,
            input.size,
            micro(t.proved),
            micro(t.plain),
            or_none(t.recent),
            t.proved / t.plain,
            t.recent.map_or("".into(), |r| format!("{:.2}", t.proved / r)),
        );
    }
}

fn growing_table(inputs: &[Input]) {
    println!("\n## How cost grows\n");
    println!("Microseconds of CPU time of one call; each line's size is so many times the line before, and its time so many times.\n");
    println!("| Call | Input | Size | Proved | Independent: plain | recent | Size grows | Proved grows | Plain grows |");
    println!("|---|---|---:|---:|---:|---:|---:|---:|---:|");
    let mut before: Option<(&Input, Times)> = None;
    for input in inputs {
        let t = timed(input);
        let grown = match &before {
            Some((last, b)) if last.name == input.name && last.ask.call() == input.ask.call() => {
                format!("{:.1} | {:.1} | {:.1}", input.amount / last.amount, t.proved / b.proved, t.plain / b.plain)
            }
            _ => " | | ".into(),
        };
        let columns = [input.ask.call(), &input.name, &input.size, &micro(t.proved), &micro(t.plain), &or_none(t.recent)].join(" | ");
        println!("| {columns} | {grown} |");
        before = Some((input, t));
    }
}

fn main() {
    let stored = stored().unwrap_or_else(|fault| {
        eprintln!("{fault}");
        std::process::exit(2)
    });
    stored_table(&stored);
    growing_table(&growing(&stored));
}
