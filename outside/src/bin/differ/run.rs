//! One input to both implementations, on tables of different garbage, and the comparison.
use crate::asks::Input;
use skopelyne::compare::{ask_independent, ask_proved, Ask, Board, Lengths};
use skopelyne::independent::{Engine, Independent};

/// How many entries the answer has, by the independent implementation on tables of usual length.
pub fn need(twin: &mut Independent, ask: &Ask) -> Lengths {
    let mut board = Board::new(0);
    board.lend(ask, ask.usual_lengths());
    ask_independent(twin, Engine::Recent, ask, &mut board);
    let bounds = if matches!(ask, Ask::Section(..)) { board.count } else { board.counts.planes };
    Lengths { planes: 4 * bounds, nodes: 3 * board.counts.nodes, text: board.count, work: 0 }
}

pub struct Runner {
    twin: Independent,
    proved_board: Board,
    twin_board: Board,
}

impl Runner {
    pub fn new() -> Runner {
        let (one, other) = (0x5AA5_5AA5_5AA5_5AA5, -0x3CC3_3CC3_3CC3_3CC3);
        Runner { twin: Independent::new(), proved_board: Board::new(one), twin_board: Board::new(other) }
    }

    /// The number that both answer, or what differs.
    pub fn compare(&mut self, input: &Input) -> Result<u8, String> {
        let before = input.ask.clone();
        let (p, q) = (&mut self.proved_board, &mut self.twin_board);
        p.lend(&input.ask, input.lengths);
        q.lend(&input.ask, input.lengths);
        let number = ask_proved(&input.ask, p);
        let twin = &mut self.twin;
        let asked = std::panic::AssertUnwindSafe(|| ask_independent(twin, input.engine, &input.ask, q));
        let other = std::panic::catch_unwind(asked).map_err(|_| "the independent implementation panics")?;
        if number != other {
            return Err(format!("the proved library answers {number}, the independent implementation {other}"));
        }
        if let Some(difference) = p.difference(q) {
            return Err(difference);
        }
        // what both might have wrong
        let faults = [
            (p.work.zeros(), "the work table is not left zero"),
            (number == 0 || p.result_zeros(), "a refusal does not leave zeros"),
            (number <= 10, "a number that document 01 has not"),
            (p.guarded(), "entries beside a lent table are written"),
            (before == input.ask, "an operand is written"),
        ];
        match faults.into_iter().find(|(good, _)| !good) {
            None => Ok(number),
            Some((_, fault)) => Err(fault.into()),
        }
    }

    /// What kind of answer the last input had.
    pub fn answer(&self, input: &Input, number: u8) -> Option<&'static str> {
        let b = &self.proved_board;
        match input.ask {
            _ if number != 0 => None,
            Ask::Section(..) => Some(match b.count {
                0 => "answer: Nothing",
                1..=19 => "answer: 3 to 19 bounds",
                _ => "answer: 20 to 134 bounds",
            }),
            Ask::Merge(..) | Ask::Normal(_) => Some(match b.counts.nodes {
                0 => "answer: a mark",
                1..=99 => "answer: 1 to 99 rows",
                _ => "answer: 100 to 1,000 rows",
            }),
            Ask::Point(..) => Some(["", "answer: IN", "answer: OUT", "answer: ON"][b.place as usize % 4]),
            _ => None,
        }
    }
}
