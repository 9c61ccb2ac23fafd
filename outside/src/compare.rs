//! One question to either implementation, on tables lent with garbage in them: what differential runs and benchmarks share.
use crate::independent::{Engine, Independent};
use crate::lent::{self, Counts, Operand, Tables};
use crate::{LONGEST_TEXT, WORK};

/// The tables of a solid, lawful or not.
#[derive(Clone, PartialEq, Debug)]
pub struct Flat {
    pub planes: Vec<i64>,
    pub nodes: Vec<u16>,
    pub root: u16,
}

impl Flat {
    fn operand(&self) -> Operand<'_> {
        Operand { planes: &self.planes, nodes: &self.nodes, root: self.root }
    }
}

/// A call with its inputs.
#[derive(Clone, PartialEq, Debug)]
pub enum Ask {
    Read(Vec<u8>),
    Write(Flat),
    Point(Flat, [i64; 4]),
    Merge(u8, Flat, Flat),
    Normal(Flat),
    MergeText(Vec<u8>),
    NormalText(Vec<u8>),
    Section([i64; 4], Vec<i64>),
}

impl Ask {
    pub fn call(&self) -> &'static str {
        match self {
            Ask::Read(_) => "read",
            Ask::Write(_) => "write",
            Ask::Point(..) => "point",
            Ask::Merge(..) => "merge",
            Ask::Normal(_) => "normal",
            Ask::MergeText(_) => "merge_text",
            Ask::NormalText(_) => "normal_text",
            Ask::Section(..) => "section",
        }
    }

    /// Lengths that hold every answer to the call.
    pub fn usual_lengths(&self) -> Lengths {
        let none = Lengths { work: WORK, ..Lengths::default() };
        match self {
            Ask::Read(_) => Lengths { planes: 4 * 64, nodes: 3 * 1000, ..none },
            Ask::Merge(..) | Ask::Normal(_) => Lengths { planes: 4 * 128, nodes: 3 * 1000, ..none },
            Ask::Write(_) | Ask::MergeText(_) | Ask::NormalText(_) => Lengths { text: LONGEST_TEXT, ..none },
            Ask::Section(..) => Lengths { planes: 4 * 134, ..none },
            Ask::Point(..) => none,
        }
    }
}

/// Lengths of lent tables, in entries. A section's bounds are lent as planes.
#[derive(Clone, Copy, Debug, Default)]
pub struct Lengths {
    pub planes: usize,
    pub nodes: usize,
    pub text: usize,
    pub work: usize,
}

// Entries before and after each lent table, which no call may touch.
const GUARD: usize = 8;

/// A lent table between two guards, with its garbage.
pub struct Table<T> {
    all: Vec<T>,
    garbage: T,
}

impl<T: Copy + PartialEq + Default> Table<T> {
    fn new(garbage: T) -> Table<T> {
        Table { all: vec![], garbage }
    }

    fn lend(&mut self, length: usize) {
        self.all.clear();
        self.all.resize(length + 2 * GUARD, self.garbage);
    }

    pub fn inner(&self) -> &[T] {
        &self.all[GUARD..self.all.len() - GUARD]
    }

    fn inner_mut(&mut self) -> &mut [T] {
        let end = self.all.len() - GUARD;
        &mut self.all[GUARD..end]
    }

    fn guarded(&self) -> bool {
        let end = self.all.len() - GUARD;
        self.all[..GUARD].iter().chain(&self.all[end..]).all(|e| *e == self.garbage)
    }

    pub fn zeros(&self) -> bool {
        self.inner().iter().all(|e| *e == T::default())
    }
}

/// All tables and places lent to a call.
pub struct Board {
    pub planes: Table<i64>,
    pub nodes: Table<u16>,
    pub text: Table<u8>,
    pub work: Table<i64>,
    pub counts: Counts,
    pub count: usize,
    pub place: u8,
}

impl Board {
    pub fn new(garbage: i64) -> Board {
        Board {
            planes: Table::new(garbage),
            nodes: Table::new(garbage as u16),
            text: Table::new(garbage as u8),
            work: Table::new(garbage),
            counts: Counts::default(),
            count: 0,
            place: 0,
        }
    }

    /// Garbage in every table and in every place that the call is given; the other places stay 0.
    pub fn lend(&mut self, ask: &Ask, l: Lengths) {
        self.planes.lend(l.planes);
        self.nodes.lend(l.nodes);
        self.text.lend(l.text);
        self.work.lend(l.work);
        (self.counts, self.count, self.place) = Default::default();
        match ask {
            Ask::Read(_) | Ask::Merge(..) | Ask::Normal(_) => self.counts = Counts { planes: 77, nodes: 77, root: 77 },
            Ask::Point(..) => self.place = 77,
            _ => self.count = 77,
        }
    }

    pub fn guarded(&self) -> bool {
        self.planes.guarded() && self.nodes.guarded() && self.text.guarded() && self.work.guarded()
    }

    pub fn result_zeros(&self) -> bool {
        self.places() == Default::default() && self.planes.zeros() && self.nodes.zeros() && self.text.zeros()
    }

    pub fn places(&self) -> (Counts, usize, u8) {
        (self.counts, self.count, self.place)
    }

    /// What differs in what two boards were left with, the garbage beside the tables apart.
    pub fn difference(&self, other: &Board) -> Option<String> {
        let faults = [
            (self.places() == other.places(), format!("counts {:?} and {:?}", self.places(), other.places())),
            (self.planes.inner() == other.planes.inner(), "planes or bounds".into()),
            (self.nodes.inner() == other.nodes.inner(), "nodes".into()),
            (self.text.inner() == other.text.inner(), "text".into()),
            (self.work.inner() == other.work.inner(), "work table".into()),
        ];
        faults.into_iter().find(|(good, _)| !good).map(|(_, fault)| fault)
    }

    // Tables and counts for a solid, and the work table.
    fn solid(&mut self) -> (Tables<'_>, &mut [i64]) {
        let out = Tables { planes: self.planes.inner_mut(), nodes: self.nodes.inner_mut(), counts: &mut self.counts };
        (out, self.work.inner_mut())
    }

    fn written(&mut self) -> (&mut [u8], &mut [i64], &mut usize) {
        (self.text.inner_mut(), self.work.inner_mut(), &mut self.count)
    }

    fn bounds(&mut self) -> (&mut [i64], &mut [i64], &mut usize) {
        (self.planes.inner_mut(), self.work.inner_mut(), &mut self.count)
    }
}

/// Asks the proved library.
pub fn ask_proved(ask: &Ask, board: &mut Board) -> u8 {
    match ask {
        Ask::Read(text) => {
            let (out, work) = board.solid();
            lent::read(text, out, work)
        }
        Ask::Write(a) => {
            let (text, work, length) = board.written();
            lent::write(a.operand(), text, work, length)
        }
        Ask::Point(a, at) => lent::point(a.operand(), *at, board.work.inner_mut(), &mut board.place),
        Ask::Merge(op, a, b) => {
            let (out, work) = board.solid();
            lent::merge(*op, a.operand(), b.operand(), out, work)
        }
        Ask::Normal(a) => {
            let (out, work) = board.solid();
            lent::normal(a.operand(), out, work)
        }
        Ask::MergeText(text) => {
            let (out, work, length) = board.written();
            lent::merge_text(text, out, work, length)
        }
        Ask::NormalText(text) => {
            let (out, work, length) = board.written();
            lent::normal_text(text, out, work, length)
        }
        Ask::Section(s, halves) => {
            let (bounds, work, count) = board.bounds();
            lent::section(*s, halves, bounds, work, count)
        }
    }
}

/// Asks the independent implementation; the engine is a merge's.
pub fn ask_independent(twin: &mut Independent, engine: Engine, ask: &Ask, board: &mut Board) -> u8 {
    match ask {
        Ask::Read(text) => {
            let (out, work) = board.solid();
            twin.read(text, out, work)
        }
        Ask::Write(a) => {
            let (text, work, length) = board.written();
            twin.write(a.operand(), text, work, length)
        }
        Ask::Point(a, at) => twin.point(a.operand(), *at, board.work.inner_mut(), &mut board.place),
        Ask::Merge(op, a, b) => {
            let (out, work) = board.solid();
            twin.merge(engine, *op, a.operand(), b.operand(), out, work)
        }
        Ask::Normal(a) => {
            let (out, work) = board.solid();
            twin.normal(a.operand(), out, work)
        }
        Ask::MergeText(text) => {
            let (out, work, length) = board.written();
            twin.merge_text(engine, text, out, work, length)
        }
        Ask::NormalText(text) => {
            let (out, work, length) = board.written();
            twin.normal_text(text, out, work, length)
        }
        Ask::Section(s, halves) => {
            let (bounds, work, count) = board.bounds();
            twin.section(*s, halves, bounds, work, count)
        }
    }
}
