//! Document 01 once more, in plain Rust without proofs: a twin of each call of the library, with the same tables in and the same tables
//! out. It shares no code with the library. Differential runs compare the two, and benchmarks time them side by side.
mod cells;
mod merge;
mod normal;
pub mod planes;
mod polygons;
pub mod solids;

use crate::lent::{Counts, Operand, Tables};
use merge::Merger;
use normal::Normaliser;
use planes::{point_ok, Plane, Point};
use polygons::Sectioner;
use solids::{is_mark, judge_lent, operation, read_merge, read_solid, text_length, write_solid, Rooms, Solid, IN};

const STATED: usize = 4096;
const MOST_HALVES: usize = 128;
const PROGRAM_ROOMS: Rooms = Rooms { planes: 128, nodes: 1000 };

/// How a merge asks whether a plane cuts a cell; the answers are the same.
#[derive(Clone, Copy, PartialEq, Eq, Debug)]
pub enum Engine {
    Plain,
    Recent,
}

/// What the calls keep between them, so that room is taken once.
pub struct Independent {
    plain: Merger<false>,
    recent: Merger<true>,
    normal: Normaliser<false>,
    sections: Sectioner,
}

impl Default for Independent {
    fn default() -> Self {
        Independent::new()
    }
}

impl Independent {
    pub fn new() -> Independent {
        Independent { plain: Merger::new(), recent: Merger::new(), normal: Normaliser::new(), sections: Sectioner::new() }
    }

    /// The merged tree, whatever its number of planes; or 8 for over 1,000 nodes.
    pub fn merged(&mut self, engine: Engine, op: solids::Operation, a: &Solid, b: &Solid) -> Result<Solid, u8> {
        match engine {
            Engine::Plain => self.plain.merge(op, a, b),
            Engine::Recent => self.recent.merge(op, a, b),
        }
    }

    pub fn formed(&mut self, s: &Solid) -> Result<Solid, u8> {
        self.normal.normal(s)
    }

    // ---- solids

    pub fn read(&mut self, text: &[u8], out: Tables, work: &mut [i64]) -> u8 {
        let rooms = rooms(&out);
        put_solid(with_work(work, || read_solid(text, rooms)), out)
    }

    pub fn write(&mut self, a: Operand, text: &mut [u8], work: &mut [i64], length: &mut usize) -> u8 {
        put_text(with_work(work, || judged(a)), text, length)
    }

    pub fn point(&mut self, a: Operand, at: Point, work: &mut [i64], place: &mut u8) -> u8 {
        let answer = with_work(work, || {
            let s = judged(a)?;
            if point_ok(&at) { Ok(placed(&s, &at)) } else { Err(10) }
        });
        *place = answer.unwrap_or(0);
        answer.err().unwrap_or(0)
    }

    pub fn merge(&mut self, engine: Engine, op: u8, a: Operand, b: Operand, out: Tables, work: &mut [i64]) -> u8 {
        let rooms = rooms(&out);
        let answer = with_work(work, || {
            let op = operation(op)?;
            let (a, b) = (judged(a)?, judged(b)?);
            fitted(self.merged(engine, op, &a, &b)?, rooms)
        });
        put_solid(answer, out)
    }

    pub fn normal(&mut self, a: Operand, out: Tables, work: &mut [i64]) -> u8 {
        let rooms = rooms(&out);
        put_solid(with_work(work, || fitted(self.formed(&judged(a)?)?, rooms)), out)
    }

    // ---- texts

    pub fn merge_text(&mut self, engine: Engine, text: &[u8], out: &mut [u8], work: &mut [i64], length: &mut usize) -> u8 {
        let answer = with_work(work, || {
            let (op, a, b) = read_merge(text)?;
            fitted(self.merged(engine, op, &a, &b)?, PROGRAM_ROOMS)
        });
        put_text(answer, out, length)
    }

    pub fn normal_text(&mut self, text: &[u8], out: &mut [u8], work: &mut [i64], length: &mut usize) -> u8 {
        let answer = with_work(work, || fitted(self.formed(&read_solid(text, solids::ANY)?)?, PROGRAM_ROOMS));
        put_text(answer, out, length)
    }

    // ---- sections

    pub fn section(&mut self, plane: [i64; 4], halves: &[i64], bounds: &mut [i64], work: &mut [i64], count: &mut usize) -> u8 {
        let answer = with_work(work, || self.sectioned(plane, halves, bounds.len() / 4));
        let list: &[Plane] = match answer {
            Ok(true) => self.sections.answer.bounds(),
            _ => &[],
        };
        fill(bounds, list.iter().flat_map(|b| [b.a, b.b, b.c, b.d]));
        *count = list.len();
        answer.err().unwrap_or(0)
    }

    // 2, then 3, then 4, then Nothing, then 8; whether there are bounds, which stand in `sections`.
    fn sectioned(&mut self, plane: [i64; 4], halves: &[i64], room: usize) -> Result<bool, u8> {
        if halves.len() % 4 != 0 {
            return Err(2);
        }
        if halves.len() / 4 > MOST_HALVES {
            return Err(3);
        }
        let s = Plane::of_row(&plane);
        let halves: Vec<Plane> = halves.chunks_exact(4).map(Plane::of_row).collect();
        if !s.half_space() || !halves.iter().all(Plane::half_space) {
            return Err(4);
        }
        if !self.sections.section(&s, halves.iter()) {
            return Ok(false);
        }
        if self.sections.answer.n > room { Err(8) } else { Ok(true) }
    }
}

fn judged(a: Operand) -> Result<Solid, u8> {
    judge_lent(a.planes, a.nodes, a.root)
}

// The walk of a point: 1 for IN, 2 for OUT, 3 for ON as soon as it meets a plane that the point lies on.
fn placed(s: &Solid, at: &Point) -> u8 {
    let mut code = s.root;
    while !is_mark(code) {
        let n = s.nodes[code as usize];
        code = match s.planes[n.plane as usize].at(at) {
            0 => return 3,
            value if value > 0 => n.front,
            _ => n.back,
        };
    }
    if code == IN { 1 } else { 2 }
}

// 8 for rows or planes beyond the rooms, then 9.
fn fitted(s: Solid, rooms: Rooms) -> Result<Solid, u8> {
    if s.nodes.len() > rooms.nodes || s.planes.len() > rooms.planes {
        return Err(8);
    }
    if s.planes.len() > solids::MOST_PLANES { Err(9) } else { Ok(s) }
}

// ---- what is left in lent tables

fn rooms(out: &Tables) -> Rooms {
    Rooms { planes: out.planes.len() / 4, nodes: out.nodes.len() / 3 }
}

// A short work table comes first. The table is left all zeros.
fn with_work<T>(work: &mut [i64], call: impl FnOnce() -> Result<T, u8>) -> Result<T, u8> {
    work.fill(0);
    if work.len() < STATED { Err(8) } else { call() }
}

// The entries, then zeros.
fn fill<T: Copy + Default>(table: &mut [T], entries: impl Iterator<Item = T>) {
    let mut at = 0;
    for (place, e) in table.iter_mut().zip(entries) {
        *place = e;
        at += 1;
    }
    table[at..].fill(T::default());
}

fn put_solid(answer: Result<Solid, u8>, out: Tables) -> u8 {
    let (s, number) = match answer {
        Ok(s) => (s, 0),
        Err(k) => (Solid { planes: vec![], nodes: vec![], root: 0 }, k),
    };
    fill(out.planes, s.planes.iter().flat_map(|p| [p.a, p.b, p.c, p.d]));
    fill(out.nodes, s.nodes.iter().flat_map(|n| [n.plane as u16, n.front, n.back]));
    *out.counts = Counts { planes: s.planes.len(), nodes: s.nodes.len(), root: s.root };
    number
}

fn put_text(answer: Result<Solid, u8>, text: &mut [u8], length: &mut usize) -> u8 {
    let answer = answer.and_then(|s| if text_length(&s) > text.len() { Err(8) } else { Ok(s) });
    *length = answer.as_ref().map_or(0, text_length);
    text[*length..].fill(0);
    match answer {
        Ok(s) => {
            write_solid(&s, text);
            0
        }
        Err(k) => k,
    }
}
