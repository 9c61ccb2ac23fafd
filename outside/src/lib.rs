//! The proved library of solids, for Rust: solids as trees of planes, read, written, merged, normalised and asked about points, and the
//! section of a region by a plane. Numbers are whole, nothing is rounded, and what cannot be answered is refused by document 01's number.
//!
//! A `Solid` is lawful from the start, so that no call here can be given a wrong one. The same calls over lent tables stand in `lent`, the
//! C functions in `raw`, and an implementation that shares no code with the library in `independent`. A thread that calls needs 2 MiB of
//! stack, as much as a thread of the standard library has: a merge of two trees of 1,000 rows, each one long branch, takes 1.4 MiB of it.
pub mod compare;
pub mod independent;
pub mod lent;
pub mod raw;

use lent::{Counts, Operand, Tables};

/// The length stated for a work table.
pub const WORK: usize = 4096;
/// Most planes and most nodes of a solid.
pub const MOST_PLANES: usize = 64;
pub const MOST_NODES: usize = 1000;
/// Most half-spaces of a section, and most bounds that a section has.
pub const MOST_HALVES: usize = 128;
pub const MOST_BOUNDS: usize = 134;
/// The longest text of a solid, in bytes: a head, 64 planes, 1,000 nodes and the end.
pub const LONGEST_TEXT: usize = 13 + 23 * MOST_PLANES + 13 * MOST_NODES + 3;
/// The codes of the marks.
pub const IN: u16 = 0xFFFF;
pub const OUT: u16 = 0xFFFE;

// Rows lent for a result: with 128 plane rows a merge that uses more than 64 planes is refused with 9, not with 8.
const RESULT_PLANES: usize = 128;

/// The number of a refusal, 1 to 10.
#[derive(Clone, Copy, Debug, PartialEq, Eq, Hash)]
pub struct Refusal(pub u8);

impl std::fmt::Display for Refusal {
    fn fmt(&self, f: &mut std::fmt::Formatter) -> std::fmt::Result {
        let meaning = match self.0 {
            1 => "a bad character, an odd or empty line, or a last line without LF",
            2 => "a frame of a kind or length not due next, text ended too soon, or text after the end",
            3 => "too much text, or too many planes, nodes or half-spaces",
            4 => "a plane not lawful",
            5 => "planes not strictly ascending, or a plane no node uses",
            6 => "a plane number, child code or root code against the rules, or rows outside the root's tree",
            7 => "an operation code unknown",
            8 => "the answer has more entries than were lent, or over 1,000 nodes",
            9 => "a merged tree uses more than 64 planes",
            10 => "a point out of range, or not strictly inside the box",
            _ => "no refusal of document 01",
        };
        write!(f, "refused with {}: {meaning}", self.0)
    }
}

impl std::error::Error for Refusal {}

#[derive(Clone, Copy, Debug, PartialEq, Eq, Hash)]
pub enum Operation {
    Union = 1,
    Intersection = 2,
    Minus = 3,
}

#[derive(Clone, Copy, Debug, PartialEq, Eq, Hash)]
pub enum Place {
    In,
    Out,
    On,
}

/// A lawful solid: planes (a, b, c, d) in order, nodes (plane number, front code, back code) in post-order, and the root code.
#[derive(Clone, Debug, PartialEq, Eq, Hash)]
pub struct Solid {
    planes: Vec<[i64; 4]>,
    nodes: Vec<[u16; 3]>,
    root: u16,
}

impl Solid {
    /// A solid from its tables, if they are lawful.
    pub fn new(planes: Vec<[i64; 4]>, nodes: Vec<[u16; 3]>, root: u16) -> Result<Solid, Refusal> {
        let solid = Solid { planes, nodes, root };
        solid.write()?; // a writing judges the solid, and has room for every lawful one
        Ok(solid)
    }

    /// A solid from its text.
    pub fn read(text: &[u8]) -> Result<Solid, Refusal> {
        solid_by(MOST_PLANES, |out, work| lent::read(text, out, work))
    }

    /// The text of the solid, of at most `LONGEST_TEXT` bytes.
    pub fn write(&self) -> Result<Vec<u8>, Refusal> {
        text_by(|text, work, length| lent::write(self.operand(), text, work, length))
    }

    /// Where the point (x/w, y/w, z/w) lies.
    pub fn point(&self, at: [i64; 4]) -> Result<Place, Refusal> {
        let (mut work, mut place) = (work_table(), 0);
        given(lent::point(self.operand(), at, &mut work, &mut place))?;
        Ok(match place {
            1 => Place::In,
            2 => Place::Out,
            _ => Place::On,
        })
    }

    /// The merge of this solid with another, by the operation.
    pub fn merge(&self, op: Operation, other: &Solid) -> Result<Solid, Refusal> {
        solid_by(RESULT_PLANES, |out, work| lent::merge(op as u8, self.operand(), other.operand(), out, work))
    }

    /// The normal form: equal exactly for solids that are the same space.
    pub fn normal(&self) -> Result<Solid, Refusal> {
        solid_by(MOST_PLANES, |out, work| lent::normal(self.operand(), out, work))
    }

    pub fn planes(&self) -> &[[i64; 4]] {
        &self.planes
    }

    pub fn nodes(&self) -> &[[u16; 3]] {
        &self.nodes
    }

    pub fn root(&self) -> u16 {
        self.root
    }

    fn operand(&self) -> Operand<'_> {
        Operand { planes: self.planes.as_flattened(), nodes: self.nodes.as_flattened(), root: self.root }
    }
}

/// The merge of a text (operation, A, B): the text of the merged solid.
pub fn merge_text(text: &[u8]) -> Result<Vec<u8>, Refusal> {
    text_by(|out, work, length| lent::merge_text(text, out, work, length))
}

/// The normal form of a text (a solid): its text.
pub fn normal_text(text: &[u8]) -> Result<Vec<u8>, Refusal> {
    text_by(|out, work, length| lent::normal_text(text, out, work, length))
}

/// The section of the region of half-spaces (positive sides) by a plane: its bounding half-spaces in order, or none where no point of the
/// plane lies strictly in the box and strictly in every half-space.
pub fn section(plane: [i64; 4], halves: &[[i64; 4]]) -> Result<Option<Vec<[i64; 4]>>, Refusal> {
    let (mut bounds, mut work, mut count) = (vec![[0; 4]; MOST_BOUNDS], work_table(), 0);
    given(lent::section(plane, halves.as_flattened(), bounds.as_flattened_mut(), &mut work, &mut count))?;
    bounds.truncate(count);
    Ok((count > 0).then_some(bounds))
}

fn work_table() -> Vec<i64> {
    vec![0; WORK]
}

fn given(number: u8) -> Result<(), Refusal> {
    match number {
        0 => Ok(()),
        k => Err(Refusal(k)),
    }
}

// A call whose answer is a solid, with tables lent for it.
fn solid_by(plane_rows: usize, call: impl FnOnce(Tables, &mut [i64]) -> u8) -> Result<Solid, Refusal> {
    let mut planes = vec![[0i64; 4]; plane_rows];
    let mut nodes = vec![[0u16; 3]; MOST_NODES];
    let mut counts = Counts::default();
    let out = Tables { planes: planes.as_flattened_mut(), nodes: nodes.as_flattened_mut(), counts: &mut counts };
    given(call(out, &mut work_table()))?;
    planes.truncate(counts.planes);
    nodes.truncate(counts.nodes);
    Ok(Solid { planes, nodes, root: counts.root })
}

// A call whose answer is a text, with a table lent for it.
fn text_by(call: impl FnOnce(&mut [u8], &mut [i64], &mut usize) -> u8) -> Result<Vec<u8>, Refusal> {
    let (mut text, mut length) = (vec![0; LONGEST_TEXT], 0);
    given(call(&mut text, &mut work_table(), &mut length))?;
    text.truncate(length);
    Ok(text)
}
