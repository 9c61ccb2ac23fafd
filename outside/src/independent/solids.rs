//! Solids as frames, and what is refused of them (document 01, "Solids as frames" and "What may be refused"). A text gives frames line by
//! line; lent tables give the frames that they would be written as. One judge takes both.
use super::planes::{plane, Plane};

pub const IN: u16 = 0xFFFF;
pub const OUT: u16 = 0xFFFE;
pub const MOST_PLANES: usize = 64;
pub const MOST_NODES: usize = 1000;
const MOST_TEXT: usize = 32_768;

#[derive(Clone, Copy, PartialEq, Eq, Debug)]
pub struct Node {
    pub plane: u8,
    pub front: u16,
    pub back: u16,
}

#[derive(Clone, PartialEq, Eq, Debug)]
pub struct Solid {
    pub planes: Vec<Plane>,
    pub nodes: Vec<Node>,
    pub root: u16,
}

#[derive(Clone, Copy, PartialEq, Eq, Debug)]
pub enum Operation {
    Union,
    Intersection,
    Minus,
}

#[inline(always)]
pub fn is_mark(code: u16) -> bool {
    code >= OUT
}

pub fn operation(code: u8) -> Result<Operation, u8> {
    match code {
        1 => Ok(Operation::Union),
        2 => Ok(Operation::Intersection),
        3 => Ok(Operation::Minus),
        _ => Err(7),
    }
}

/// Rows lent for planes and for nodes.
#[derive(Clone, Copy, Debug)]
pub struct Rooms {
    pub planes: usize,
    pub nodes: usize,
}

/// Rooms that hold every solid.
pub const ANY: Rooms = Rooms { planes: MOST_PLANES, nodes: MOST_NODES };

enum Frame {
    Other,
    Operation(u8),
    Head(usize, usize, u16),
    Plane(Plane),
    Node(u16, u16, u16),
    End,
}

// ---- the frames of a text

struct Lines<'a> {
    rest: &'a [u8],
}

// The longest frame that any kind has: a plane's.
const LONGEST: usize = 11;

fn digit(c: u8) -> Option<u8> {
    match c {
        b'0'..=b'9' => Some(c - b'0'),
        b'A'..=b'F' => Some(c - b'A' + 10),
        _ => None,
    }
}

// The bytes of a line, in `bytes` as far as they fit; their number, or 1.
fn line_bytes(line: &[u8], bytes: &mut [u8; LONGEST]) -> Result<usize, u8> {
    if line.is_empty() || line.len() % 2 == 1 {
        return Err(1);
    }
    for (i, pair) in line.chunks_exact(2).enumerate() {
        let (Some(high), Some(low)) = (digit(pair[0]), digit(pair[1])) else { return Err(1) };
        if let Some(b) = bytes.get_mut(i) {
            *b = high << 4 | low;
        }
    }
    Ok(line.len() / 2)
}

fn frame_of(b: &[u8; LONGEST], n: usize) -> Frame {
    let unsigned = |i: usize| u16::from_be_bytes([b[i], b[i + 1]]);
    let signed = |i: usize| i16::from_be_bytes([b[i], b[i + 1]]) as i64;
    match (b[0], n) {
        (5, 2) => Frame::Operation(b[1]),
        (1, 6) => Frame::Head(b[1] as usize, unsigned(2) as usize, unsigned(4)),
        (2, 11) => {
            let d = i32::from_be_bytes([b[7], b[8], b[9], b[10]]) as i64;
            Frame::Plane(plane(signed(1), signed(3), signed(5), d))
        }
        (3, 6) => Frame::Node(b[1] as u16, unsigned(2), unsigned(4)),
        (4, 1) => Frame::End,
        _ => Frame::Other,
    }
}

impl Iterator for Lines<'_> {
    type Item = Result<Frame, u8>;

    fn next(&mut self) -> Option<Result<Frame, u8>> {
        if self.rest.is_empty() {
            return None;
        }
        let Some(end) = self.rest.iter().position(|&c| c == b'\n') else {
            self.rest = &[];
            return Some(Err(1));
        };
        let line = &self.rest[..end];
        self.rest = &self.rest[end + 1..];
        let mut bytes = [0; LONGEST];
        Some(line_bytes(line, &mut bytes).map(|n| frame_of(&bytes, n)))
    }
}

// ---- the judge: a line each, inlined so that a frame is never built in memory

// Missing text is a line after the last, and 2.
#[inline(always)]
fn due(frames: &mut impl Iterator<Item = Result<Frame, u8>>) -> Result<Frame, u8> {
    frames.next().unwrap_or(Err(2))
}

fn nothing_left(frames: &mut impl Iterator<Item = Result<Frame, u8>>) -> Result<(), u8> {
    match frames.next() {
        None => Ok(()),
        Some(Err(k)) => Err(k),
        Some(Ok(_)) => Err(2),
    }
}

fn root_ok(nodes: usize, root: u16) -> bool {
    match nodes {
        0 => is_mark(root),
        n => root as usize == n - 1,
    }
}

// The rows of the tree of row r, or 6. `sizes` has those of the rows before it.
#[inline(always)]
fn tree_size(sizes: &[usize], front: u16, back: u16) -> Result<usize, u8> {
    let mut total = 1;
    for code in [back, front] {
        if is_mark(code) {
            continue;
        }
        let row = code as usize;
        if row + total != sizes.len() {
            return Err(6);
        }
        total += sizes[row];
    }
    Ok(total)
}

// 3, then 6, then 8.
#[inline(always)]
fn judge_head(frame: Frame, rooms: Rooms) -> Result<(usize, usize, u16), u8> {
    let Frame::Head(planes, nodes, root) = frame else { return Err(2) };
    if planes > MOST_PLANES || nodes > MOST_NODES {
        return Err(3);
    }
    if !root_ok(nodes, root) {
        return Err(6);
    }
    if planes > rooms.planes || nodes > rooms.nodes {
        return Err(8);
    }
    Ok((planes, nodes, root))
}

// 4, then 5.
#[inline(always)]
fn judge_plane(frame: Frame, last: Option<&Plane>) -> Result<Plane, u8> {
    let Frame::Plane(p) = frame else { return Err(2) };
    if !p.lawful() {
        return Err(4);
    }
    match last.is_some_and(|q| *q >= p) {
        true => Err(5),
        false => Ok(p),
    }
}

// 6; the rows of its tree are added to `sizes`.
#[inline(always)]
fn judge_node(frame: Frame, planes: usize, sizes: &mut Vec<usize>) -> Result<Node, u8> {
    let Frame::Node(number, front, back) = frame else { return Err(2) };
    if number as usize >= planes {
        return Err(6);
    }
    sizes.push(tree_size(sizes, front, back)?);
    Ok(Node { plane: number as u8, front, back })
}

// 5, then 6.
#[inline(always)]
fn judge_end(frame: Frame, s: &Solid, sizes: &[usize]) -> Result<(), u8> {
    let Frame::End = frame else { return Err(2) };
    let used = s.nodes.iter().fold(0u64, |used, n| used | 1 << n.plane);
    if used.count_ones() as usize != s.planes.len() {
        return Err(5);
    }
    match sizes.last().is_some_and(|&n| n != s.nodes.len()) {
        true => Err(6),
        false => Ok(()),
    }
}

fn judge_solid(frames: &mut impl Iterator<Item = Result<Frame, u8>>, rooms: Rooms) -> Result<Solid, u8> {
    let (planes, nodes, root) = judge_head(due(frames)?, rooms)?;
    let mut s = Solid { planes: Vec::with_capacity(planes), nodes: Vec::with_capacity(nodes), root };
    for _ in 0..planes {
        let p = judge_plane(due(frames)?, s.planes.last())?;
        s.planes.push(p);
    }
    let mut sizes = Vec::with_capacity(nodes);
    for _ in 0..nodes {
        s.nodes.push(judge_node(due(frames)?, planes, &mut sizes)?);
    }
    judge_end(due(frames)?, &s, &sizes)?;
    Ok(s)
}

// ---- texts and lent tables

fn lines(text: &[u8]) -> Result<Lines<'_>, u8> {
    match text.len() > MOST_TEXT {
        true => Err(3),
        false => Ok(Lines { rest: text }),
    }
}

pub fn read_solid(text: &[u8], rooms: Rooms) -> Result<Solid, u8> {
    let mut frames = lines(text)?;
    let s = judge_solid(&mut frames, rooms)?;
    nothing_left(&mut frames)?;
    Ok(s)
}

pub fn read_merge(text: &[u8]) -> Result<(Operation, Solid, Solid), u8> {
    let mut frames = lines(text)?;
    let Frame::Operation(code) = due(&mut frames)? else { return Err(2) };
    let op = operation(code)?;
    let a = judge_solid(&mut frames, ANY)?;
    let b = judge_solid(&mut frames, ANY)?;
    nothing_left(&mut frames)?;
    Ok((op, a, b))
}

/// Tables lent directly, judged as if written out and read. A row that is not whole is a frame of wrong length.
pub fn judge_lent(planes: &[i64], nodes: &[u16], root: u16) -> Result<Solid, u8> {
    let rooms = Rooms { planes: planes.len() / 4, nodes: nodes.len() / 3 };
    let head = std::iter::once(Frame::Head(rooms.planes, rooms.nodes, root));
    let plane_row = |r: &[i64]| if r.len() == 4 { Frame::Plane(Plane::of_row(r)) } else { Frame::Other };
    let node_row = |r: &[u16]| if r.len() == 3 { Frame::Node(r[0], r[1], r[2]) } else { Frame::Other };
    let rows = planes.chunks(4).map(plane_row).chain(nodes.chunks(3).map(node_row));
    let mut frames = head.chain(rows).chain(std::iter::once(Frame::End)).map(Ok);
    let s = judge_solid(&mut frames, rooms)?;
    nothing_left(&mut frames)?;
    Ok(s)
}

// ---- writing

pub fn text_length(s: &Solid) -> usize {
    13 + 23 * s.planes.len() + 13 * s.nodes.len() + 3
}

struct Pen<'a> {
    text: &'a mut [u8],
    at: usize,
}

impl Pen<'_> {
    fn number(&mut self, value: u64, bytes: usize) {
        const DIGITS: &[u8; 16] = b"0123456789ABCDEF";
        for k in (0..2 * bytes).rev() {
            self.text[self.at] = DIGITS[(value >> (4 * k) & 15) as usize];
            self.at += 1;
        }
    }

    fn end_line(&mut self) {
        self.text[self.at] = b'\n';
        self.at += 1;
    }
}

/// Writes the text of a solid, which must have room.
pub fn write_solid(s: &Solid, text: &mut [u8]) {
    let mut pen = Pen { text, at: 0 };
    pen.number(1, 1);
    pen.number(s.planes.len() as u64, 1);
    pen.number(s.nodes.len() as u64, 2);
    pen.number(s.root as u64, 2);
    pen.end_line();
    for p in &s.planes {
        pen.number(2, 1);
        [p.a, p.b, p.c].iter().for_each(|&n| pen.number(n as u64, 2));
        pen.number(p.d as u64, 4);
        pen.end_line();
    }
    for n in &s.nodes {
        pen.number(3, 1);
        pen.number(n.plane as u64, 1);
        pen.number(n.front as u64, 2);
        pen.number(n.back as u64, 2);
        pen.end_line();
    }
    pen.number(4, 1);
    pen.end_line();
}
