//! Convex polygons on a support plane (document 01, "Section of a region by a plane"). A polygon keeps its vertices beside its bounds, so
//! that a side costs four products.
use super::planes::{meet, Plane, Point, BOX};

/// 4 bounds at the start, 2 sides of the box and 128 half-spaces, rounded up.
const ROOM: usize = 144;

/// Bounds in order, and v[i], the common point of the support, b[i-1] and b[i].
pub struct Polygon {
    pub n: usize,
    pub b: [Plane; ROOM],
    pub v: [Point; ROOM],
}

impl Polygon {
    pub fn boxed() -> Box<Polygon> {
        Box::new(Polygon { n: 0, b: [Plane::default(); ROOM], v: [[0; 4]; ROOM] })
    }

    #[inline(always)]
    fn push(&mut self, b: Plane, v: Point) {
        self.b[self.n] = b;
        self.v[self.n] = v;
        self.n += 1;
    }

    pub fn set(&mut self, b: &[Plane], v: &[Point]) {
        self.n = b.len();
        self.b[..self.n].copy_from_slice(b);
        self.v[..self.n].copy_from_slice(v);
    }

    pub fn bounds(&self) -> &[Plane] {
        &self.b[..self.n]
    }

    pub fn vertices(&self) -> &[Point] {
        &self.v[..self.n]
    }
}

#[derive(Clone, Copy, PartialEq, Eq, Debug)]
pub enum Clip {
    Nothing,
    Same,
    Changed,
}

pub type Signs = [i8; ROOM];
pub const NO_SIGNS: Signs = [0; ROOM];

/// Clips p, on support s, by h into `out`; `Same` leaves `out` untouched.
#[inline]
pub fn clip(s: &Plane, p: &Polygon, h: &Plane, sides: &mut Signs, out: &mut Polygon) -> Clip {
    let (mut front, mut back, mut on) = (0, 0, 0);
    for (v, side) in p.vertices().iter().zip(sides.iter_mut()) {
        let value = h.at(v);
        *side = (value > 0) as i8 - (value < 0) as i8;
        front += (*side > 0) as usize;
        back += (*side < 0) as usize;
        on += (*side == 0) as usize;
    }
    if front == 0 {
        return Clip::Nothing; // a coincident h too: every vertex is on it
    }
    if back == 0 && on < 2 {
        return Clip::Same;
    }
    put_out(s, p, h, sides, out);
    Clip::Changed
}

// Where the edge of h starts: where the boundary leaves the front, v(k) in front and v(k+1) not, and does not turn straight back (+0+).
fn leaving(s: &Plane, p: &Polygon, h: &Plane, sides: &Signs) -> Point {
    let after = |k: usize| if k + 1 == p.n { 0 } else { k + 1 };
    for k in 0..p.n {
        let (next, next_but_one) = (after(k), after(after(k)));
        if sides[k] > 0 && sides[next] < 0 {
            return meet(s, &p.b[k], h);
        }
        if sides[k] > 0 && sides[next] == 0 && sides[next_but_one] <= 0 {
            return p.v[next];
        }
    }
    [0; 4] // h is not put out
}

// Document 000's Table 1, as document 01 gives it.
fn put_out(s: &Plane, p: &Polygon, h: &Plane, sides: &Signs, out: &mut Polygon) {
    let start = leaving(s, p, h, sides);
    out.n = 0;
    for i in 0..p.n {
        let before = sides[if i == 0 { p.n - 1 } else { i - 1 }];
        let after = sides[if i + 1 == p.n { 0 } else { i + 1 }];
        match (before, sides[i], after) {
            (_, 1, _) | (1, 0, 1) => out.push(p.b[i], p.v[i]),
            (_, 0, 1) => {
                out.push(*h, start);
                out.push(p.b[i], p.v[i]);
            }
            (_, -1, 1) => {
                out.push(*h, start);
                out.push(p.b[i], meet(s, h, &p.b[i]));
            }
            _ => {}
        }
    }
}

// The bounds at the start, and the axis that remains.
fn start_bounds(s: &Plane) -> ([Plane; 4], usize) {
    let m = [s.a, s.b, s.c];
    let mut k = 0;
    for i in 1..3 {
        if m[i].abs() > m[k].abs() {
            k = i;
        }
    }
    let (u, v) = ((k + 1) % 3, (k + 2) % 3);
    let (minus, plus) = (|axis: usize| BOX[2 * axis], |axis: usize| BOX[2 * axis + 1]);
    let mut l = [minus(v), plus(u), plus(v), minus(u)];
    if m[k] < 0 {
        l.reverse();
    }
    (l, k)
}

/// The section of a region by a plane. The answer stands in `answer`; false is Nothing.
pub struct Sectioner {
    pub answer: Box<Polygon>,
    other: Box<Polygon>,
    sides: Signs,
}

impl Sectioner {
    pub fn new() -> Sectioner {
        Sectioner { answer: Polygon::boxed(), other: Polygon::boxed(), sides: NO_SIGNS }
    }

    #[inline]
    pub fn clip_by(&mut self, s: &Plane, h: &Plane) -> bool {
        match clip(s, &self.answer, h, &mut self.sides, &mut self.other) {
            Clip::Nothing => false,
            Clip::Same => true,
            Clip::Changed => {
                std::mem::swap(&mut self.answer, &mut self.other);
                true
            }
        }
    }

    /// The polygon of s in the box.
    pub fn start(&mut self, s: &Plane) -> bool {
        let (l, k) = start_bounds(s);
        self.answer.n = 0;
        for i in 0..4 {
            self.answer.push(l[i], meet(s, &l[(i + 3) % 4], &l[i]));
        }
        self.clip_by(s, &BOX[2 * k]) && self.clip_by(s, &BOX[2 * k + 1])
    }

    #[inline]
    pub fn section<'a>(&mut self, s: &Plane, mut halves: impl Iterator<Item = &'a Plane>) -> bool {
        self.start(s) && halves.all(|h| self.clip_by(s, h))
    }
}
