//! Cells: whether a plane cuts the current cell, and if not, on which side the cell lies. A section is taken for each question, from the
//! box along the path.
use super::planes::{Plane, Point, REACH};
use super::polygons::Sectioner;

#[derive(Clone, Copy, PartialEq, Eq, Debug)]
pub enum Side {
    Cut,
    Front,
    Back,
}

// The facet of the parent cell on the last cutting plane: its points tell the side of a plane that does not cut.
struct Facet {
    plane: usize,
    front: bool,
    from: usize,
}

// A plane's polygon in the box, of at most six bounds; none where the plane misses the box.
#[derive(Clone, Copy, Default)]
struct InBox {
    known: bool,
    n: usize,
    b: [Plane; 6],
    v: [Point; 6],
}

/// The engine `plain` (RECENT false) takes every section from the box, along the whole path, first half-space first.
/// The engine `recent` keeps each plane's polygon in the box, remembers that a plane that misses a cell misses every part of it, lets a
/// half-space stand in the place of an earlier parallel one, and takes half-spaces last first: the nearest walls end the matter soonest.
pub struct Cells<const RECENT: bool> {
    planes: Vec<Plane>,
    path: Vec<Plane>,
    facets: Vec<Facet>,
    points: Vec<Point>,
    sections: Sectioner,
    in_box: Vec<InBox>,
    missed_front: Vec<u128>, // a bit for each plane, a number for each level
    missed_back: Vec<u128>,
    family: Vec<(u8, bool)>, // the first parallel plane, and whether it faces the same way
    slots: [[u8; 2]; 128],   // where a family and facing stands in the path
    undo: Vec<Option<(u8, Plane)>>,
}

const NO_SLOT: u8 = 255;

fn side_by(points: &[Point], q: &Plane) -> Option<Side> {
    let value = points.iter().map(|v| q.at(v)).find(|&value| value != 0)?;
    Some(if value > 0 { Side::Front } else { Side::Back })
}

fn corners() -> [Point; 8] {
    std::array::from_fn(|i| {
        let along = |k: usize| if i >> k & 1 == 0 { -REACH } else { REACH };
        [along(0), along(1), along(2), 1]
    })
}

impl<const RECENT: bool> Cells<RECENT> {
    pub fn new() -> Self {
        Cells {
            planes: Vec::new(),
            path: Vec::with_capacity(128),
            facets: Vec::with_capacity(128),
            points: Vec::with_capacity(4096),
            sections: Sectioner::new(),
            in_box: Vec::new(),
            missed_front: Vec::new(),
            missed_back: Vec::new(),
            family: Vec::new(),
            slots: [[NO_SLOT; 2]; 128],
            undo: Vec::with_capacity(128),
        }
    }

    /// The box as the cell, with this table of planes.
    pub fn reset(&mut self, planes: &[Plane]) {
        self.planes.clear();
        self.planes.extend_from_slice(planes);
        self.path.clear();
        self.facets.clear();
        self.points.clear();
        if RECENT {
            self.missed_front.clear();
            self.missed_back.clear();
            self.missed_front.push(0);
            self.missed_back.push(0);
            self.in_box.clear();
            self.in_box.resize(planes.len(), InBox::default());
            self.slots = [[NO_SLOT; 2]; 128];
            self.undo.clear();
            self.families();
        }
    }

    fn families(&mut self) {
        self.family.clear();
        for p in &self.planes {
            let first = self.planes.iter().position(|q| p.parallel(q)).unwrap_or(0);
            let q = &self.planes[first];
            self.family.push((first as u8, p.a * q.a + p.b * q.b + p.c * q.c > 0));
        }
    }

    fn start_in_box(&mut self, p: usize) -> bool {
        let known = &mut self.in_box[p];
        if !known.known {
            known.known = true;
            if self.sections.start(&self.planes[p]) {
                let answer = &self.sections.answer;
                known.n = answer.n;
                known.b[..answer.n].copy_from_slice(answer.bounds());
                known.v[..answer.n].copy_from_slice(answer.vertices());
            }
        } else if known.n > 0 {
            self.sections.answer.set(&known.b[..known.n], &known.v[..known.n]);
        }
        known.n > 0
    }

    #[inline]
    fn cuts(&mut self, p: usize) -> bool {
        let q = self.planes[p];
        if !RECENT {
            return self.sections.section(&q, self.path.iter());
        }
        self.start_in_box(p) && self.path.iter().rev().all(|h| self.sections.clip_by(&q, h))
    }

    fn missing_side(&self, q: &Plane) -> Side {
        let Some(f) = self.facets.last() else { return side_by(&corners(), q).unwrap_or(Side::Front) };
        let beside = if f.front { Side::Front } else { Side::Back }; // q is the facet's own plane
        side_by(&self.points[f.from..], q).unwrap_or(beside)
    }

    #[inline]
    pub fn ask(&mut self, p: usize) -> Side {
        if !RECENT {
            return if self.cuts(p) { Side::Cut } else { self.missing_side(&self.planes[p]) };
        }
        let (level, bit) = (self.missed_front.len() - 1, 1u128 << p);
        if self.missed_front[level] & bit != 0 {
            return Side::Front;
        }
        if self.missed_back[level] & bit != 0 {
            return Side::Back;
        }
        if self.cuts(p) {
            return Side::Cut;
        }
        let side = self.missing_side(&self.planes[p]);
        match side {
            Side::Front => self.missed_front[level] |= bit,
            _ => self.missed_back[level] |= bit,
        }
        side
    }

    /// After `ask` said Cut: both halves follow, each between `enter` and `leave`, then `close`.
    pub fn open(&mut self, p: usize) {
        self.facets.push(Facet { plane: p, front: true, from: self.points.len() });
        self.points.extend_from_slice(self.sections.answer.vertices());
    }

    pub fn enter(&mut self, front: bool) {
        let Some(f) = self.facets.last_mut() else { return };
        f.front = front;
        let (p, number) = (self.planes[f.plane], f.plane);
        let h = if front { p } else { p.turned() };
        if !RECENT {
            self.path.push(h);
            return;
        }
        self.enter_recent(number, front, h);
    }

    fn enter_recent(&mut self, p: usize, front: bool, h: Plane) {
        let (first, same) = self.family[p];
        let slot = &mut self.slots[first as usize][(same == front) as usize];
        if *slot == NO_SLOT {
            *slot = self.path.len() as u8;
            self.path.push(h);
            self.undo.push(None);
        } else {
            self.undo.push(Some((*slot, self.path[*slot as usize])));
            self.path[*slot as usize] = h;
        }
        let (level, bit) = (self.missed_front.len() - 1, 1u128 << p);
        self.missed_front.push(self.missed_front[level] | if front { bit } else { 0 });
        self.missed_back.push(self.missed_back[level] | if front { 0 } else { bit });
    }

    pub fn leave(&mut self) {
        if !RECENT {
            self.path.pop();
            return;
        }
        match self.undo.pop().flatten() {
            Some((slot, h)) => self.path[slot as usize] = h,
            None => {
                if let Some(f) = self.facets.last() {
                    let (first, same) = self.family[f.plane];
                    self.slots[first as usize][(same == f.front) as usize] = NO_SLOT;
                }
                self.path.pop();
            }
        }
        self.missed_front.pop();
        self.missed_back.pop();
    }

    pub fn close(&mut self) {
        if let Some(f) = self.facets.pop() {
            self.points.truncate(f.from);
        }
    }
}

/// How the halves of a cut cell are walked: front side first, then the back side.
pub fn halves<const RECENT: bool, W, R>(
    walker: &mut W,
    cells: impl Fn(&mut W) -> &mut Cells<RECENT>,
    p: usize,
    mut walk: impl FnMut(&mut W, bool) -> R,
) -> (R, R) {
    cells(walker).open(p);
    cells(walker).enter(true);
    let front = walk(walker, true);
    cells(walker).leave();
    cells(walker).enter(false);
    let back = walk(walker, false);
    cells(walker).leave();
    cells(walker).close();
    (front, back)
}
