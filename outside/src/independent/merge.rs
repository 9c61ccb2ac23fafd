//! The merge (document 01, "Cells and the merge"), by either engine of `cells`.
use super::cells::{halves, Cells, Side};
use super::planes::Plane;
use super::solids::{is_mark, Node, Operation, Solid, IN, MOST_NODES, OUT};

/// Rows in post-order as they are made. A node whose two results are the same mark becomes that mark: both children being marks, no row
/// is ever taken back. More rows than a solid may have are 8.
pub struct Rows {
    pub rows: Vec<Node>,
    pub full: bool,
}

impl Rows {
    pub fn new() -> Rows {
        Rows { rows: Vec::with_capacity(MOST_NODES), full: false }
    }

    pub fn clear(&mut self) {
        self.rows.clear();
        self.full = false;
    }

    #[inline(always)]
    pub fn join(&mut self, plane: u8, front: u16, back: u16) -> u16 {
        if front == back && is_mark(front) {
            return front;
        }
        if self.rows.len() >= MOST_NODES {
            self.full = true;
            return OUT;
        }
        self.rows.push(Node { plane, front, back });
        (self.rows.len() - 1) as u16
    }

    /// The solid that the rows are, with the planes still used in order, and numbers changed to them; or 8.
    pub fn solid(&self, planes: &[Plane], root: u16) -> Result<Solid, u8> {
        if self.full {
            return Err(8);
        }
        let mut used = [false; 128];
        self.rows.iter().for_each(|r| used[r.plane as usize] = true);
        let (mut numbers, mut list) = ([0u8; 128], Vec::with_capacity(planes.len()));
        for (i, p) in planes.iter().enumerate().filter(|(i, _)| used[*i]) {
            numbers[i] = list.len() as u8;
            list.push(*p);
        }
        let nodes = self.rows.iter().map(|r| Node { plane: numbers[r.plane as usize], ..*r }).collect();
        Ok(Solid { planes: list, nodes, root })
    }
}

// One table of planes for both operands, so that equal planes have equal numbers.
fn joined(a: &Solid, b: &Solid) -> (Vec<Plane>, Vec<Node>, Vec<Node>) {
    let mut all: Vec<Plane> = a.planes.iter().chain(&b.planes).copied().collect();
    all.sort();
    all.dedup();
    let renumbered = |s: &Solid| {
        let numbers: Vec<u8> = s.planes.iter().map(|p| all.partition_point(|q| q < p) as u8).collect();
        s.nodes.iter().map(|n| Node { plane: numbers[n.plane as usize], ..*n }).collect::<Vec<_>>()
    };
    let (na, nb) = (renumbered(a), renumbered(b));
    (all, na, nb)
}

/// The engine `recent` also leaves B unwalked where A's mark alone decides: each leaf there would get the one mark, and they all join.
pub struct Merger<const RECENT: bool> {
    a: Vec<Node>,
    b: Vec<Node>,
    b_root: u16,
    op: Operation,
    cells: Cells<RECENT>,
    out: Rows,
}

impl<const RECENT: bool> Merger<RECENT> {
    pub fn new() -> Self {
        Merger { a: vec![], b: vec![], b_root: OUT, op: Operation::Union, cells: Cells::new(), out: Rows::new() }
    }

    /// The merged tree as a solid, whatever its number of planes; or 8 for over 1,000 nodes.
    pub fn merge(&mut self, op: Operation, a: &Solid, b: &Solid) -> Result<Solid, u8> {
        let planes;
        (planes, self.a, self.b) = joined(a, b);
        (self.op, self.b_root) = (op, b.root);
        self.cells.reset(&planes);
        self.out.clear();
        let root = self.walk_a(a.root);
        self.out.solid(&planes, root)
    }

    #[inline(always)]
    fn mark(&self, a: u16, b: u16) -> u16 {
        let (x, y) = (a == IN, b == IN);
        let inside = match self.op {
            Operation::Union => x || y,
            Operation::Intersection => x && y,
            Operation::Minus => x && !y,
        };
        if inside { IN } else { OUT }
    }

    fn walk_a(&mut self, code: u16) -> u16 {
        if self.out.full {
            return OUT;
        }
        if is_mark(code) {
            let marks = (self.mark(code, IN), self.mark(code, OUT));
            return if RECENT && marks.0 == marks.1 { marks.0 } else { self.walk_b(self.b_root, marks) };
        }
        let n = self.a[code as usize];
        match self.cells.ask(n.plane as usize) {
            Side::Front => self.walk_a(n.front),
            Side::Back => self.walk_a(n.back),
            Side::Cut => {
                let child = |front: bool| if front { n.front } else { n.back };
                let (f, b) = halves(self, |m| &mut m.cells, n.plane as usize, |m, front| m.walk_a(child(front)));
                self.out.join(n.plane, f, b)
            }
        }
    }

    // `marks`: what becomes of IN and of OUT at a leaf of B.
    fn walk_b(&mut self, code: u16, marks: (u16, u16)) -> u16 {
        if is_mark(code) {
            return if code == IN { marks.0 } else { marks.1 };
        }
        if self.out.full {
            return OUT;
        }
        let n = self.b[code as usize];
        match self.cells.ask(n.plane as usize) {
            Side::Front => self.walk_b(n.front, marks),
            Side::Back => self.walk_b(n.back, marks),
            Side::Cut => {
                let child = |front: bool| if front { n.front } else { n.back };
                let (f, b) = halves(self, |m| &mut m.cells, n.plane as usize, |m, front| m.walk_b(child(front), marks));
                self.out.join(n.plane, f, b)
            }
        }
    }
}
