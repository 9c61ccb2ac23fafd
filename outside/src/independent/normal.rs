//! The normal form (document 01, "Normal form"): the boundary planes, then cells split by the first listed plane that cuts them.
use super::cells::{halves, Cells, Side};
use super::merge::Rows;
use super::polygons::{clip, Polygon, Sectioner, Signs, NO_SIGNS};
use super::solids::{is_mark, Node, Solid, IN, OUT};

// ---- boundary planes

// Walks the tree over the polygon of a plane in the box, split by every other plane that it meets.
struct Boundary<'a> {
    s: &'a Solid,
    sides: &'a mut Signs,
    spare: &'a mut Vec<Box<Polygon>>,
}

// The halves of a polygon, or the side of the plane on which all of it lies.
enum Split {
    Front,
    Back,
    Cut(Box<Polygon>, Box<Polygon>),
}

impl Boundary<'_> {
    fn split(&mut self, p: usize, polygon: &Polygon, q: usize) -> Split {
        let (s, h) = (self.s.planes[p], self.s.planes[q]);
        let some_front = polygon.vertices().iter().any(|v| h.at(v) > 0);
        let some_back = polygon.vertices().iter().any(|v| h.at(v) < 0);
        if !some_back {
            return Split::Front;
        }
        if !some_front {
            return Split::Back;
        }
        let mut front = self.spare.pop().unwrap_or_else(Polygon::boxed);
        let mut back = self.spare.pop().unwrap_or_else(Polygon::boxed);
        clip(&s, polygon, &h, self.sides, &mut front);
        clip(&s, polygon, &h.turned(), self.sides, &mut back);
        Split::Cut(front, back)
    }

    // The walks that take the front and the back of plane p, from codes f and b: whether they end in different marks somewhere.
    fn differ(&mut self, p: usize, polygon: &Polygon, f: u16, b: u16) -> bool {
        if is_mark(f) && is_mark(b) {
            return f != b;
        }
        let (together, on_front) = (f == b, !is_mark(f));
        let n = self.s.nodes[if on_front { f } else { b } as usize];
        let step = |code: u16| match (together, on_front) {
            (true, _) => (code, code),
            (_, true) => (code, b),
            _ => (f, code),
        };
        if n.plane as usize == p {
            let (f, b) = match (together, on_front) {
                (true, _) => (n.front, n.back),
                (_, true) => (n.front, b),
                _ => (f, n.back),
            };
            return self.differ(p, polygon, f, b);
        }
        let (in_front, behind) = (step(n.front), step(n.back));
        match self.split(p, polygon, n.plane as usize) {
            Split::Front => self.differ(p, polygon, in_front.0, in_front.1),
            Split::Back => self.differ(p, polygon, behind.0, behind.1),
            Split::Cut(front, back) => {
                let r = self.differ(p, &front, in_front.0, in_front.1) || self.differ(p, &back, behind.0, behind.1);
                self.spare.extend([front, back]);
                r
            }
        }
    }
}

// ---- the tree split anew

// A tree that grows while it is trimmed may have more nodes than 16 bits count.
#[derive(Clone, Copy)]
struct WideNode {
    plane: u8,
    front: u32,
    back: u32,
}

const WIDE_IN: u32 = u32::MAX;
const WIDE_OUT: u32 = u32::MAX - 1;

fn wide(code: u16) -> u32 {
    match code {
        IN => WIDE_IN,
        OUT => WIDE_OUT,
        row => row as u32,
    }
}

pub struct Normaliser<const RECENT: bool> {
    tree: Vec<WideNode>,
    list: Vec<usize>,
    cells: Cells<RECENT>,
    out: Rows,
    sections: Sectioner,
    sides: Signs,
    spare: Vec<Box<Polygon>>,
}

impl<const RECENT: bool> Normaliser<RECENT> {
    pub fn new() -> Self {
        Normaliser {
            tree: Vec::new(),
            list: Vec::new(),
            cells: Cells::new(),
            out: Rows::new(),
            sections: Sectioner::new(),
            sides: NO_SIGNS,
            spare: Vec::new(),
        }
    }

    /// The normal form, or 8 for over 1,000 nodes.
    pub fn normal(&mut self, s: &Solid) -> Result<Solid, u8> {
        self.list_boundary(s);
        self.tree.clear();
        let widened = |n: &Node| WideNode { plane: n.plane, front: wide(n.front), back: wide(n.back) };
        self.tree.extend(s.nodes.iter().map(widened));
        self.cells.reset(&s.planes);
        self.out.clear();
        let t = self.trim(wide(s.root));
        let root = self.split(t, 0);
        self.out.solid(&s.planes, root)
    }

    fn list_boundary(&mut self, s: &Solid) {
        self.list.clear();
        let mut boundary = Boundary { s, sides: &mut self.sides, spare: &mut self.spare };
        for (p, q) in s.planes.iter().enumerate() {
            if self.sections.start(q) && boundary.differ(p, &self.sections.answer, s.root, s.root) {
                self.list.push(p);
            }
        }
    }

    // The tree below a code trimmed to the current cell and joined; what is new goes on top of the tree.
    fn trim(&mut self, code: u32) -> u32 {
        if code >= WIDE_OUT {
            return code;
        }
        let n = self.tree[code as usize];
        match self.cells.ask(n.plane as usize) {
            Side::Front => self.trim(n.front),
            Side::Back => self.trim(n.back),
            Side::Cut => {
                let child = |front: bool| if front { n.front } else { n.back };
                let (f, b) = halves(self, |w| &mut w.cells, n.plane as usize, |w, front| w.trim(child(front)));
                if f == b && f >= WIDE_OUT {
                    return f;
                }
                self.tree.push(WideNode { plane: n.plane, front: f, back: b });
                (self.tree.len() - 1) as u32
            }
        }
    }

    // A trimmed and joined tree is a mark exactly if the cell is uniform. Planes listed before k cut no part of the cell any more.
    fn split(&mut self, t: u32, mut k: usize) -> u16 {
        if t >= WIDE_OUT {
            return if t == WIDE_IN { IN } else { OUT };
        }
        if self.out.full {
            return OUT;
        }
        while self.cells.ask(self.list[k]) != Side::Cut {
            k += 1;
        }
        let (p, top) = (self.list[k], self.tree.len());
        let (f, b) = halves(self, |w| &mut w.cells, p, |w, _| {
            let part = w.trim(t);
            let code = w.split(part, k + 1);
            w.tree.truncate(top);
            code
        });
        self.out.join(p as u8, f, b)
    }
}
