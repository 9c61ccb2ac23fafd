//! The stored inputs, and inputs of growing size.
use skopelyne::compare::{Ask, Flat};
use skopelyne::independent::planes::Plane;
use skopelyne::independent::solids::{read_merge, text_length, write_solid, Operation, Solid};
use skopelyne::independent::{Engine, Independent};
use skopelyne::{IN, OUT};
use std::path::Path;

pub struct Input {
    pub name: String,
    pub size: String,
    pub amount: f64,
    pub ask: Ask,
}

fn flat(s: &Solid) -> Flat {
    Flat {
        planes: s.planes.iter().flat_map(|p| [p.a, p.b, p.c, p.d]).collect(),
        nodes: s.nodes.iter().flat_map(|n| [n.plane as u16, n.front, n.back]).collect(),
        root: s.root,
    }
}

fn text(s: &Solid) -> Vec<u8> {
    let mut t = vec![0; text_length(s)];
    write_solid(s, &mut t);
    t
}

fn counts(s: &Solid) -> String {
    format!("{}, {}", s.nodes.len(), s.planes.len())
}

// ---- stored inputs

struct Order {
    name: String,
    bytes: Vec<u8>,
    op: Operation,
    a: Solid,
    b: Solid,
    merged: Option<Solid>,
}

fn order(path: &Path, twin: &mut Independent) -> Result<Order, String> {
    let bytes = std::fs::read(path).map_err(|e| format!("{}: {e}", path.display()))?;
    let (op, a, b) = read_merge(&bytes).map_err(|k| format!("{}: refused with {k}", path.display()))?;
    let merged = twin.merged(Engine::Recent, op, &a, &b).ok().filter(|s| s.planes.len() <= 64);
    let name = path.file_stem().map(|n| n.to_string_lossy().into_owned()).unwrap_or_default();
    Ok(Order { name, bytes, op, a, b, merged })
}

fn orders() -> Result<Vec<Order>, String> {
    let folder = Path::new(env!("CARGO_MANIFEST_DIR")).join("workloads");
    let entries = std::fs::read_dir(&folder).map_err(|e| format!("{}: {e}", folder.display()))?;
    let mut twin = Independent::new();
    let mut all = Vec::new();
    for entry in entries {
        let path = entry.map_err(|e| e.to_string())?.path();
        if path.extension().is_some_and(|e| e == "in") {
            all.push(order(&path, &mut twin)?);
        }
    }
    all.sort_by_key(|o| (place(&o.name), o.bytes.len()));
    Ok(all)
}

// A family's name, then its number: worst300 before worst1000.
fn place(name: &str) -> (String, u32) {
    let letters: String = name.chars().take_while(char::is_ascii_alphabetic).collect();
    let digits: String = name[letters.len()..].chars().take_while(char::is_ascii_digit).collect();
    (letters, digits.parse().unwrap_or(0))
}

fn op_code(op: Operation) -> u8 {
    match op {
        Operation::Union => 1,
        Operation::Intersection => 2,
        Operation::Minus => 3,
    }
}

impl Order {
    fn input(&self, size: String, amount: usize, ask: Ask) -> Input {
        Input { name: self.name.clone(), size, amount: amount as f64, ask }
    }

    fn merge(&self) -> Input {
        let result = self.merged.as_ref().map_or("refused".into(), counts);
        let size = format!("{} and {} to {result}", counts(&self.a), counts(&self.b));
        self.input(size, self.a.nodes.len() + self.b.nodes.len(), Ask::Merge(op_code(self.op), flat(&self.a), flat(&self.b)))
    }

    fn merge_text(&self) -> Input {
        self.input(format!("{} bytes", self.bytes.len()), self.bytes.len(), Ask::MergeText(self.bytes.clone()))
    }

    // What is asked of one solid: the merged one, or A where the merge is refused.
    fn solid(&self) -> &Solid {
        self.merged.as_ref().unwrap_or(&self.a)
    }

    fn of_solid(&self, ask: impl Fn(&Solid) -> Ask) -> Input {
        let s = self.solid();
        self.input(counts(s), s.nodes.len(), ask(s))
    }
}

// The planes of a solid as half-spaces that hold a point, which lies on the plane of the section.
const SUPPORT: [i64; 4] = [1, 2, 3, -7];
const HELD: [i64; 4] = [7, 0, 0, 1];

fn region(s: &Solid) -> Vec<i64> {
    let facing = |p: &Plane| if p.at(&HELD) < 0 { p.turned() } else { *p };
    s.planes.iter().map(facing).flat_map(|p| [p.a, p.b, p.c, p.d]).collect()
}

// The families on which the calls besides merge and normal form are timed: rows and planes grow in them.
fn growing_family(o: &&Order) -> bool {
    ["heatsink", "boxes60", "worst"].iter().any(|name| o.name.starts_with(name))
}

/// Merges and normal forms on every stored input, the other calls on the families that grow.
pub fn stored() -> Result<Vec<Input>, String> {
    let all = orders()?;
    let some: Vec<&Order> = all.iter().filter(growing_family).collect();
    let mut list: Vec<Input> = all.iter().map(Order::merge).collect();
    list.extend(all.iter().map(|o| o.of_solid(|s| Ask::Normal(flat(s)))));
    list.extend(some.iter().map(|o| o.merge_text()));
    let calls: [fn(&Solid) -> Ask; 4] = [
        |s| Ask::Section(SUPPORT, region(s)),
        |s| Ask::Point(flat(s), [123, -457, 1001, 7]),
        |s| Ask::Read(text(s)),
        |s| Ask::Write(flat(s)),
    ];
    calls.iter().for_each(|call| list.extend(some.iter().map(|o| o.of_solid(call))));
    Ok(list)
}

// ---- growing inputs

fn input(name: &str, size: String, amount: usize, ask: Ask) -> Input {
    Input { name: name.into(), size, amount: amount as f64, ask }
}

// Half-spaces square to z around the middle: a circle's tangents, each of them a bound.
fn ring(n: usize) -> Vec<i64> {
    let turn = |k: usize| 2.0 * std::f64::consts::PI * k as f64 / n as f64;
    (0..n).flat_map(|k| [(1000.0 * turn(k).cos()) as i64, (1000.0 * turn(k).sin()) as i64, 0, 20_000_000]).collect()
}

// Half-spaces that hold the whole box.
fn far(n: usize) -> Vec<i64> {
    (0..n as i64).flat_map(|k| [k % 7 + 1, k % 5, 3, 90_000_000 + k]).collect()
}

// A branch of so many nodes, on planes square to x, of which a point beyond them meets every one.
fn branch(nodes: usize) -> Flat {
    let planes = nodes.min(64);
    let list = (0..planes as i64).flat_map(|d| [1, 0, 0, d]).collect();
    let row = |k: usize| [(k % planes) as u16, if k == 0 { IN } else { k as u16 - 1 }, OUT];
    Flat { planes: list, nodes: (0..nodes).flat_map(row).collect(), root: nodes as u16 - 1 }
}

fn branch_text(nodes: usize) -> Vec<u8> {
    let (s, mut t) = (branch(nodes), String::new());
    t += &format!("01{:02X}{:04X}{:04X}\n", s.planes.len() / 4, nodes, s.root);
    s.planes.chunks(4).for_each(|p| t += &format!("02{:04X}{:04X}{:04X}{:08X}\n", p[0], p[1], p[2], p[3]));
    s.nodes.chunks(3).for_each(|n| t += &format!("03{:02X}{:04X}{:04X}\n", n[0], n[1], n[2]));
    (t + "04\n").into_bytes()
}

// Stored inputs of one family, by rows.
fn family<'a>(stored: &'a [Input], call: &'a str, name: &'a str) -> impl Iterator<Item = Input> + 'a {
    let of_it = move |i: &&Input| i.ask.call() == call && i.name.starts_with(name);
    stored.iter().filter(of_it).map(move |i| input(name, format!("{} rows", i.amount), i.amount as usize, i.ask.clone()))
}

/// Sections by half-spaces, merges and normal forms by rows, points by depth, reading and writing by bytes.
pub fn growing(stored: &[Input]) -> Vec<Input> {
    let mut list = Vec::new();
    for (name, halves) in [("all bound", ring as fn(usize) -> Vec<i64>), ("none bounds", far)] {
        let sized = |n: usize| input(name, format!("{n} half-spaces"), n, Ask::Section([0, 0, 1, 0], halves(n)));
        list.extend([8, 32, 128].map(sized));
    }
    for call in ["merge", "normal"] {
        ["heatsink", "boxes60", "convex", "worst"].iter().for_each(|name| list.extend(family(stored, call, name)));
    }
    let sizes = [1, 10, 100, 1000];
    list.extend(sizes.map(|n| input("branch", format!("depth {n}"), n, Ask::Point(branch(n), [1, 0, 0, 1]))));
    let bytes = |n: usize| branch_text(n).len();
    list.extend(sizes.map(|n| input("branch", format!("{} bytes", bytes(n)), bytes(n), Ask::Read(branch_text(n)))));
    list.extend(sizes.map(|n| input("branch", format!("{} bytes", bytes(n)), bytes(n), Ask::Write(branch(n)))));
    list
}
