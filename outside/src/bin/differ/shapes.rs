//! Random planes, points, solids, texts, and damage to them.
use crate::chance::Chance;
use skopelyne::compare::Flat;
use skopelyne::independent::planes::gcd;
use skopelyne::independent::solids::Solid;
use skopelyne::{IN, OUT};

// ---- planes and points

/// A place where planes like to meet: the corners, the middle, thirds of the box.
pub fn lattice(c: &mut Chance) -> [i64; 3] {
    std::array::from_fn(|_| match c.below(8) {
        0 => c.between(-30_000, 30_000),
        1 => c.between(-5, 5),
        _ => 10_000 * c.between(-3, 3),
    })
}

// Mostly strictly inside the box.
fn inner_lattice(c: &mut Chance) -> [i64; 3] {
    let most = if c.once_in(10) { 30_000 } else { 29_999 };
    lattice(c).map(|n| n.clamp(-most, most))
}

fn coefficients(c: &mut Chance) -> [i64; 3] {
    let size = c.of(&[1, 1, 1, 2, 3, 10, 1000]);
    let mut n = [0i64; 3];
    if c.once_in(2) {
        n[c.below(3)] = if c.once_in(2) { 1 } else { -1 };
    } else {
        n = std::array::from_fn(|_| c.between(-size, size));
    }
    if n == [0; 3] { [0, 0, 1] } else { n }
}

/// In range, with a normal that is not zero; reduced or not.
pub fn half_space(c: &mut Chance) -> [i64; 4] {
    let [a, b, k] = coefficients(c);
    let [x, y, z] = lattice(c);
    let through = -(a * x + b * y + k * z);
    let d = match c.below(12) {
        0 => c.between(-100_000_000, 100_000_000),
        1 => c.of(&[-100_000_000, 100_000_000, 29_999, -29_999, 30_000, -30_000, 30_001]),
        2 => through + c.between(-1, 1),
        _ => through,
    };
    let h = [a, b, k, d];
    let most = h[..3].iter().map(|n| n.abs()).max().unwrap_or(1);
    let factor = if c.once_in(6) { c.between(1, 1000 / most.max(1)) } else { 1 };
    let scaled = h.map(|n| n * factor);
    if scaled[3].abs() <= 100_000_000 { scaled } else { h }
}

pub fn lawful_plane(c: &mut Chance) -> [i64; 4] {
    let h = half_space(c);
    let g = gcd(gcd(h[0], h[1]), gcd(h[2], h[3]));
    let lead = h[..3].iter().copied().find(|&n| n != 0).unwrap_or(1);
    h.map(|n| n / g * lead.signum())
}

/// A half-space that has a place in the box at about such a distance. Without `flat` any direction; else one square to that axis: the
/// section of a plane of that axis then has a bound for nearly each of them.
pub fn round_half_space(c: &mut Chance, centre: [i64; 3], distance: i64, flat: Option<usize>) -> [i64; 4] {
    let mut n: [i64; 3] = std::array::from_fn(|_| c.between(-1000, 1000));
    flat.iter().for_each(|&axis| n[axis] = 0);
    if n == [0; 3] {
        n = [1000, 1000, 1000];
    }
    let length = ((n[0] * n[0] + n[1] * n[1] + n[2] * n[2]) as f64).sqrt();
    let d = (length * distance as f64) as i64 - n[0] * centre[0] - n[1] * centre[1] - n[2] * centre[2];
    [n[0], n[1], n[2], d.clamp(-100_000_000, 100_000_000)]
}

pub fn wild_number(c: &mut Chance) -> i64 {
    c.of(&[0, 1, -1, 1000, 1001, -1000, -1001, 32_768, 65_536, 100_000_000, 100_000_001, -100_000_001, i64::MAX, i64::MIN, 1 << 32])
}

pub fn point(c: &mut Chance, t: &Flat) -> [i64; 4] {
    let [x, y, z] = inner_lattice(c);
    match c.below(12) {
        0 => std::array::from_fn(|_| wild_number(c)),
        1 => [x, y, z, c.of(&[0, -1, i64::MIN, 10_000_000_000, 10_000_000_001, i64::MAX])],
        2 => {
            let w = 10_000_000_000;
            [x * w, y * w, z * w, w].map(|n: i64| n.clamp(-1_000_000_000_000_001, 1_000_000_000_000_001))
        }
        3 => [c.of(&[29_999, 30_000, -29_999, -30_000]), y, z, 1],
        4..=6 if t.planes.len() >= 4 => on_plane(c, t),
        k => {
            let w = if k < 9 { 1 } else { c.between(1, 1000) };
            [x * w + c.between(-1, 1), y * w, z * w, w]
        }
    }
}

// A point on a plane of the solid: x/w with w the coefficient of that axis.
fn on_plane(c: &mut Chance, t: &Flat) -> [i64; 4] {
    let row = c.below(t.planes.len() / 4);
    let p: [i64; 4] = std::array::from_fn(|k| t.planes[4 * row + k].clamp(-100_000_000, 100_000_000)); // damaged ones are no planes
    let axis = (0..3).max_by_key(|&k| p[k].abs()).unwrap_or(0);
    let (mut at, w) = (inner_lattice(c), p[axis].abs().max(1));
    at[axis] = 0;
    let rest = p[0] * at[0] + p[1] * at[1] + p[2] * at[2] + p[3];
    let mut point = [at[0] * w, at[1] * w, at[2] * w, w];
    point[axis] = -rest * p[axis].signum();
    point
}

// ---- solids

pub fn tables_of(s: &Solid) -> Flat {
    Flat {
        planes: s.planes.iter().flat_map(|p| [p.a, p.b, p.c, p.d]).collect(),
        nodes: s.nodes.iter().flat_map(|n| [n.plane as u16, n.front, n.back]).collect(),
        root: s.root,
    }
}

// Rows of n nodes in post-order, front first; the code of the last.
fn grow(c: &mut Chance, planes: usize, n: usize, long: bool, rows: &mut Vec<[u16; 3]>) -> u16 {
    if n == 0 {
        return if c.once_in(2) { IN } else { OUT };
    }
    let front = if long { c.of(&[0, n - 1]) } else { c.below(n) };
    let f = grow(c, planes, front, long, rows);
    let b = grow(c, planes, n - 1 - front, long, rows);
    rows.push([c.below(planes) as u16, f, b]);
    (rows.len() - 1) as u16
}

/// A tree of n nodes over at most so many planes, bushy or with long branches.
pub fn tree(c: &mut Chance, planes: usize, n: usize) -> Flat {
    let mut list: Vec<[i64; 4]> = (0..planes).map(|_| lawful_plane(c)).collect();
    list.sort();
    list.dedup();
    let (mut rows, long) = (Vec::with_capacity(n), c.once_in(3));
    let root = grow(c, list.len(), n, long, &mut rows);
    let mut used = vec![false; list.len()];
    rows.iter().for_each(|r| used[r[0] as usize] = true);
    let rank = |k: u16| used[..k as usize].iter().filter(|&&u| u).count() as u16;
    let nodes = rows.iter().flat_map(|r| [rank(r[0]), r[1], r[2]]).collect();
    let planes = list.iter().zip(&used).filter(|(_, &u)| u).flat_map(|(p, _)| *p).collect();
    Flat { planes, nodes, root }
}

/// A box with sides at lattice places: IN within its sides, or OUT.
pub fn cuboid(c: &mut Chance) -> Flat {
    let (p, q) = (lattice(c), lattice(c));
    let (inside, outside) = if c.once_in(5) { (OUT, IN) } else { (IN, OUT) };
    let mut sides: Vec<([i64; 4], bool)> = Vec::new();
    for k in 0..3 {
        let (low, high) = (p[k].min(q[k]), p[k].max(q[k]) + (p[k] == q[k]) as i64);
        let side = |d: i64| std::array::from_fn(|i| if i == k { 1 } else if i == 3 { -d } else { 0 });
        sides.push((side(low), true));
        sides.push((side(high), false));
    }
    let mut planes: Vec<[i64; 4]> = sides.iter().map(|s| s.0).collect();
    planes.sort();
    let mut nodes = Vec::new();
    let mut code = inside;
    for (i, (plane, front)) in sides.iter().enumerate() {
        let number = planes.partition_point(|q| q < plane) as u16;
        nodes.extend(if *front { [number, code, outside] } else { [number, outside, code] });
        code = i as u16;
    }
    Flat { planes: planes.concat(), nodes, root: code }
}

/// Slabs between parallel planes, by turns IN and OUT: two such solids merge to few rows and many planes.
pub fn comb(c: &mut Chance) -> Flat {
    let (planes, axis, step) = (2 + c.below(63), c.below(3), c.of(&[1, 7, 500, 900]));
    let start = c.between(-29_999, 29_999 - step * planes as i64);
    let side = |d: i64| std::array::from_fn(|i| if i == axis { 1 } else if i == 3 { -d } else { 0 });
    // the plane of the largest d comes first
    let list: Vec<[i64; 4]> = (0..planes as i64).rev().map(|k| side(start + step * k)).collect();
    let (mut nodes, mut code) = (vec![], OUT);
    for k in 0..planes as u16 {
        nodes.extend([planes as u16 - 1 - k, if k % 2 == 0 { IN } else { OUT }, code]);
        code = k;
    }
    Flat { planes: list.concat(), nodes, root: code }
}

pub fn mark(c: &mut Chance) -> Flat {
    Flat { planes: vec![], nodes: vec![], root: if c.once_in(2) { IN } else { OUT } }
}

// ---- damage to tables

fn swap_rows<T>(c: &mut Chance, table: &mut [T], width: usize) {
    if table.len() < 2 * width {
        return;
    }
    let rows = table.len() / width;
    let (i, j) = (c.below(rows), c.below(rows));
    (0..width).for_each(|k| table.swap(width * i + k, width * j + k));
}

fn some_code(c: &mut Chance, rows: usize) -> u16 {
    match c.below(3) {
        0 => c.of(&[IN, OUT, 0xFFFD, 0, 1, 999, 1000, 0x7FFF]),
        _ => c.below(rows + 2) as u16,
    }
}

pub fn damage_tables(c: &mut Chance, t: &mut Flat) {
    let rows = t.nodes.len() / 3;
    let (at_plane, at_node) = (c.below(t.planes.len()), c.below(t.nodes.len()));
    match c.below(14) {
        0 | 1 if !t.planes.is_empty() => t.planes[at_plane] = wild_number(c),
        2 if !t.planes.is_empty() => t.planes[at_plane] += c.between(-2, 2),
        3 => swap_rows(c, &mut t.planes, 4),
        4 | 5 if !t.nodes.is_empty() => t.nodes[at_node] = some_code(c, rows),
        6 => swap_rows(c, &mut t.nodes, 3),
        7 => t.root = some_code(c, rows),
        8 => t.planes.truncate(at_plane),
        9 => t.nodes.truncate(at_node),
        10 => t.planes.extend(lawful_plane(c)),
        11 => {
            let some = lawful_plane(c);
            t.planes.extend(&some[..c.below(4)])
        }
        12 => (0..1 + c.below(6)).for_each(|_| t.nodes.push(some_code(c, rows))),
        _ => over_a_limit(c, t),
    }
}

// Exactly at, or one past, the most planes or nodes; seldom far past it.
fn over_a_limit(c: &mut Chance, t: &mut Flat) {
    if c.once_in(2) {
        let planes = c.of(&[64, 65, 66, 255, 256, 300]);
        *t = tree(c, 8, 8);
        t.planes = (0..planes).flat_map(|k| [1, 0, 0, k]).collect();
    } else {
        let n = c.of(&[1000, 1001, 1002]);
        *t = tree(c, 4, n);
    }
}

// ---- texts

pub fn text(t: &Flat) -> Vec<u8> {
    let mut s = format!("01{:02X}{:04X}{:04X}\n", t.planes.len() / 4, t.nodes.len() / 3, t.root);
    for p in t.planes.chunks_exact(4) {
        s += &format!("02{:04X}{:04X}{:04X}{:08X}\n", p[0] as i16, p[1] as i16, p[2] as i16, p[3] as i32);
    }
    for n in t.nodes.chunks_exact(3) {
        s += &format!("03{:02X}{:04X}{:04X}\n", n[0], n[1], n[2]);
    }
    s += "04\n";
    s.into_bytes()
}

fn lines(text: &[u8]) -> Vec<Vec<u8>> {
    text.split_inclusive(|&c| c == b'\n').map(|l| l.to_vec()).collect()
}

fn change_lines(c: &mut Chance, text: &mut Vec<u8>) {
    let mut all = lines(text);
    if all.is_empty() {
        return;
    }
    let (i, j) = (c.below(all.len()), c.below(all.len()));
    match c.below(5) {
        0 => all.swap(i, j),
        1 => all.insert(i, all[j].clone()),
        2 => drop(all.remove(i)),
        3 => all[i] = c.of(&[&b"\n"[..], b"04\n", b"05\n", b"0501\n", b"0F01\n", b"0\n", b"01000000FFFE\n", b"04"]).to_vec(),
        _ => all.truncate(i),
    }
    *text = all.concat();
}

pub fn damage_text(c: &mut Chance, text: &mut Vec<u8>) {
    let at = c.below(text.len());
    match c.below(12) {
        0 | 1 if !text.is_empty() => text[at] = c.of(b"0123456789ABCDEF"),
        2 if !text.is_empty() => text[at] = c.next() as u8,
        3 => text.truncate(at),
        4 if !text.is_empty() => drop(text.remove(at)),
        5 => text.insert(at, c.of(b"0F\n\r a")),
        6 => *text = lines(text).concat().iter().flat_map(|&b| if b == b'\n' { vec![13, 10] } else { vec![b] }).collect(),
        7 => text.make_ascii_lowercase(),
        8 => text.extend_from_slice(c.of(&[&b"\n"[..], b"04\n", b"0\n", b"04", b"zz\n"])),
        9 if c.once_in(20) => text.resize(c.of(&[32_767, 32_768, 32_769, 40_000]), c.of(b"0\n")),
        _ => change_lines(c, text),
    }
}
