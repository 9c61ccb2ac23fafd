//! Refusals through the C functions themselves, on tables full of garbage: every table and place lent to be written is all zeros after,
//! and nothing beside it is touched. Each call is refused with every number that it has.
use skopelyne::raw::*;
use skopelyne::{IN, OUT, WORK};

const GARBAGE: u8 = 0xA5;
const BESIDE: usize = 8;

/// A lent table of garbage, with garbage beside it.
struct Table<T>(Vec<T>);

impl<T: Copy + PartialEq + Default> Table<T> {
    fn lent(length: usize, garbage: T) -> Table<T> {
        Table(vec![garbage; length + 2 * BESIDE])
    }

    fn pointer(&mut self) -> *mut T {
        self.0[BESIDE..].as_mut_ptr()
    }

    fn length(&self) -> usize {
        self.0.len() - 2 * BESIDE
    }

    fn zeros(&self) -> bool {
        self.0[BESIDE..BESIDE + self.length()].iter().all(|e| *e == T::default())
    }

    fn alone(&self) -> bool {
        let garbage = self.0[0];
        self.0[..BESIDE].iter().chain(&self.0[BESIDE + self.length()..]).all(|e| *e == garbage)
    }
}

fn numbers(length: usize) -> Table<i64> {
    Table::lent(length, i64::from_ne_bytes([GARBAGE; 8]))
}

fn words(length: usize) -> Table<u16> {
    Table::lent(length, 0xA5A5)
}

fn bytes(length: usize) -> Table<u8> {
    Table::lent(length, GARBAGE)
}

struct Operand {
    planes: Vec<i64>,
    nodes: Vec<u16>,
    root: u16,
}

fn operand(planes: &[i64], nodes: &[u16], root: u16) -> Operand {
    Operand { planes: planes.to_vec(), nodes: nodes.to_vec(), root }
}

fn x_above_0() -> Operand {
    operand(&[1, 0, 0, 0], &[0, IN, OUT], 0)
}

// A solid for each number that lent tables can get.
fn refused_operands() -> Vec<(u8, Operand)> {
    let many: Vec<i64> = (0..65).flat_map(|d| [1, 0, 0, d]).collect();
    vec![
        (2, operand(&[1, 0, 0, 0, 7], &[0, IN, OUT], 0)),
        (2, operand(&[1, 0, 0, 0], &[0, IN, OUT, 0], 0)),
        (3, operand(&many, &[0, IN, OUT], 0)),
        (4, operand(&[2, 0, 0, 0], &[0, IN, OUT], 0)),
        (4, operand(&[i64::MIN, 0, 0, 0], &[0, IN, OUT], 0)),
        (5, operand(&[1, 0, 0, 0, 1, 0, 0, 0], &[0, IN, OUT], 0)),
        (5, operand(&[1, 0, 0, 0], &[], OUT)),
        (6, operand(&[1, 0, 0, 0], &[0, 0xFFFD, OUT], 0)),
        (6, operand(&[1, 0, 0, 0], &[0, IN, OUT], IN)),
        (6, operand(&[1, 0, 0, 0], &[0, IN, OUT, 0, IN, OUT], 1)),
    ]
}

// A text for each number that a solid's text can get.
fn refused_texts() -> Vec<(u8, Vec<u8>)> {
    let text = |s: &str| s.as_bytes().to_vec();
    vec![
        (1, text("01000000fffe\n04\n")),
        (1, text("01000000FFFE\r\n04\r\n")),
        (1, text("01000000FFFE\n04")),
        (2, text("")),
        (2, text("04\n")),
        (2, text("01000000FFFE\n04\n04\n")),
        (3, vec![b'\n'; 32_769]),
        (3, text("014100010000\n")),
        (3, text("010103E903E8\n")),
        (4, text("010100010000\n0200020000000000000000\n")),
        (5, text("01010000FFFE\n0200010000000000000000\n04\n")),
        (6, text("010000000000\n")),
    ]
}

// ---- the calls, each on garbage; the number, and whether what is lent is left as it must be

fn read(text: &[u8], planes: usize, nodes: usize, work: usize) -> (u8, bool) {
    let (mut p, mut n, mut w) = (numbers(planes), words(nodes), numbers(work));
    let (mut pc, mut nc, mut root) = (77, 77, 77);
    // SAFETY: each pointer has its length, and no two tables are one.
    let k = unsafe {
        skopelyne_read(
            text.as_ptr(),
            text.len(),
            p.pointer(),
            planes,
            n.pointer(),
            nodes,
            w.pointer(),
            work,
            &mut pc,
            &mut nc,
            &mut root,
        )
    };
    (k, (pc, nc, root) == (0, 0, 0) && p.zeros() && n.zeros() && w.zeros() && p.alone() && n.alone() && w.alone())
}

fn write(a: &Operand, text: usize, work: usize) -> (u8, bool) {
    let (mut t, mut w, mut length) = (bytes(text), numbers(work), 77);
    // SAFETY: as in `read`.
    let k = unsafe {
        skopelyne_write(
            a.planes.as_ptr(),
            a.planes.len(),
            a.nodes.as_ptr(),
            a.nodes.len(),
            a.root,
            t.pointer(),
            text,
            w.pointer(),
            work,
            &mut length,
        )
    };
    (k, length == 0 && t.zeros() && w.zeros() && t.alone() && w.alone())
}

fn point(a: &Operand, [x, y, z, w]: [i64; 4], work: usize) -> (u8, bool) {
    let (mut table, mut place) = (numbers(work), 77);
    // SAFETY: as in `read`.
    let k = unsafe {
        skopelyne_point(
            a.planes.as_ptr(),
            a.planes.len(),
            a.nodes.as_ptr(),
            a.nodes.len(),
            a.root,
            x,
            y,
            z,
            w,
            table.pointer(),
            work,
            &mut place,
        )
    };
    (k, place == 0 && table.zeros() && table.alone())
}

fn merge(op: u8, a: &Operand, b: &Operand, planes: usize, nodes: usize, work: usize) -> (u8, bool) {
    let (mut p, mut n, mut w) = (numbers(planes), words(nodes), numbers(work));
    let (mut pc, mut nc, mut root) = (77, 77, 77);
    // SAFETY: as in `read`.
    let k = unsafe {
        skopelyne_merge(
            op,
            a.planes.as_ptr(),
            a.planes.len(),
            a.nodes.as_ptr(),
            a.nodes.len(),
            a.root,
            b.planes.as_ptr(),
            b.planes.len(),
            b.nodes.as_ptr(),
            b.nodes.len(),
            b.root,
            p.pointer(),
            planes,
            n.pointer(),
            nodes,
            w.pointer(),
            work,
            &mut pc,
            &mut nc,
            &mut root,
        )
    };
    (k, (pc, nc, root) == (0, 0, 0) && p.zeros() && n.zeros() && w.zeros() && p.alone() && n.alone() && w.alone())
}

fn normal(a: &Operand, planes: usize, nodes: usize, work: usize) -> (u8, bool) {
    let (mut p, mut n, mut w) = (numbers(planes), words(nodes), numbers(work));
    let (mut pc, mut nc, mut root) = (77, 77, 77);
    // SAFETY: as in `read`.
    let k = unsafe {
        skopelyne_normal(
            a.planes.as_ptr(),
            a.planes.len(),
            a.nodes.as_ptr(),
            a.nodes.len(),
            a.root,
            p.pointer(),
            planes,
            n.pointer(),
            nodes,
            w.pointer(),
            work,
            &mut pc,
            &mut nc,
            &mut root,
        )
    };
    (k, (pc, nc, root) == (0, 0, 0) && p.zeros() && n.zeros() && w.zeros() && p.alone() && n.alone() && w.alone())
}

type TextCall = unsafe extern "C" fn(*const u8, usize, *mut u8, usize, *mut i64, usize, *mut usize) -> u8;

fn of_text(call: TextCall, text: &[u8], out: usize, work: usize) -> (u8, bool) {
    let (mut t, mut w, mut length) = (bytes(out), numbers(work), 77);
    // SAFETY: as in `read`.
    let k = unsafe { call(text.as_ptr(), text.len(), t.pointer(), out, w.pointer(), work, &mut length) };
    (k, length == 0 && t.zeros() && w.zeros() && t.alone() && w.alone())
}

fn section([a, b, c, d]: [i64; 4], halves: &[i64], bounds: usize, work: usize) -> (u8, bool) {
    let (mut t, mut w, mut count) = (numbers(bounds), numbers(work), 77);
    // SAFETY: as in `read`.
    let k = unsafe {
        skopelyne_section(
            a,
            b,
            c,
            d,
            halves.as_ptr(),
            halves.len(),
            t.pointer(),
            bounds,
            w.pointer(),
            work,
            &mut count,
        )
    };
    (k, count == 0 && t.zeros() && w.zeros() && t.alone() && w.alone())
}

// ---- the tests

const A: &[u8] = b"010100010000\n0200010000000000000000\n0300FFFFFFFE\n04\n";

#[test]
fn reading() {
    for (k, text) in refused_texts() {
        assert_eq!(read(&text, 256, 3000, WORK), (k, true));
        assert!(read(&text, 0, 0, WORK).1);
        assert_eq!(read(&text, 256, 3000, WORK - 1), (8, true));
    }
    assert_eq!(read(A, 3, 3000, WORK), (8, true));
    assert_eq!(read(A, 256, 2, WORK), (8, true));
    assert_eq!(read(A, 256, 3000, 0), (8, true));
    assert_eq!(read(A, 4, 3, WORK), (0, false));
}

#[test]
fn writing() {
    for (k, a) in refused_operands() {
        assert_eq!(write(&a, 14_488, WORK), (k, true));
        assert_eq!(write(&a, 14_488, WORK - 1), (8, true));
    }
    assert_eq!(write(&x_above_0(), A.len() - 1, WORK), (8, true));
    assert_eq!(write(&x_above_0(), 0, WORK), (8, true));
    assert_eq!(write(&x_above_0(), A.len(), WORK), (0, false));
}

#[test]
fn points() {
    for (k, a) in refused_operands() {
        assert_eq!(point(&a, [1, 0, 0, 1], WORK), (k, true));
    }
    for at in [[30_000, 0, 0, 1], [0, 0, 0, 0], [0, 0, 0, -1], [i64::MIN, 0, 0, 1], [0, 0, 0, i64::MAX]] {
        assert_eq!(point(&x_above_0(), at, WORK), (10, true));
    }
    assert_eq!(point(&x_above_0(), [1, 0, 0, 1], WORK - 1), (8, true));
    assert_eq!(point(&x_above_0(), [1, 0, 0, 1], WORK), (0, false));
}

#[test]
fn merging() {
    let good = x_above_0();
    for (k, a) in refused_operands() {
        assert_eq!(merge(1, &a, &good, 512, 3000, WORK), (k, true));
        assert_eq!(merge(1, &good, &a, 512, 3000, WORK), (k, true));
        assert_eq!(merge(4, &a, &good, 512, 3000, WORK), (7, true));
        assert_eq!(merge(4, &a, &good, 512, 3000, 100), (8, true));
    }
    assert_eq!(merge(0, &good, &good, 512, 3000, WORK), (7, true));
    assert_eq!(merge(1, &good, &good, 3, 3000, WORK), (8, true));
    assert_eq!(merge(1, &good, &good, 512, 2, WORK), (8, true));
    assert_eq!(merge(1, &good, &good, 4, 3, WORK), (0, false));
}

#[test]
fn merging_to_more_than_64_planes() {
    let planes: Vec<i64> = (0..64).flat_map(|d| [1, 0, 0, d]).collect();
    let back = |k: u16| if k == 0 { OUT } else { k - 1 };
    let nodes: Vec<u16> = (0..64).flat_map(|k| [63 - k, if k % 2 == 0 { IN } else { OUT }, back(k)]).collect();
    let (a, b) = (operand(&planes, &nodes, 63), operand(&[0, 1, 0, 0], &[0, IN, OUT], 0));
    assert_eq!(merge(1, &a, &b, 4 * 65, 3000, WORK), (9, true));
    assert_eq!(merge(1, &a, &b, 4 * 64, 3000, WORK), (8, true));
    assert_eq!(merge(1, &a, &b, 0, 0, WORK), (8, true));
}

#[test]
fn normal_forms() {
    for (k, a) in refused_operands() {
        assert_eq!(normal(&a, 256, 3000, WORK), (k, true));
        assert_eq!(normal(&a, 256, 3000, WORK - 1), (8, true));
    }
    assert_eq!(normal(&x_above_0(), 3, 3000, WORK), (8, true));
    assert_eq!(normal(&x_above_0(), 256, 2, WORK), (8, true));
    assert_eq!(normal(&x_above_0(), 4, 3, WORK), (0, false));
}

#[test]
fn merges_of_texts() {
    for (k, text) in refused_texts() {
        let order = [b"0501\n", A, &text].concat();
        assert_eq!(of_text(skopelyne_merge_text, &order, 14_488, WORK), (k, true));
        assert_eq!(of_text(skopelyne_merge_text, &order, 0, WORK), (k, true));
        assert_eq!(of_text(skopelyne_merge_text, &order, 14_488, WORK - 1), (8, true));
    }
    assert_eq!(of_text(skopelyne_merge_text, b"", 14_488, WORK), (2, true));
    assert_eq!(of_text(skopelyne_merge_text, &[b"0501\n010000000000\n", A].concat(), 14_488, WORK), (6, true));
    assert_eq!(of_text(skopelyne_merge_text, &[b"0500\n", A, A].concat(), 14_488, WORK), (7, true));
    assert_eq!(of_text(skopelyne_merge_text, &[b"0501\n", A, A].concat(), A.len() - 1, WORK), (8, true));
    assert_eq!(of_text(skopelyne_merge_text, &[b"0501\n", A, A].concat(), A.len(), WORK), (0, false));
}

#[test]
fn normal_forms_of_texts() {
    for (k, text) in refused_texts() {
        assert_eq!(of_text(skopelyne_normal_text, &text, 14_488, WORK), (k, true));
        assert_eq!(of_text(skopelyne_normal_text, &text, 14_488, WORK - 1), (8, true));
    }
    assert_eq!(of_text(skopelyne_normal_text, A, A.len() - 1, WORK), (8, true));
    assert_eq!(of_text(skopelyne_normal_text, A, A.len(), WORK), (0, false));
}

#[test]
fn sections() {
    let (x, many) = ([1, 0, 0, 0], vec![0; 4 * 129]);
    assert_eq!(section(x, &[], 536, WORK - 1), (8, true));
    assert_eq!(section(x, &many[..7], 536, WORK), (2, true));
    assert_eq!(section(x, &many[..4 * 129 - 1], 536, WORK), (2, true));
    assert_eq!(section(x, &many, 536, WORK), (3, true));
    assert_eq!(section(x, &many[..4], 536, WORK), (4, true));
    assert_eq!(section([1001, 0, 0, 0], &[], 536, WORK), (4, true));
    assert_eq!(section(x, &[0, 1, 0, i64::MIN], 536, WORK), (4, true));
    assert_eq!(section(x, &[], 15, WORK), (8, true));
    assert_eq!(section(x, &[], 16, WORK), (0, false));
    assert_eq!(section([1, 0, 0, -30_000], &[], 0, WORK), (0, true)); // Nothing
    assert_eq!(section([1, 0, 0, -30_000], &[], 16, WORK), (0, true));
}
