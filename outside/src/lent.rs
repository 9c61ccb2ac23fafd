//! The calls over tables that the caller lends, as slices: what a slice promises is all that the C functions ask. Each call takes every
//! input and answers document 01's number of the refusal, or 0; the tables and places lent for the answer are then what document 01 says,
//! all zeros after a refusal.
use crate::raw;

/// Where a call puts the counts of a solid and its root code.
#[derive(Clone, Copy, Debug, Default, PartialEq, Eq)]
pub struct Counts {
    pub planes: usize,
    pub nodes: usize,
    pub root: u16,
}

/// A solid as it is lent to a call: planes 4 numbers a row, nodes 3 numbers a row (plane number, front code, back code), root code.
#[derive(Clone, Copy, Debug)]
pub struct Operand<'a> {
    pub planes: &'a [i64],
    pub nodes: &'a [u16],
    pub root: u16,
}

/// Tables for a solid that is the answer.
pub struct Tables<'a> {
    pub planes: &'a mut [i64],
    pub nodes: &'a mut [u16],
    pub counts: &'a mut Counts,
}

pub fn read(text: &[u8], out: Tables, work: &mut [i64]) -> u8 {
    let (planes, nodes, counts) = (out.planes, out.nodes, out.counts);
    // SAFETY: each pointer and length are a slice's, and what is written is borrowed alone.
    unsafe {
        raw::skopelyne_read(
            text.as_ptr(),
            text.len(),
            planes.as_mut_ptr(),
            planes.len(),
            nodes.as_mut_ptr(),
            nodes.len(),
            work.as_mut_ptr(),
            work.len(),
            &mut counts.planes,
            &mut counts.nodes,
            &mut counts.root,
        )
    }
}

pub fn write(a: Operand, text: &mut [u8], work: &mut [i64], length: &mut usize) -> u8 {
    // SAFETY: as in `read`.
    unsafe {
        raw::skopelyne_write(
            a.planes.as_ptr(),
            a.planes.len(),
            a.nodes.as_ptr(),
            a.nodes.len(),
            a.root,
            text.as_mut_ptr(),
            text.len(),
            work.as_mut_ptr(),
            work.len(),
            length,
        )
    }
}

pub fn point(a: Operand, at: [i64; 4], work: &mut [i64], place: &mut u8) -> u8 {
    let [x, y, z, w] = at;
    // SAFETY: as in `read`.
    unsafe {
        raw::skopelyne_point(
            a.planes.as_ptr(),
            a.planes.len(),
            a.nodes.as_ptr(),
            a.nodes.len(),
            a.root,
            x,
            y,
            z,
            w,
            work.as_mut_ptr(),
            work.len(),
            place,
        )
    }
}

pub fn merge(op: u8, a: Operand, b: Operand, out: Tables, work: &mut [i64]) -> u8 {
    let (planes, nodes, counts) = (out.planes, out.nodes, out.counts);
    // SAFETY: as in `read`. A and B may be the same tables: they are only read.
    unsafe {
        raw::skopelyne_merge(
            op,
            a.planes.as_ptr(),
            a.planes.len(),
            a.nodes.as_ptr(),
            a.nodes.len(),
            a.root,
            b.planes.as_ptr(),
            b.planes.len(),
            b.nodes.as_ptr(),
            b.nodes.len(),
            b.root,
            planes.as_mut_ptr(),
            planes.len(),
            nodes.as_mut_ptr(),
            nodes.len(),
            work.as_mut_ptr(),
            work.len(),
            &mut counts.planes,
            &mut counts.nodes,
            &mut counts.root,
        )
    }
}

pub fn normal(a: Operand, out: Tables, work: &mut [i64]) -> u8 {
    let (planes, nodes, counts) = (out.planes, out.nodes, out.counts);
    // SAFETY: as in `read`.
    unsafe {
        raw::skopelyne_normal(
            a.planes.as_ptr(),
            a.planes.len(),
            a.nodes.as_ptr(),
            a.nodes.len(),
            a.root,
            planes.as_mut_ptr(),
            planes.len(),
            nodes.as_mut_ptr(),
            nodes.len(),
            work.as_mut_ptr(),
            work.len(),
            &mut counts.planes,
            &mut counts.nodes,
            &mut counts.root,
        )
    }
}

pub fn merge_text(text: &[u8], out: &mut [u8], work: &mut [i64], length: &mut usize) -> u8 {
    // SAFETY: as in `read`.
    unsafe {
        raw::skopelyne_merge_text(
            text.as_ptr(),
            text.len(),
            out.as_mut_ptr(),
            out.len(),
            work.as_mut_ptr(),
            work.len(),
            length,
        )
    }
}

pub fn normal_text(text: &[u8], out: &mut [u8], work: &mut [i64], length: &mut usize) -> u8 {
    // SAFETY: as in `read`.
    unsafe {
        raw::skopelyne_normal_text(
            text.as_ptr(),
            text.len(),
            out.as_mut_ptr(),
            out.len(),
            work.as_mut_ptr(),
            work.len(),
            length,
        )
    }
}

pub fn section(plane: [i64; 4], halves: &[i64], bounds: &mut [i64], work: &mut [i64], count: &mut usize) -> u8 {
    let [a, b, c, d] = plane;
    // SAFETY: as in `read`.
    unsafe {
        raw::skopelyne_section(
            a,
            b,
            c,
            d,
            halves.as_ptr(),
            halves.len(),
            bounds.as_mut_ptr(),
            bounds.len(),
            work.as_mut_ptr(),
            work.len(),
            count,
        )
    }
}
