//! The C functions of the library, as `skopelyne.h` declares them. A table crosses as a pointer and a length in entries. The pointers of
//! tables and of places must not be null, not even for a table of length 0; a slice's pointer never is. `lent` calls them safely.

extern "C" {
    pub fn skopelyne_read(
        text: *const u8,
        text_length: usize,
        planes: *mut i64,
        planes_length: usize,
        nodes: *mut u16,
        nodes_length: usize,
        work: *mut i64,
        work_length: usize,
        plane_count: *mut usize,
        node_count: *mut usize,
        root: *mut u16,
    ) -> u8;

    pub fn skopelyne_write(
        planes: *const i64,
        planes_length: usize,
        nodes: *const u16,
        nodes_length: usize,
        root: u16,
        text: *mut u8,
        text_length: usize,
        work: *mut i64,
        work_length: usize,
        length: *mut usize,
    ) -> u8;

    pub fn skopelyne_point(
        planes: *const i64,
        planes_length: usize,
        nodes: *const u16,
        nodes_length: usize,
        root: u16,
        x: i64,
        y: i64,
        z: i64,
        w: i64,
        work: *mut i64,
        work_length: usize,
        place: *mut u8,
    ) -> u8;

    pub fn skopelyne_merge(
        op: u8,
        a_planes: *const i64,
        a_planes_length: usize,
        a_nodes: *const u16,
        a_nodes_length: usize,
        a_root: u16,
        b_planes: *const i64,
        b_planes_length: usize,
        b_nodes: *const u16,
        b_nodes_length: usize,
        b_root: u16,
        planes: *mut i64,
        planes_length: usize,
        nodes: *mut u16,
        nodes_length: usize,
        work: *mut i64,
        work_length: usize,
        plane_count: *mut usize,
        node_count: *mut usize,
        root: *mut u16,
    ) -> u8;

    pub fn skopelyne_normal(
        a_planes: *const i64,
        a_planes_length: usize,
        a_nodes: *const u16,
        a_nodes_length: usize,
        a_root: u16,
        planes: *mut i64,
        planes_length: usize,
        nodes: *mut u16,
        nodes_length: usize,
        work: *mut i64,
        work_length: usize,
        plane_count: *mut usize,
        node_count: *mut usize,
        root: *mut u16,
    ) -> u8;

    pub fn skopelyne_merge_text(
        text: *const u8,
        text_length: usize,
        out: *mut u8,
        out_length: usize,
        work: *mut i64,
        work_length: usize,
        length: *mut usize,
    ) -> u8;

    pub fn skopelyne_normal_text(
        text: *const u8,
        text_length: usize,
        out: *mut u8,
        out_length: usize,
        work: *mut i64,
        work_length: usize,
        length: *mut usize,
    ) -> u8;

    pub fn skopelyne_section(
        a: i64,
        b: i64,
        c: i64,
        d: i64,
        halves: *const i64,
        halves_length: usize,
        bounds: *mut i64,
        bounds_length: usize,
        work: *mut i64,
        work_length: usize,
        count: *mut usize,
    ) -> u8;
}
