//! Document 01's worked examples through the safe wrapper.
use skopelyne::{merge_text, normal_text, section, Operation, Place, Refusal, Solid, IN, OUT};

const A: &[u8] = b"010100010000\n0200010000000000000000\n0300FFFFFFFE\n04\n"; // x > 0
const B: &[u8] = b"010100010000\n0200000001000000000000\n0300FFFFFFFE\n04\n"; // y > 0
const BOTH: &[u8] = b"010200020001\n0200000001000000000000\n0200010000000000000000\n0300FFFFFFFE\n03010000FFFE\n04\n";

fn solid(text: &[u8]) -> Solid {
    Solid::read(text).expect("lawful")
}

fn z_above_5() -> Solid {
    Solid::new(vec![[0, 0, 1, -5]], vec![[0, IN, OUT]], 0).expect("lawful")
}

#[test]
fn point_on_a_plane() {
    assert_eq!(z_above_5().point([0, 0, 10, 2]), Ok(Place::On));
    assert_eq!(z_above_5().point([0, 0, 11, 2]), Ok(Place::In));
    assert_eq!(z_above_5().point([0, 0, 9, 2]), Ok(Place::Out));
}

#[test]
fn lawful_planes() {
    let of = |p: [i64; 4]| Solid::new(vec![p], vec![[0, IN, OUT]], 0);
    assert!(of([1000, 0, 0, 1]).is_ok());
    for p in [[1001, 0, 0, 1], [0, 0, 0, 1], [2, 4, 6, 8], [-1, 0, 0, 5], [i64::MIN, 0, 0, 1]] {
        assert_eq!(of(p), Err(Refusal(4)));
    }
}

#[test]
fn sections() {
    let (z_minus, z_plus) = ([0, 0, 1, 30_000], [0, 0, -1, 30_000]);
    let (y_minus, y_plus) = ([0, 1, 0, 30_000], [0, -1, 0, 30_000]);
    assert_eq!(section([1, 0, 0, 0], &[]), Ok(Some(vec![z_minus, y_plus, z_plus, y_minus])));
    let h = [0, 1, 0, 0];
    assert_eq!(section([1, 0, 0, 0], &[h]), Ok(Some(vec![h, z_minus, y_plus, z_plus])));
    assert_eq!(section([1, 0, 0, -30_000], &[]), Ok(None));
    assert_eq!(section([1, 0, 0, -29_999], &[]).map(|b| b.map(|b| b.len())), Ok(Some(4)));
    assert_eq!(section([1, 0, 0, 0], &[[2, 0, 0, 0]]), Ok(None));
    assert_eq!(section([1, 0, 0, 0], &[h; 128]).map(|b| b.is_some()), Ok(true));
    assert_eq!(section([1, 0, 0, 0], &[[0; 4]; 129]), Err(Refusal(3)));
    assert_eq!(section([1, 0, 0, 0], &[[0; 4]; 128]), Err(Refusal(4)));
}

#[test]
fn merges() {
    let (a, b) = (solid(A), solid(B));
    let nothing = a.merge(Operation::Minus, &a).expect("given");
    assert_eq!(nothing.write().expect("given"), b"01000000FFFE\n04\n");
    let union = a.merge(Operation::Union, &b).expect("given");
    assert_eq!(union.nodes(), [[0, IN, OUT], [1, IN, 0]]);
    let both = a.merge(Operation::Intersection, &b).expect("given");
    assert_eq!(both.write().expect("given"), BOTH);
    assert_eq!(both.normal().expect("given").nodes(), [[1, IN, OUT], [0, 0, OUT]]);
}

#[test]
fn texts() {
    let order = [b"0502\n", A, B].concat();
    assert_eq!(merge_text(&order), Ok(BOTH.to_vec()));
    let form = normal_text(BOTH).expect("given");
    assert!(form.ends_with(b"0301FFFFFFFE\n03000000FFFE\n04\n"));
    assert_eq!(normal_text(&form), Ok(form.clone()));
    assert_eq!(solid(BOTH).normal().and_then(|s| s.write()), Ok(form));
    assert_eq!(merge_text(&[b"0504\n", A, B].concat()), Err(Refusal(7)));
    assert_eq!(merge_text(A), Err(Refusal(2)));
    assert_eq!(merge_text(&[0; 32_769]), Err(Refusal(3)));
}

#[test]
fn points_at_the_box() {
    let a = solid(A);
    assert_eq!(a.point([30_000, 0, 0, 1]), Err(Refusal(10)));
    assert_eq!(a.point([29_999, 0, 0, 1]), Ok(Place::In));
    assert_eq!(a.point([0, 0, 0, 0]), Err(Refusal(10)));
}

// A row of slabs square to x: as many planes, and a node for each.
fn slabs(planes: u16) -> Result<Solid, Refusal> {
    let list = (0..planes as i64).map(|d| [1, 0, 0, d]).collect();
    let back = |k: u16| if k == 0 { OUT } else { k - 1 };
    let nodes = (0..planes).map(|k| [planes - 1 - k, if k % 2 == 0 { IN } else { OUT }, back(k)]).collect();
    Solid::new(list, nodes, planes - 1)
}

// One long branch over one plane.
fn branch(nodes: u16) -> Result<Solid, Refusal> {
    let rows = (0..nodes).map(|k| [0, if k == 0 { IN } else { k - 1 }, OUT]).collect();
    Solid::new(vec![[1, 0, 0, 0]], rows, nodes - 1)
}

#[test]
fn limits() {
    assert_eq!(slabs(64).map(|s| s.planes().len()), Ok(64));
    assert_eq!(slabs(65), Err(Refusal(3)));
    let long = branch(1000).expect("lawful");
    assert_eq!(long.write().and_then(|t| Solid::read(&t)), Ok(long));
    assert_eq!(branch(1001), Err(Refusal(3)));
}

#[test]
fn two_long_branches_merge_on_a_thread_of_two_mebibytes() {
    let long = branch(1000).expect("lawful");
    let other = Solid::new(vec![[0, 1, 0, 0]], long.nodes().to_vec(), 999).expect("lawful");
    let run = move || long.merge(Operation::Intersection, &other).map(|s| s.nodes().len());
    let thread = std::thread::Builder::new().stack_size(2 << 20).spawn(run).expect("a thread");
    assert_eq!(thread.join().expect("enough stack"), Ok(2));
}

#[test]
fn more_than_64_planes_are_9() {
    let a = slabs(64).expect("lawful");
    let b = Solid::new(vec![[0, 1, 0, 0]], vec![[0, IN, OUT]], 0).expect("lawful");
    assert_eq!(a.merge(Operation::Union, &b), Err(Refusal(9)));
}
