//! Two solids from their texts, merged, normalised, asked about a point and sectioned: `cargo run --offline --example merge`.
use skopelyne::{section, Operation, Refusal, Solid};

const A: &str = "010100010000\n0200010000000000000000\n0300FFFFFFFE\n04\n"; // x > 0
const B: &str = "010100010000\n0200000001000000000000\n0300FFFFFFFE\n04\n"; // y > 0

fn main() -> Result<(), Refusal> {
    let (a, b) = (Solid::read(A.as_bytes())?, Solid::read(B.as_bytes())?);
    let both = a.merge(Operation::Intersection, &b)?;
    print!("A intersection B\n{}", String::from_utf8_lossy(&both.write()?));
    print!("its normal form\n{}", String::from_utf8_lossy(&both.normal()?.write()?));
    for at in [[100, 100, 0, 1], [-100, 100, 0, 1], [0, 1, 0, 2]] {
        println!("point {at:?}: {:?}", both.point(at)?);
    }
    println!("section of (1,0,0,0) by y > 0: {:?}", section([1, 0, 0, 0], &[[0, 1, 0, 0]])?);
    println!("section of (1,0,0,-30000): {:?}", section([1, 0, 0, -30_000], &[])?);
    println!("a lower case letter: {}", Solid::read(b"01000000fffe\n04\n").unwrap_err());
    Ok(())
}
