//! Planes and points over whole numbers (document 01, "Numbers"). Every sum fits in 64 bits at the limits stated there.

pub const REACH: i64 = 30_000;
const MOST_ABC: u64 = 1_000;
const MOST_D: u64 = 100_000_000;
const MOST_XYZ: u64 = 1_000_000_000_000_000;
const MOST_W: i64 = 10_000_000_000;

#[derive(Clone, Copy, PartialEq, Eq, PartialOrd, Ord, Debug, Default)]
pub struct Plane {
    pub a: i64,
    pub b: i64,
    pub c: i64,
    pub d: i64,
}

/// (x, y, z, w), w above 0.
pub type Point = [i64; 4];

pub const fn plane(a: i64, b: i64, c: i64, d: i64) -> Plane {
    Plane { a, b, c, d }
}

/// x-, x+, y-, y+, z-, z+: half-spaces whose positive sides make the box.
pub const BOX: [Plane; 6] = [
    plane(1, 0, 0, REACH),
    plane(-1, 0, 0, REACH),
    plane(0, 1, 0, REACH),
    plane(0, -1, 0, REACH),
    plane(0, 0, 1, REACH),
    plane(0, 0, -1, REACH),
];

impl Plane {
    pub fn of_row(r: &[i64]) -> Plane {
        plane(r[0], r[1], r[2], r[3])
    }

    #[inline(always)]
    pub fn turned(self) -> Plane {
        plane(-self.a, -self.b, -self.c, -self.d)
    }

    #[inline(always)]
    pub fn at(&self, p: &Point) -> i64 {
        self.a * p[0] + self.b * p[1] + self.c * p[2] + self.d * p[3]
    }

    /// What a section asks of its plane and its half-spaces: range, and a normal that is not zero.
    pub fn half_space(&self) -> bool {
        let normal = [self.a, self.b, self.c];
        normal.iter().all(|n| n.unsigned_abs() <= MOST_ABC) && self.d.unsigned_abs() <= MOST_D && normal != [0; 3]
    }

    pub fn lawful(&self) -> bool {
        let lead = [self.a, self.b, self.c].into_iter().find(|&n| n != 0).unwrap_or(0);
        self.half_space() && lead > 0 && gcd(gcd(self.a, self.b), gcd(self.c, self.d)) == 1
    }

    pub fn parallel(&self, q: &Plane) -> bool {
        cross(self, q) == [0; 3]
    }
}

pub fn gcd(a: i64, b: i64) -> i64 {
    let (mut a, mut b) = (a.abs(), b.abs());
    while b != 0 {
        (a, b) = (b, a % b);
    }
    a
}

#[inline(always)]
fn cross(p: &Plane, q: &Plane) -> [i64; 3] {
    [p.b * q.c - p.c * q.b, p.c * q.a - p.a * q.c, p.a * q.b - p.b * q.a]
}

/// The common point of three planes, w above 0. The determinant of their normals must not be zero.
#[inline(always)]
pub fn meet(p: &Plane, q: &Plane, r: &Plane) -> Point {
    let (qr, rp, pq) = (cross(q, r), cross(r, p), cross(p, q));
    let w = p.a * qr[0] + p.b * qr[1] + p.c * qr[2];
    debug_assert!(w != 0);
    let along = |k: usize| p.d * qr[k] + q.d * rp[k] + r.d * pq[k];
    let (x, y, z) = (along(0), along(1), along(2));
    if w > 0 {
        [-x, -y, -z, w]
    } else {
        [x, y, z, -w]
    }
}

/// A point given to a call: in range, and strictly inside the box.
pub fn point_ok(p: &Point) -> bool {
    let in_range = p[..3].iter().all(|n| n.unsigned_abs() <= MOST_XYZ) && (1..=MOST_W).contains(&p[3]);
    in_range && BOX.iter().all(|h| h.at(p) > 0)
}
