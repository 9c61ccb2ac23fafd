//! What is asked: a call with its inputs, and the lengths of the tables lent for its answer, all by chance.
use crate::chance::Chance;
use crate::shapes;
use skopelyne::compare::{Ask, Flat, Lengths};
use skopelyne::independent::solids::{judge_lent, operation};
use skopelyne::independent::{Engine, Independent};
use skopelyne::WORK;

pub struct Input {
    pub ask: Ask,
    pub lengths: Lengths,
    pub engine: Engine,
    pub kinds: Vec<&'static str>,
}

fn hex(bytes: &[u8]) -> String {
    bytes.iter().map(|b| format!("{b:02X}")).collect()
}

impl Input {
    /// All of the input, to be stored as a case. Lawful solids are shown as text too.
    pub fn shown(&self) -> String {
        let solid = |t: &Flat| match judge_lent(&t.planes, &t.nodes, t.root) {
            Ok(_) => String::from_utf8_lossy(&shapes::text(t)).into_owned(),
            Err(k) => format!("refused with {k}: {t:?}\n"),
        };
        let input = match &self.ask {
            Ask::Read(t) | Ask::MergeText(t) | Ask::NormalText(t) => {
                format!("text\n{}\ntext in hexadecimal {}", String::from_utf8_lossy(t), hex(t))
            }
            Ask::Write(t) | Ask::Normal(t) => solid(t),
            Ask::Point(t, p) => format!("{p:?}\n{}", solid(t)),
            Ask::Merge(op, a, b) => format!("05{op:02X}\n{}{}", solid(a), solid(b)),
            Ask::Section(s, halves) => format!("{s:?}\n{:?}", halves.chunks(4).collect::<Vec<_>>()),
        };
        format!("call {}, engine {:?}, {:?}\n{input}", self.ask.call(), self.engine, self.lengths)
    }
}

/// Makes inputs, and keeps some merged solids to use again: they share planes, as zones do.
pub struct Maker {
    c: Chance,
    twin: Independent,
    small: Vec<Flat>,
    large: Vec<Flat>,
    kinds: Vec<&'static str>,
}

const KEPT: usize = 64;

impl Maker {
    pub fn new(seed: u64) -> Maker {
        Maker { c: Chance::new(seed), twin: Independent::new(), small: vec![], large: vec![], kinds: vec![] }
    }

    pub fn next(&mut self) -> Input {
        self.kinds = vec![];
        let ask = match self.c.below(16) {
            0 | 1 => Ask::Read(self.solid_text()),
            2 => Ask::Write(self.operand()),
            3 | 4 => self.point(),
            5..=8 => self.merge(),
            9 | 10 => Ask::Normal(self.operand()),
            11 | 12 => Ask::MergeText(self.merge_text()),
            13 => Ask::NormalText(self.solid_text()),
            _ => self.section(),
        };
        let engine = if self.c.once_in(2) { Engine::Plain } else { Engine::Recent };
        let lengths = self.lengths(&ask);
        Input { ask, lengths, engine, kinds: std::mem::take(&mut self.kinds) }
    }

    // ---- solids

    fn solid(&mut self) -> Flat {
        let c = &mut self.c;
        let (kind, t) = match c.below(40) {
            0 => ("solid: a mark", shapes::mark(c)),
            1..=11 => ("solid: box", shapes::cuboid(c)),
            12..=21 if !self.small.is_empty() => ("solid: merged before", self.small[c.below(self.small.len())].clone()),
            28 if !self.large.is_empty() => ("solid: merged before, large", self.large[c.below(self.large.len())].clone()),
            22 | 23 => ("solid: tree of 9 to 40 nodes", {
                let (planes, n) = (1 + c.below(12), 9 + c.below(32));
                shapes::tree(c, planes, n)
            }),
            24 | 27 if c.once_in(4) => ("solid: tree of 41 to 1,000 nodes", {
                let (planes, n) = (c.of(&[8, 32, 64]), c.of(&[100, 300, 1000]));
                shapes::tree(c, planes, n)
            }),
            25 if c.once_in(5) => ("solid: 64 planes or nearly", {
                let planes = 50 + c.below(15);
                shapes::tree(c, planes, planes + 20)
            }),
            26 => ("solid: slabs", shapes::comb(c)),
            _ => ("solid: tree of 1 to 8 nodes", {
                let (planes, n) = (1 + c.below(8), 1 + c.below(8));
                shapes::tree(c, planes, n)
            }),
        };
        self.kinds.push(kind);
        t
    }

    /// Lawful, or seldom damaged.
    fn operand(&mut self) -> Flat {
        let mut t = self.solid();
        if self.c.once_in(8) {
            self.kinds.push("solid: damaged tables");
            (0..1 + self.c.below(2)).for_each(|_| shapes::damage_tables(&mut self.c, &mut t));
        }
        t
    }

    fn keep(&mut self, op: u8, a: &Flat, b: &Flat) {
        let judged = |t: &Flat| judge_lent(&t.planes, &t.nodes, t.root);
        let (Ok(op), Ok(a), Ok(b)) = (operation(op), judged(a), judged(b)) else { return };
        let Ok(s) = self.twin.merged(Engine::Recent, op, &a, &b) else { return };
        if s.planes.len() > 64 {
            return;
        }
        let few = s.planes.len() <= 16 && s.nodes.len() <= 40;
        let (list, place) = (if few { &mut self.small } else { &mut self.large }, self.c.below(KEPT));
        match list.get_mut(place) {
            Some(t) => *t = shapes::tables_of(&s),
            None => list.push(shapes::tables_of(&s)),
        }
    }

    // ---- calls

    fn merge(&mut self) -> Ask {
        let (mut a, mut b) = (self.operand(), self.operand());
        if self.c.once_in(10) {
            self.kinds.push("merge: A and B equal");
            b = a.clone();
        } else if self.c.once_in(50) {
            self.kinds.push("merge: slabs");
            (a, b) = (shapes::comb(&mut self.c), shapes::comb(&mut self.c));
        }
        let op = self.operation_code();
        if self.c.once_in(8) {
            self.keep(op, &a, &b);
        }
        Ask::Merge(op, a, b)
    }

    fn operation_code(&mut self) -> u8 {
        if !self.c.once_in(40) {
            return 1 + self.c.below(3) as u8;
        }
        self.kinds.push("merge: operation unknown");
        self.c.of(&[0, 4, 5, 128, 255])
    }

    fn point(&mut self) -> Ask {
        let t = self.operand();
        let at = shapes::point(&mut self.c, &t);
        Ask::Point(t, at)
    }

    fn damaged(&mut self, mut text: Vec<u8>) -> Vec<u8> {
        if self.c.once_in(2) {
            self.kinds.push("text: damaged");
            (0..1 + self.c.below(2)).for_each(|_| shapes::damage_text(&mut self.c, &mut text));
        } else {
            self.kinds.push("text: as written");
        }
        text
    }

    fn solid_text(&mut self) -> Vec<u8> {
        let t = self.operand();
        self.damaged(shapes::text(&t))
    }

    fn merge_text(&mut self) -> Vec<u8> {
        let (a, b, op) = (self.operand(), self.operand(), self.operation_code());
        self.damaged([format!("05{op:02X}\n").into_bytes(), shapes::text(&a), shapes::text(&b)].concat())
    }

    fn section(&mut self) -> Ask {
        let c = &mut self.c;
        let (kind, n) = match c.below(40) {
            0 => ("section: 129 or 130 half-spaces", 129 + c.below(2)),
            1 | 2 => ("section: 33 to 128 half-spaces", 33 + c.below(96)),
            3..=9 => ("section: 9 to 32 half-spaces", 9 + c.below(24)),
            _ => ("section: 0 to 8 half-spaces", c.below(9)),
        };
        self.kinds.push(kind);
        let centre = shapes::lattice(c).map(|n| n / 4);
        let (round, flat) = (c.once_in(3) || n > 32, c.once_in(2).then_some(c.below(3)));
        let s = self.support(centre, round, flat);
        let halves = self.half_spaces(n, s, centre, round.then_some(flat));
        self.damaged_section(s, halves.concat())
    }

    fn support(&mut self, [x, y, z]: [i64; 3], round: bool, flat: Option<usize>) -> [i64; 4] {
        let mut s = shapes::half_space(&mut self.c);
        if !round {
            return s;
        }
        self.kinds.push("section: half-spaces around a place");
        if let Some(axis) = flat {
            s = [0; 4];
            s[axis] = self.c.of(&[1, -1, 5]);
        }
        s[3] = (-(s[0] * x + s[1] * y + s[2] * z)).clamp(-100_000_000, 100_000_000);
        s
    }

    fn half_spaces(&mut self, n: usize, s: [i64; 4], centre: [i64; 3], round: Option<Option<usize>>) -> Vec<[i64; 4]> {
        let c = &mut self.c;
        let (distance, turned) = (c.between(10, 20_000), n < 9 || c.once_in(8));
        let mut halves: Vec<[i64; 4]> = Vec::with_capacity(n);
        for _ in 0..n {
            let earlier = halves.get(c.below(halves.len())).copied();
            halves.push(match (c.below(12), earlier, round) {
                (0, Some(h), _) => h,
                (1, Some(h), _) if turned => h.map(|n| -n),
                (2, Some([a, b, k, d]), _) => [a, b, k, (d + c.between(-2_000, 20_000)).clamp(-100_000_000, 100_000_000)],
                (3, _, _) if turned && c.once_in(10) => if c.once_in(2) { s } else { s.map(|n| -n) },
                (_, _, Some(flat)) => shapes::round_half_space(c, centre, distance, flat),
                _ => facing(c, centre),
            });
        }
        halves
    }

    fn damaged_section(&mut self, mut s: [i64; 4], mut halves: Vec<i64>) -> Ask {
        let c = &mut self.c;
        if !c.once_in(20) {
            return Ask::Section(s, halves);
        }
        self.kinds.push("section: damaged half-spaces");
        let at = c.below(halves.len());
        match c.below(5) {
            0 => s[c.below(4)] = shapes::wild_number(c),
            1 if !halves.is_empty() => halves[at] = shapes::wild_number(c),
            2 if halves.len() >= 4 => halves[at / 4 * 4..at / 4 * 4 + 3].fill(0),
            3 => halves.truncate(at),
            _ => halves.extend(&[1, 2, 3][..c.below(4)]),
        }
        Ask::Section(s, halves)
    }

    // ---- lent tables

    // How long a table is lent, where so many entries are needed and so many are usual.
    fn length(&mut self, need: usize, usual: usize) -> usize {
        let (kind, n) = match self.c.below(8) {
            0 | 1 => ("lent: exactly enough", need),
            2 => ("lent: one entry too short", need.saturating_sub(1)),
            3 => ("lent: one row or less too long", need + 1 + self.c.below(4)),
            4 => ("lent: length 0", 0),
            5 => ("lent: too short", self.c.below(need)),
            6 => ("lent: much too long", usual + 1 + self.c.below(1000)),
            _ => ("lent: as usual", usual),
        };
        self.kinds.push(kind);
        n
    }

    fn work_length(&mut self) -> usize {
        let (kind, n) = match self.c.below(40) {
            0 => ("work: shorter than stated", self.c.of(&[0, 1, 1000, 4095])),
            1 => ("work: longer than stated", WORK + 1 + self.c.below(1000)),
            _ => ("work: as stated", WORK),
        };
        self.kinds.push(kind);
        n
    }

    fn lengths(&mut self, ask: &Ask) -> Lengths {
        let usual = ask.usual_lengths();
        let work = self.work_length();
        if self.c.once_in(2) {
            self.kinds.push("lent: as usual");
            return Lengths { work, ..usual };
        }
        let need = crate::run::need(&mut self.twin, ask);
        let mut lent = |need: usize, usual: usize| if usual == 0 { 0 } else { self.length(need, usual) };
        let (planes, text) = (lent(need.planes, usual.planes), lent(need.text, usual.text));
        // one table short at a time, mostly
        let nodes = if self.c.once_in(3) || usual.nodes == 0 { usual.nodes } else { self.length(need.nodes, usual.nodes) };
        let planes = if usual.nodes > 0 && self.c.once_in(2) { usual.planes } else { planes };
        Lengths { planes, nodes, text, work }
    }
}

// A half-space that mostly holds the place.
fn facing(c: &mut Chance, [x, y, z]: [i64; 3]) -> [i64; 4] {
    let h = shapes::half_space(c);
    let holds = h[0] * x + h[1] * y + h[2] * z + h[3] > 0;
    if holds || c.once_in(6) { h } else { h.map(|n| -n) }
}
