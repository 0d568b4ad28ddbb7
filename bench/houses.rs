// Makes the record files that the comparison runs on, the same ones each time: houses FOLDER.
//
// All bounds have a point in common, so that every house settles. Bounds come in levels: at level 0 one is loose, and
// each level is within the one before.
use std::fs;
use std::path::Path;

#[derive(Clone, Copy)]
enum Scale {
    Thousandths,
    Modes,
}

impl Scale {
    fn name(self) -> &'static str {
        match self {
            Scale::Thousandths => "thousandths",
            Scale::Modes => "modes",
        }
    }

    fn bound(self, level: u16) -> [u8; 4] {
        let level = level.min(15);
        let (first, second) = match self {
            Scale::Thousandths => (20 * level, 1000 - 40 * level),
            Scale::Modes => (u16::MAX << level, 0),
        };
        let [a, b] = first.to_be_bytes();
        let [c, d] = second.to_be_bytes();
        [a, b, c, d]
    }
}

// Splitmix64.
struct Chance(u64);

impl Chance {
    fn below(&mut self, limit: usize) -> usize {
        self.0 = self.0.wrapping_add(0x9e37_79b9_7f4a_7c15);
        let mut z = self.0;
        z = (z ^ (z >> 30)).wrapping_mul(0xbf58_476d_1ce4_e5b9);
        z = (z ^ (z >> 27)).wrapping_mul(0x94d0_49bb_1331_11eb);
        ((z ^ (z >> 31)) % limit as u64) as usize
    }

    fn byte(&mut self, limit: usize) -> u8 {
        self.below(limit) as u8
    }

    fn level(&mut self, limit: usize) -> u16 {
        self.below(limit) as u16
    }
}

// What a house is like. `facts` is how many there are, all in the hours up to `known`.
#[derive(Clone, Copy)]
struct Plan {
    scale: Scale,
    nodes: usize,
    edges: usize,
    last: usize,
    facts: usize,
    known: usize,
    // Whether constraints fire in long chains, and rules are mostly reached.
    busy: bool,
}

const FIXED: usize = 16;
const MOVING: usize = 8;
const TABLE: usize = 64;
const STAIRS: usize = 256;
const BOUNDS: usize = 135;

// The tests below this number are of fixed labels, the others of moving ones.
const FIXED_TESTS: usize = 16;

struct Writer {
    bytes: Vec<u8>,
    chance: Chance,
    plan: Plan,
}

impl Writer {
    fn record(&mut self, letter: u8, rest: &[u8]) {
        let start = self.bytes.len();
        self.bytes.push(letter);
        self.bytes.extend(rest);
        self.bytes.resize(start + 16, 0);
    }

    fn bound(&self, level: u16) -> [u8; 4] {
        self.plan.scale.bound(level)
    }

    fn sizes(&mut self) {
        let [n0, n1] = (self.plan.nodes as u16).to_be_bytes();
        self.record(b'S', &[n0, n1, MOVING as u8, FIXED as u8, self.plan.last as u8, 2]);
    }

    // Different pairs: a step of `stride` is taken anew after each round of the nodes.
    fn edges(&mut self) {
        let nodes = self.plan.nodes;
        for e in 0..self.plan.edges {
            let from = e % nodes;
            let to = (from + 1 + e / nodes * 7) % nodes;
            let [f0, f1] = (from as u16).to_be_bytes();
            let [t0, t1] = (to as u16).to_be_bytes();
            self.record(b'E', &[f0, f1, t0, t1]);
        }
    }

    // Fixed bounds, at most one for a component and label.
    fn fixed(&mut self) {
        let components = self.plan.nodes + self.plan.edges;
        let count = BOUNDS.min(components * FIXED);
        for k in 0..count {
            let place = k * (components * FIXED / count);
            let [c0, c1] = ((place / FIXED) as u16).to_be_bytes();
            let level = self.chance.level(6);
            let [a, b, c, d] = self.bound(level);
            self.record(b'X', &[c0, c1, (place % FIXED) as u8, a, b, c, d]);
        }
    }

    // Moving tests go round the labels, and are tighter in each round.
    fn tests(&mut self) {
        for k in 0..TABLE {
            let (label, level) = if k < FIXED_TESTS {
                (k % FIXED, self.chance.level(3))
            } else {
                let m = k - FIXED_TESTS;
                (FIXED + m % MOVING, 1 + (m / MOVING) as u16)
            };
            let [a, b, c, d] = self.bound(level);
            self.record(b'T', &[label as u8, 0, 0, a, b, c, d]);
        }
    }

    fn conditions(&mut self) {
        for k in 0..TABLE {
            let a = self.chance.byte(k.max(1));
            let b = self.chance.byte(k.max(1));
            match self.chance.below(4) {
                kind @ 1..=3 if k > 0 => self.record(b'C', &[kind as u8, a, b]),
                _ => {
                    let test = self.chance.byte(FIXED_TESTS);
                    self.record(b'C', &[0, test, 0]);
                }
            }
        }
    }

    // Busy: each constraint leads to the one before it in the table, so that each pass fires one. Otherwise a constraint
    // wants four tests at a time.
    fn constraints(&mut self) {
        for k in 0..TABLE {
            let chained = TABLE - 1 - k;
            if self.plan.busy && chained >= FIXED_TESTS && chained + 1 < TABLE {
                self.record(b'K', &[chained as u8 + 1, chained as u8, 1]);
            } else {
                let head = FIXED_TESTS + self.chance.below(TABLE - FIXED_TESTS);
                let first = FIXED_TESTS + self.chance.below(TABLE - FIXED_TESTS - 4);
                self.record(b'K', &[head as u8, first as u8, 4]);
            }
        }
    }

    // A condition of a rule: mostly none.
    fn condition(&mut self) -> u8 {
        match self.chance.below(3) {
            0 => self.chance.byte(TABLE),
            _ => 255,
        }
    }

    fn rules(&mut self) {
        for k in 0..TABLE {
            let target = (FIXED + k % MOVING) as u8;
            let delay = 1 + self.chance.byte(3);
            let onto = self.condition();
            let along = self.condition();
            let source = self.condition();
            let count = if self.plan.busy { 1 } else { 1 + self.chance.byte(4) };
            let span = if self.plan.busy { 2 * MOVING } else { TABLE - FIXED_TESTS - 4 };
            let first = (FIXED_TESTS + self.chance.below(span)) as u8;
            self.record(b'R', &[target, delay, onto, along, source, first, count, k as u8]);
        }
    }

    // As many stairs for each formula, each tighter than the one before.
    fn stairs(&mut self) {
        for k in 0..STAIRS {
            let formula = (k % TABLE) as u8;
            let step = (k / TABLE) as u16;
            let share = if self.plan.busy { 200 } else { 700 } + 100 * step;
            let [s0, s1] = share.to_be_bytes();
            let [a, b, c, d] = self.bound(1 + step);
            self.record(b'Q', &[formula, s0, s1, a, b, c, d]);
        }
    }

    fn facts(&mut self) {
        let components = self.plan.nodes + self.plan.edges;
        for _ in 0..self.plan.facts {
            let [c0, c1] = (self.chance.below(components) as u16).to_be_bytes();
            let label = (FIXED + self.chance.below(MOVING)) as u8;
            let level = self.chance.level(8);
            let [a, b, c, d] = self.bound(level);
            let one = self.chance.byte(self.plan.known + 1);
            let other = self.chance.byte(self.plan.known + 1);
            self.record(b'F', &[c0, c1, label, a, b, c, d, one.min(other), one.max(other)]);
        }
    }
}

fn file(plan: Plan) -> Vec<u8> {
    let mut writer = Writer {
        bytes: Vec::new(),
        chance: Chance(7),
        plan,
    };
    writer.sizes();
    writer.edges();
    writer.fixed();
    writer.tests();
    writer.conditions();
    writer.constraints();
    writer.rules();
    writer.stairs();
    writer.facts();
    assert!(writer.bytes.len() <= 32_768, "a record file has at most 2,048 records");
    writer.bytes
}

fn main() {
    let folder = std::env::args().nth(1).expect("which folder?");
    let write = |name: &str, plan: Plan| {
        let path = Path::new(&folder).join(format!("{name}.{}", plan.scale.name()));
        fs::write(path, file(plan)).expect("a file that can be written");
    };
    for scale in [Scale::Thousandths, Scale::Modes] {
        let largest = Plan {
            scale,
            nodes: 200,
            edges: 600,
            last: 63,
            facts: 800,
            known: 63,
            busy: false,
        };
        let busy = Plan { busy: true, ..largest };
        // 64 hours of 16 components and 8 labels are 8,192 cells.
        write("program", Plan { nodes: 6, edges: 10, facts: 1000, ..largest });
        write("program-busy", Plan { nodes: 6, edges: 10, facts: 1000, ..busy });
        write("library", largest);
        write("library-busy", busy);
        for last in [7, 15, 31, 63] {
            write(&format!("hours-{}", last + 1), Plan { last, known: 7, ..busy });
        }
    }
}
