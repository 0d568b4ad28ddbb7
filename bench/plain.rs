// The planner's settle in plain Rust, to compare the speed of the proved one with.
//
// It goes the same way as the crates `examining`, `judge`, `writes`, `engine`, `book` and `plan`: hour by hour, conditions
// judged once for each component, neighbours counted over all edges for each rule and node, constraints in passes until
// none narrows a cell, and then the first void cell. Arguments, input and output are those of the crate `speed`.
use std::io::Read;
use std::time::Instant;

trait Scale: Copy {
    fn loose() -> Self;
    fn meet(self, other: Self) -> Self;
    fn within(self, other: Self) -> bool;
    fn void(self) -> bool;
    fn to_bytes(self) -> [u8; 4];
    fn from_bytes(bytes: [u8; 4]) -> Self;
}

const TOP: u16 = 1000;

#[derive(Clone, Copy)]
struct Thousandths {
    low: u16,
    high: u16,
}

impl Scale for Thousandths {
    fn loose() -> Self {
        Thousandths { low: 0, high: TOP }
    }

    fn meet(self, other: Self) -> Self {
        let low = self.low.max(other.low);
        let high = self.high.min(other.high).min(TOP);
        if low <= high {
            Thousandths { low, high }
        } else {
            Thousandths { low: 1, high: 0 }
        }
    }

    fn within(self, other: Self) -> bool {
        self.void() || other.low <= self.low && self.high.min(TOP) <= other.high
    }

    fn void(self) -> bool {
        self.low > self.high || self.low > TOP
    }

    fn to_bytes(self) -> [u8; 4] {
        let [a, b] = self.low.to_be_bytes();
        let [c, d] = self.high.to_be_bytes();
        [a, b, c, d]
    }

    fn from_bytes([a, b, c, d]: [u8; 4]) -> Self {
        Thousandths {
            low: u16::from_be_bytes([a, b]),
            high: u16::from_be_bytes([c, d]),
        }
    }
}

#[derive(Clone, Copy)]
struct Modes(u16);

impl Scale for Modes {
    fn loose() -> Self {
        Modes(u16::MAX)
    }

    fn meet(self, other: Self) -> Self {
        Modes(self.0 & other.0)
    }

    fn within(self, other: Self) -> bool {
        self.0 & other.0 == self.0
    }

    fn void(self) -> bool {
        self.0 == 0
    }

    fn to_bytes(self) -> [u8; 4] {
        let [a, b] = self.0.to_be_bytes();
        [a, b, 0, 0]
    }

    fn from_bytes([a, b, _, _]: [u8; 4]) -> Self {
        Modes(u16::from_be_bytes([a, b]))
    }
}

trait Book<S> {
    fn count(&self) -> u16;
    fn answer(&self, formula: u16, x: u16, y: u16) -> S;
}

#[derive(Clone, Copy)]
struct Stair<S> {
    formula: u8,
    share: u16,
    bound: S,
}

impl<S> Stair<S> {
    fn reached(&self, x: u16, y: u16) -> bool {
        y >= 1 && 1000 * u32::from(x) >= u32::from(self.share) * u32::from(y)
    }
}

struct Stairs<'a, S>(&'a [Stair<S>]);

impl<S: Scale> Book<S> for Stairs<'_, S> {
    fn count(&self) -> u16 {
        let highest = self.0.iter().map(|stair| u16::from(stair.formula) + 1);
        highest.max().unwrap_or(0)
    }

    fn answer(&self, formula: u16, x: u16, y: u16) -> S {
        if formula >= self.count() || x > y || y > 200 {
            return S::loose();
        }
        self.0
            .iter()
            .filter(|stair| u16::from(stair.formula) == formula && stair.reached(x, y))
            .fold(S::loose(), |bound, stair| bound.meet(stair.bound))
    }
}

struct Quorum<B> {
    least: u8,
    book: B,
}

impl<S: Scale, B: Book<S>> Book<S> for Quorum<B> {
    fn count(&self) -> u16 {
        self.book.count()
    }

    fn answer(&self, formula: u16, x: u16, y: u16) -> S {
        if y < u16::from(self.least) {
            S::loose()
        } else {
            self.book.answer(formula, x, y)
        }
    }
}

#[derive(Clone, Copy, Default)]
struct Sizes {
    nodes: u16,
    edges: u16,
    fixed: u8,
    moving: u8,
    last: u8,
}

impl Sizes {
    fn components(&self) -> usize {
        usize::from(self.nodes) + usize::from(self.edges)
    }

    fn cells(&self) -> usize {
        (usize::from(self.last) + 1) * self.row()
    }

    fn row(&self) -> usize {
        self.components() * usize::from(self.moving)
    }

    fn moves(&self, label: u8) -> bool {
        label >= self.fixed && u16::from(label) < u16::from(self.fixed) + u16::from(self.moving)
    }

    fn place(&self, hour: u8, component: u16, label: u8) -> usize {
        let row = usize::from(hour) * self.components() + usize::from(component);
        row * usize::from(self.moving) + usize::from(label - self.fixed)
    }
}

#[derive(Clone, Copy, PartialEq)]
struct Edge {
    from: u16,
    to: u16,
}

#[derive(Clone, Copy)]
struct Test<S> {
    label: u8,
    bound: S,
}

impl<S: Scale> Test<S> {
    fn met_by(&self, cell: S) -> bool {
        !self.bound.void() && cell.within(self.bound)
    }
}

#[derive(Clone, Copy)]
struct Condition {
    kind: u8,
    a: u8,
    b: u8,
}

#[derive(Clone, Copy)]
struct Body {
    first: u8,
    count: u8,
}

impl Body {
    fn end(&self) -> usize {
        usize::from(self.first) + usize::from(self.count)
    }
}

#[derive(Clone, Copy)]
struct Constraint {
    head: u8,
    body: Body,
}

#[derive(Clone, Copy)]
struct Rule {
    target: u8,
    delay: u8,
    onto: u8,
    along: u8,
    source: u8,
    body: Body,
    formula: u8,
}

#[derive(Clone, Copy)]
struct Fact<S> {
    component: u16,
    label: u8,
    bound: S,
    from: u8,
    to: u8,
}

impl<S> Fact<S> {
    fn inside(&self, sizes: &Sizes) -> bool {
        usize::from(self.component) < sizes.components()
            && sizes.moves(self.label)
            && self.from <= self.to
            && self.to <= sizes.last
    }

    fn covers(&self, hour: u8) -> bool {
        self.from <= hour && hour <= self.to
    }
}

struct House<'a, S> {
    sizes: Sizes,
    edges: &'a [Edge],
    fixed: &'a [S],
    tests: &'a [Test<S>],
    conditions: &'a [Condition],
    constraints: &'a [Constraint],
    rules: &'a [Rule],
}

// Which conditions hold on a component; 255 always does.
#[derive(Clone, Copy)]
struct Verdicts([bool; 64]);

impl Verdicts {
    fn holds(&self, condition: u8) -> bool {
        condition == 255 || self.0[usize::from(condition)]
    }
}

// Examination: the number and the place of the first check that fails.
type Refusal = (u8, usize);

fn check(number: u8, failing: Option<usize>) -> Result<(), Refusal> {
    match failing {
        Some(place) => Err((number, place)),
        None => Ok(()),
    }
}

impl<S: Scale> House<'_, S> {
    fn examine(&self, formulas: u16) -> Result<(), Refusal> {
        check(1, self.bad_size())?;
        check(2, self.bad_table())?;
        check(3, self.bad_edge())?;
        check(4, self.fixed.iter().position(|bound| bound.void()))?;
        let labels = self.sizes.fixed + self.sizes.moving;
        check(5, self.tests.iter().position(|test| test.label >= labels))?;
        check(6, (0..self.conditions.len()).position(|at| !self.condition_kept(at)))?;
        check(7, self.constraints.iter().position(|constraint| !self.constraint_kept(constraint)))?;
        check(8, self.rules.iter().position(|rule| !self.rule_kept(rule, formulas)))
    }

    fn bad_size(&self) -> Option<usize> {
        let Sizes { nodes, edges, fixed, moving, last } = self.sizes;
        let kept = [
            (1..=200).contains(&nodes),
            edges <= 600,
            fixed <= 16,
            (1..=8).contains(&moving),
            last <= 63,
        ];
        kept.iter().position(|kept| !kept)
    }

    fn bad_table(&self) -> Option<usize> {
        let kept = [
            self.edges.len() == usize::from(self.sizes.edges),
            self.fixed.len() == self.sizes.components() * usize::from(self.sizes.fixed),
            self.tests.len() <= 64,
            self.conditions.len() <= 64,
            self.constraints.len() <= 64,
            self.rules.len() <= 64,
        ];
        kept.iter().position(|kept| !kept)
    }

    fn bad_edge(&self) -> Option<usize> {
        let nodes = self.sizes.nodes;
        (0..self.edges.len()).find(|&at| {
            let edge = self.edges[at];
            edge.from >= nodes || edge.to >= nodes || self.edges[..at].contains(&edge)
        })
    }

    fn tests_label(&self, test: u8, wanted: impl Fn(u8) -> bool) -> bool {
        self.tests.get(usize::from(test)).is_some_and(|test| wanted(test.label))
    }

    fn condition_kept(&self, at: usize) -> bool {
        let Condition { kind, a, b } = self.conditions[at];
        let earlier = |condition: u8| usize::from(condition) < at;
        match kind {
            0 => self.tests_label(a, |label| label < self.sizes.fixed),
            1 => earlier(a),
            2 | 3 => earlier(a) && earlier(b),
            _ => false,
        }
    }

    fn constraint_kept(&self, constraint: &Constraint) -> bool {
        self.tests_label(constraint.head, |label| self.sizes.moves(label))
            && constraint.body.end() <= self.tests.len()
    }

    fn rule_kept(&self, rule: &Rule, formulas: u16) -> bool {
        let known = |condition: u8| {
            condition == 255 || usize::from(condition) < self.conditions.len()
        };
        self.sizes.moves(rule.target)
            && (1..=63).contains(&rule.delay)
            && known(rule.onto)
            && known(rule.along)
            && known(rule.source)
            && rule.body.end() <= self.tests.len()
            && u16::from(rule.formula) < formulas
    }
}

// Judging: conditions, tests, bodies and neighbours.
impl<S: Scale> House<'_, S> {
    fn fixed_bound(&self, component: u16, label: u8) -> S {
        self.fixed[usize::from(component) * usize::from(self.sizes.fixed) + usize::from(label)]
    }

    fn judge(&self, component: u16) -> Verdicts {
        let mut said = [false; 64];
        for (at, condition) in self.conditions.iter().enumerate() {
            let a = usize::from(condition.a);
            let b = usize::from(condition.b);
            said[at] = match condition.kind {
                0 => {
                    let test = &self.tests[a];
                    test.met_by(self.fixed_bound(component, test.label))
                }
                1 => !said[a],
                2 => said[a] && said[b],
                _ => said[a] || said[b],
            };
        }
        Verdicts(said)
    }

    fn body_met(&self, cells: &[S], hour: u8, component: u16, body: Body) -> bool {
        self.tests[usize::from(body.first)..body.end()].iter().all(|test| {
            let cell = if test.label < self.sizes.fixed {
                self.fixed_bound(component, test.label)
            } else {
                cells[self.sizes.place(hour, component, test.label)]
            };
            test.met_by(cell)
        })
    }

    // How many neighbours of a node qualify, and how many are eligible.
    fn neighbours(
        &self,
        verdicts: &[Verdicts],
        cells: &[S],
        rule: &Rule,
        hour: u8,
        node: u16,
    ) -> (u16, u16) {
        let past = hour - rule.delay;
        let along = &verdicts[usize::from(self.sizes.nodes)..];
        let mut qualifying = 0;
        let mut eligible = 0;
        for (edge, line) in self.edges.iter().zip(along) {
            if edge.to == node
                && verdicts[usize::from(edge.from)].holds(rule.source)
                && line.holds(rule.along)
            {
                eligible += 1;
                if self.body_met(cells, past, edge.from, rule.body) {
                    qualifying += 1;
                }
            }
        }
        (qualifying, eligible)
    }
}

// Settling.
impl<S: Scale> House<'_, S> {
    fn start_hour(&self, verdicts: &[Verdicts], facts: &[Fact<S>], cells: &mut [S], hour: u8) {
        if hour == 0 {
            cells.fill(S::loose());
            return;
        }
        let row = self.sizes.row();
        let start = usize::from(hour) * row;
        cells.copy_within(start - row..start, start);
        for fact in facts.iter().filter(|fact| fact.covers(hour)) {
            cells[self.sizes.place(hour, fact.component, fact.label)] = S::loose();
        }
        for rule in self.rules.iter().filter(|rule| rule.delay <= hour) {
            for node in 0..self.sizes.nodes {
                if verdicts[usize::from(node)].holds(rule.onto) {
                    cells[self.sizes.place(hour, node, rule.target)] = S::loose();
                }
            }
        }
    }

    fn lay_facts(&self, facts: &[Fact<S>], cells: &mut [S], hour: u8) {
        for fact in facts.iter().filter(|fact| fact.covers(hour)) {
            let cell = &mut cells[self.sizes.place(hour, fact.component, fact.label)];
            *cell = cell.meet(fact.bound);
        }
    }

    fn apply_rules(&self, book: &impl Book<S>, verdicts: &[Verdicts], cells: &mut [S], hour: u8) {
        for rule in self.rules.iter().filter(|rule| rule.delay <= hour) {
            for node in 0..self.sizes.nodes {
                if !verdicts[usize::from(node)].holds(rule.onto) {
                    continue;
                }
                let (x, y) = self.neighbours(verdicts, cells, rule, hour, node);
                if y > 0 {
                    let bound = book.answer(u16::from(rule.formula), x, y);
                    let cell = &mut cells[self.sizes.place(hour, node, rule.target)];
                    *cell = cell.meet(bound);
                }
            }
        }
    }

    fn constrain_hour(&self, cells: &mut [S], hour: u8) {
        for component in 0..self.sizes.nodes + self.sizes.edges {
            while self.pass(cells, hour, component) {}
        }
    }

    // Applies each constraint once to a component, and says whether one narrowed a cell.
    fn pass(&self, cells: &mut [S], hour: u8, component: u16) -> bool {
        let mut fired = false;
        for constraint in self.constraints {
            if !self.body_met(cells, hour, component, constraint.body) {
                continue;
            }
            let head = &self.tests[usize::from(constraint.head)];
            let cell = &mut cells[self.sizes.place(hour, component, head.label)];
            if !cell.within(head.bound) {
                *cell = cell.meet(head.bound);
                fired = true;
            }
        }
        fired
    }

    fn settle_hours(&self, book: &impl Book<S>, facts: &[Fact<S>], cells: &mut [S]) {
        let components = 0..self.sizes.nodes + self.sizes.edges;
        let verdicts: Vec<Verdicts> = components.map(|component| self.judge(component)).collect();
        for hour in 0..=self.sizes.last {
            self.start_hour(&verdicts, facts, cells, hour);
            self.lay_facts(facts, cells, hour);
            self.apply_rules(book, &verdicts, cells, hour);
            self.constrain_hour(cells, hour);
        }
    }

    // The hour, component and label at a place among the cells.
    fn cell_at(&self, at: usize) -> (usize, usize, usize) {
        let moving = usize::from(self.sizes.moving);
        let components = self.sizes.components();
        let row = at / moving;
        (row / components, row % components, usize::from(self.sizes.fixed) + at % moving)
    }

    fn settle(&self, book: &impl Book<S>, facts: &[Fact<S>], cells: &mut [S]) -> Outcome {
        if let Err(refusal) = self.check(book, facts, cells) {
            return Outcome::Refused(refusal);
        }
        self.settle_hours(book, facts, cells);
        match cells.iter().position(|cell| cell.void()) {
            Some(at) => {
                cells.fill(S::loose());
                let (hour, component, label) = self.cell_at(at);
                Outcome::Contradiction(hour, component, label)
            }
            None => Outcome::Settled,
        }
    }

    fn check(&self, book: &impl Book<S>, facts: &[Fact<S>], cells: &[S]) -> Result<(), Refusal> {
        self.examine(book.count())?;
        check(11, facts.iter().position(|fact| !fact.inside(&self.sizes)))?;
        check(13, (cells.len() != self.sizes.cells()).then_some(0))
    }
}

enum Outcome {
    Never,
    Settled,
    Contradiction(usize, usize, usize),
    Refused(Refusal),
}

// A record file that is lawful in its bytes: nothing is refused here.
struct File<S> {
    sizes: Sizes,
    quorum: u8,
    edges: Vec<Edge>,
    fixed: Vec<S>,
    tests: Vec<Test<S>>,
    conditions: Vec<Condition>,
    constraints: Vec<Constraint>,
    rules: Vec<Rule>,
    stairs: Vec<Stair<S>>,
    facts: Vec<Fact<S>>,
}

impl<S: Scale> File<S> {
    fn read(bytes: &[u8]) -> Self {
        let mut file = File::sized(bytes);
        for line in bytes.chunks_exact(16) {
            file.take(line);
        }
        file
    }

    fn sized(bytes: &[u8]) -> Self {
        let lines = || bytes.chunks_exact(16);
        let line = lines().find(|line| line[0] == b'S').expect("an S record");
        let sizes = Sizes {
            nodes: u16::from_be_bytes([line[1], line[2]]),
            edges: lines().filter(|line| line[0] == b'E').count() as u16,
            fixed: line[4],
            moving: line[3],
            last: line[5],
        };
        File {
            sizes,
            quorum: line[6],
            edges: Vec::new(),
            fixed: vec![S::loose(); sizes.components() * usize::from(sizes.fixed)],
            tests: Vec::new(),
            conditions: Vec::new(),
            constraints: Vec::new(),
            rules: Vec::new(),
            stairs: Vec::new(),
            facts: Vec::new(),
        }
    }

    fn take(&mut self, line: &[u8]) {
        let number = |at: usize| u16::from_be_bytes([line[at], line[at + 1]]);
        let bound = || S::from_bytes([line[4], line[5], line[6], line[7]]);
        let body = |at: usize| Body { first: line[at], count: line[at + 1] };
        match line[0] {
            b'E' => self.edges.push(Edge { from: number(1), to: number(3) }),
            b'X' => {
                let row = usize::from(number(1)) * usize::from(self.sizes.fixed);
                self.fixed[row + usize::from(line[3])] = bound();
            }
            b'T' => self.tests.push(Test { label: line[1], bound: bound() }),
            b'C' => self.conditions.push(Condition { kind: line[1], a: line[2], b: line[3] }),
            b'K' => self.constraints.push(Constraint { head: line[1], body: body(2) }),
            b'R' => self.rules.push(Rule {
                target: line[1],
                delay: line[2],
                onto: line[3],
                along: line[4],
                source: line[5],
                body: body(6),
                formula: line[8],
            }),
            b'Q' => self.stairs.push(Stair { formula: line[1], share: number(2), bound: bound() }),
            b'F' => self.facts.push(Fact {
                component: number(1),
                label: line[3],
                bound: bound(),
                from: line[8],
                to: line[9],
            }),
            _ => {}
        }
    }

    fn house(&self) -> House<'_, S> {
        House {
            sizes: self.sizes,
            edges: &self.edges,
            fixed: &self.fixed,
            tests: &self.tests,
            conditions: &self.conditions,
            constraints: &self.constraints,
            rules: &self.rules,
        }
    }
}

// 64-bit FNV-1a over the four-byte forms of the cells.
fn digest<S: Scale>(cells: &[S]) -> u64 {
    let bytes = cells.iter().flat_map(|cell| cell.to_bytes());
    bytes.fold(0xcbf2_9ce4_8422_2325, |hash, byte| {
        (hash ^ u64::from(byte)).wrapping_mul(0x0000_0100_0000_01b3)
    })
}

fn run<S: Scale>(bytes: &[u8], rounds: u32) {
    let file = File::<S>::read(bytes);
    let house = file.house();
    let book = Quorum { least: file.quorum, book: Stairs(&file.stairs) };
    let mut cells = vec![S::loose(); file.sizes.cells()];
    let mut outcome = Outcome::Never;
    for _ in 0..rounds {
        let start = Instant::now();
        outcome = house.settle(&book, &file.facts, &mut cells);
        eprintln!("{}", start.elapsed().as_nanos());
    }
    match outcome {
        Outcome::Never => println!("never settled"),
        Outcome::Settled => println!("settled"),
        Outcome::Contradiction(hour, component, label) => {
            println!("contradiction {hour} {component} {label}");
        }
        Outcome::Refused((number, place)) => println!("refused {number} {place}"),
    }
    let narrow = cells.iter().filter(|cell| !S::loose().within(**cell)).count();
    println!("{narrow} {:016x}", digest(&cells));
}

fn main() {
    let mut words = std::env::args().skip(1);
    let scale = words.next().expect("which scale?");
    let rounds = words.next().expect("how often?").parse().expect("a number");
    let mut bytes = Vec::new();
    std::io::stdin().read_to_end(&mut bytes).expect("a record file");
    match scale.as_str() {
        "thousandths" => run::<Thousandths>(&bytes, rounds),
        "modes" => run::<Modes>(&bytes, rounds),
        _ => panic!("the scale is thousandths or modes"),
    }
}
