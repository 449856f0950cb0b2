//! Congruence closure as one would write it in plain Rust: hash tables, a union-find and use lists.
//! It reads the same entries as the proved closure, and `main` times both on the same conditions in one run.
use std::collections::HashMap;
use std::time::Instant;

unsafe extern "C" {
    fn closure_repeat(entries: *const u16, len: usize, times: u32) -> u32;
}

fn proved(entries: &[u16], times: u32) -> u32 {
    unsafe { closure_repeat(entries.as_ptr(), entries.len(), times) }
}

struct Problem {
    nodes: Vec<[u16; 5]>,
    conditions: Vec<(bool, usize, usize)>,
}

fn load(entries: &[u16]) -> Problem {
    let mut problem = Problem { nodes: Vec::new(), conditions: Vec::new() };
    for e in entries.chunks_exact(5) {
        if e[0] < 5 {
            problem.nodes.push([e[0], e[1], e[2], e[3], e[4]]);
        } else {
            problem.conditions.push((e[0] == 5, e[2] as usize, e[3] as usize));
        }
    }
    problem
}

struct Closure<'a> {
    nodes: &'a [[u16; 5]],
    parent: Vec<usize>,
    members: Vec<Vec<usize>>,
    users: Vec<Vec<usize>>,
    table: HashMap<[u16; 5], usize>,
    pending: Vec<(usize, usize)>,
    joins: u32,
}

impl<'a> Closure<'a> {
    fn new(nodes: &'a [[u16; 5]]) -> Self {
        let n = nodes.len();
        let mut c = Closure {
            nodes,
            parent: (0..n).collect(),
            members: (0..n).map(|i| vec![i]).collect(),
            users: vec![Vec::new(); n],
            table: HashMap::with_capacity(n),
            pending: Vec::new(),
            joins: 0,
        };
        for (i, node) in nodes.iter().enumerate() {
            let arity = (node[0] as usize).saturating_sub(1);
            for k in 0..arity {
                c.users[node[2 + k] as usize].push(i);
            }
            c.look_up(i);
        }
        c
    }

    fn signature(&self, i: usize) -> [u16; 5] {
        let mut s = self.nodes[i];
        let arity = (s[0] as usize).saturating_sub(1);
        for k in 0..arity {
            s[2 + k] = self.parent[s[2 + k] as usize] as u16;
        }
        s
    }

    fn look_up(&mut self, i: usize) {
        let s = self.signature(i);
        match self.table.get(&s) {
            Some(&j) => {
                if self.parent[i] != self.parent[j] {
                    self.pending.push((i, j));
                }
            }
            None => {
                self.table.insert(s, i);
            }
        }
    }

    fn join(&mut self, a: usize, b: usize) {
        self.pending.push((a, b));
        while let Some((a, b)) = self.pending.pop() {
            let (a, b) = (self.parent[a], self.parent[b]);
            if a == b {
                continue;
            }
            let (big, small) = if self.members[a].len() >= self.members[b].len() { (a, b) } else { (b, a) };
            self.joins += 1;
            let moved = std::mem::take(&mut self.members[small]);
            for &m in &moved {
                self.parent[m] = big;
            }
            for &m in &moved {
                for k in 0..self.users[m].len() {
                    let user = self.users[m][k];
                    self.look_up(user);
                }
            }
            self.members[big].extend(moved);
        }
    }
}

fn plain_once(problem: &Problem) -> u32 {
    let mut c = Closure::new(&problem.nodes);
    for &(equal, a, b) in &problem.conditions {
        if equal {
            c.join(a, b);
        }
    }
    let impossible = problem.conditions.iter().any(|&(equal, a, b)| !equal && c.parent[a] == c.parent[b]);
    c.joins * 2 + impossible as u32
}

fn plain(entries: &[u16], times: u32) -> u32 {
    let problem = load(entries);
    let mut answer = 0;
    for _ in 0..times {
        answer = plain_once(std::hint::black_box(&problem));
    }
    answer
}

/// Entries in the making: terms get places in the order in which they are added.
#[derive(Default)]
struct Builder {
    entries: Vec<u16>,
    conditions: Vec<u16>,
    terms: u16,
}

impl Builder {
    fn term(&mut self, kind: u16, symbol: u16, a: u16, b: u16, c: u16) -> u16 {
        self.entries.extend([kind, symbol, a, b, c]);
        self.terms += 1;
        self.terms - 1
    }
    fn condition(&mut self, equal: bool, a: u16, b: u16) {
        self.conditions.extend([if equal { 5 } else { 6 }, 0, a, b, 0]);
    }
    fn done(mut self) -> Vec<u16> {
        self.entries.extend(self.conditions);
        self.entries
    }
}

/// f(..f(x)..) as long as the bank is, with f^a(x) = x and f^b(x) = x.
fn chain(a: u16, b: u16) -> Vec<u16> {
    let mut m = Builder::default();
    m.term(0, 0, 0, 0, 0);
    for i in 0..511 {
        m.term(2, 0, i, 0, 0);
    }
    m.condition(true, a, 0);
    m.condition(true, b, 0);
    m.condition(false, 1, 0);
    m.done()
}

/// Two towers of binary terms over names that become equal: everything is joined pair by pair.
fn towers() -> Vec<u16> {
    let mut m = Builder::default();
    for x in 0..32 {
        m.term(0, x, 0, 0, 0);
    }
    let mut left: Vec<u16> = (0..16).collect();
    let mut right: Vec<u16> = (16..32).collect();
    for level in 0..15 {
        let pair = |m: &mut Builder, row: &[u16]| -> Vec<u16> {
            (0..16).map(|i| m.term(3, level, row[i], row[(i + 1) % 16], 0)).collect()
        };
        left = pair(&mut m, &left);
        right = pair(&mut m, &right);
    }
    for i in 0..16 {
        m.condition(true, i, 16 + i);
    }
    m.condition(false, left[0], right[0]);
    m.done()
}

/// A join that fires late: each equation f(a) = b frees the next, against the order of the places.
fn late() -> Vec<u16> {
    let mut m = Builder::default();
    let n = 120;
    let a: Vec<u16> = (0..n).map(|i| m.term(1, i % 256, 0, 0, 0)).collect();
    let b: Vec<u16> = (0..n).map(|i| m.term(1, 128 + i % 256, 0, 0, 0)).collect();
    let fa: Vec<u16> = (0..n).map(|i| m.term(2, 0, a[i as usize], 0, 0)).collect();
    let fb: Vec<u16> = (0..n).map(|i| m.term(2, 0, b[i as usize], 0, 0)).collect();
    for i in 1..n as usize {
        m.condition(true, fa[i], a[i - 1]);
        m.condition(true, fb[i], b[i - 1]);
    }
    m.condition(true, a[n as usize - 1], b[n as usize - 1]);
    m.condition(false, a[0], b[0]);
    m.done()
}

/// Random ternary terms and random equations, from a fixed seed.
fn random(seed: u64, equations: u16) -> Vec<u16> {
    let mut state = seed;
    let mut next = |bound: u16| {
        state = state.wrapping_mul(6364136223846793005).wrapping_add(1442695040888963407);
        ((state >> 33) % bound as u64) as u16
    };
    let mut m = Builder::default();
    let mut seen = std::collections::HashSet::new();
    for x in 0..32 {
        m.term(0, x, 0, 0, 0);
    }
    while m.terms < 512 {
        let kind = 2 + next(3);
        let arity = kind as usize - 1;
        let mut e = [kind, next(4), 0, 0, 0];
        for k in 0..arity {
            e[2 + k] = next(m.terms);
        }
        if seen.insert(e) {
            m.term(e[0], e[1], e[2], e[3], e[4]);
        }
    }
    for _ in 0..equations {
        let (a, b) = (next(512), next(512));
        m.condition(true, a, b);
    }
    for _ in 0..4 {
        let (a, b) = (next(512), next(512));
        m.condition(false, a, b);
    }
    m.done()
}

fn seconds(run: impl Fn(u32) -> u32, times: u32) -> f64 {
    let mut best = f64::MAX;
    for _ in 0..5 {
        let start = Instant::now();
        std::hint::black_box(run(times));
        best = best.min(start.elapsed().as_secs_f64());
    }
    best
}

fn main() {
    let cases = [
        ("chain 3 5", chain(3, 5)),
        ("chain 1 511", chain(1, 511)),
        ("chain 510 511", chain(510, 511)),
        ("towers", towers()),
        ("late", late()),
        ("random few", random(7, 16)),
        ("random many", random(11, 200)),
    ];
    let times = 2000;
    let mut product = 1.0;
    for (name, entries) in &cases {
        let ours = proved(entries, 1);
        let theirs = plain(entries, 1);
        assert_ne!(ours, u32::MAX, "{name}: not loaded");
        assert_eq!(ours, theirs, "{name}: the answers differ");
        let base = seconds(|_| proved(entries, 0), 1);
        let a = (seconds(|t| proved(entries, t), times) - base) / times as f64;
        let b = seconds(|t| plain(entries, t), times) / times as f64;
        product *= a / b;
        println!("{name:14} joins {:3} impossible {}  proved {:7.2} us  plain {:7.2} us  ratio {:.2}", ours / 2, ours % 2, a * 1e6, b * 1e6, a / b);
    }
    println!("geometric mean of the ratios: {:.2}", f64::powf(product, 1.0 / cases.len() as f64));
}
