//! Workloads of document 01's limits, the same in every run: a fixed seed, and plain loops.
use crate::plain::{self, Equations, Reply, Terms, Workspace};

pub struct Workload {
    pub name: &'static str,
    pub workspace: Workspace,
    /// The same with a place free for one equation more.
    pub room: Workspace,
    /// An equation with known ends and a name not held that is taken.
    pub held: (u16, u8, u8),
    /// One that is refused with 8, and one with 9, where there are.
    pub clash: Option<(u16, u8, u8)>,
    pub cycle: Option<(u16, u8, u8)>,
    /// Two nodes of one class, where there are.
    pub same: Option<(u8, u8)>,
    /// Two nodes, the second below the first, where there are.
    pub below: Option<(u8, u8)>,
}

/// A small generator of numbers (xorshift).
pub struct Seed(pub u64);

impl Seed {
    pub fn next(&mut self, below: usize) -> usize {
        self.0 ^= self.0 << 13;
        self.0 ^= self.0 >> 7;
        self.0 ^= self.0 << 17;
        ((self.0 >> 33) as usize) % below
    }
}

const NAME: u16 = 1000;

fn solvable(w: &Workspace) -> bool {
    plain::solve(&w.terms, &w.equations, w.equations.count, &mut [0; 64]).1 == 0
}

fn verdict_with(w: &Workspace, name: u16, u: u8, v: u8) -> u8 {
    let mut w = *w;
    w.equations.put(name, u, v);
    plain::solve(&w.terms, &w.equations, w.equations.count, &mut [0; 64]).1
}

/// n nodes, some a variable, most a functor node of one of a few labels, on earlier nodes.
pub fn random_terms(seed: &mut Seed, n: usize) -> Terms {
    let mut t = Terms::fresh();
    for u in 0..n {
        if u < 3 || seed.next(10) < 4 {
            t.put_variable();
            continue;
        }
        let symbol = seed.next(4);
        let arity = [1, 2, 2, 3][symbol];
        let children: Vec<u8> = (0..arity).map(|_| seed.next(u) as u8).collect();
        t.put_functor(symbol as u16 + 1, &children);
    }
    t
}

/// Random equations, of which those are taken that leave a solution; m of them.
pub fn random_workspace(seed: &mut Seed, n: usize, m: usize) -> Workspace {
    let mut w = Workspace { terms: random_terms(seed, n), equations: Equations::fresh() };
    let mut name = NAME;
    while w.equations.count < m {
        let (u, v) = (seed.next(n) as u8, seed.next(n) as u8);
        if u != v && verdict_with(&w, name, u, v) == 0 {
            w.equations.put(name, u, v);
            name += 7;
        }
    }
    w
}

/// The calls' arguments, found by trying: those with the longest proofs.
fn with_questions(name: &'static str, workspace: Workspace) -> Workload {
    assert!(plain::shaped(&workspace) && solvable(&workspace), "{name} is a workspace");
    let offer = 7;
    let mut room = workspace;
    if room.equations.count == 256 {
        room.equations.remove(255);
    }
    let n = workspace.terms.count as u8;
    let table = plain::close(&workspace.terms, &workspace.equations, workspace.equations.count).table;
    let mut l = Workload { name, workspace, room, held: (offer, 0, 0), clash: None, cycle: None, same: None, below: None };
    let mut buf = vec![0u8; 65536];
    let [mut same, mut below, mut clash, mut cycle] = [0; 4];
    for u in 0..n {
        for v in 0..n {
            match plain::compare(&workspace, u as u16, v as u16, &mut buf) {
                Reply::Same(k) if k > same => (same, l.same) = (k, Some((u, v))),
                Reply::Below(k) if k > below => (below, l.below) = (k, Some((u, v))),
                _ => {}
            }
            if u < v && table[u as usize] != table[v as usize] {
                let mut w = room;
                match plain::equate(&mut w, offer, u as u16, v as u16, &mut buf) {
                    Reply::Held => l.held = (offer, u, v),
                    Reply::Refused(8, k) if k > clash => (clash, l.clash) = (k, Some((offer, u, v))),
                    Reply::Refused(9, k) if k > cycle => (cycle, l.cycle) = (k, Some((offer, u, v))),
                    _ => {}
                }
            }
        }
    }
    l
}

/// 64 variables, each equal to the next.
fn chain() -> Workspace {
    let mut w = Workspace { terms: Terms::fresh(), equations: Equations::fresh() };
    for _ in 0..64 {
        w.terms.put_variable();
    }
    for i in 0..63 {
        w.equations.put(NAME + i as u16, i, i + 1);
    }
    w
}

/// Two towers side by side whose tops are equal: each merge forces the next, down to the bottom.
fn ladder() -> Workspace {
    let mut w = Workspace { terms: Terms::fresh(), equations: Equations::fresh() };
    w.terms.put_variable();
    w.terms.put_variable();
    for i in 2..64 {
        w.terms.put_functor(1, &[i - 2]);
    }
    w.equations.put(NAME, 62, 63);
    w
}

/// A variable, and 63 functor nodes each over the last.
fn tower() -> Workspace {
    let mut w = Workspace { terms: Terms::fresh(), equations: Equations::fresh() };
    w.terms.put_variable();
    for i in 1..64 {
        w.terms.put_functor(1, &[i - 1]);
    }
    w
}

/// 64 functor nodes whose symbols are all different and leave one remainder by 64: the shape test's worst case.
pub fn one_remainder() -> Workspace {
    let mut w = Workspace { terms: Terms::fresh(), equations: Equations::fresh() };
    for i in 0..64 {
        w.terms.put_functor(64 * i, &[]);
    }
    w
}

/// The same without equations, and of 64 nodes without the last, so that one can be declared.
pub fn room_for_a_node(w: &Workspace) -> Workspace {
    let mut w = Workspace { terms: w.terms, equations: Equations::fresh() };
    let t = &mut w.terms;
    if t.count == 64 {
        t.count = 63;
        (t.kind[63], t.symbol[63], t.arity[63]) = (0, 0, 0);
        t.child[252..].fill(0);
    }
    w
}

pub fn all() -> Vec<Workload> {
    let mut seed = Seed(0x9e37_79b9_7f4a_7c15);
    vec![
        with_questions("8 nodes, 4 equations", random_workspace(&mut seed, 8, 4)),
        with_questions("24 nodes, 32 equations", random_workspace(&mut seed, 24, 32)),
        with_questions("64 nodes, 256 equations", random_workspace(&mut seed, 64, 256)),
        with_questions("chain of 63 equations", chain()),
        with_questions("ladder of 31 merges", ladder()),
        with_questions("tower of 63 levels", tower()),
    ]
}
