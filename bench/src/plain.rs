//! The same algorithm in plain Rust: arrays of the same layout, the same passes in the same order, nothing proved.

#[repr(C)]
#[derive(Clone, Copy)]
pub struct Terms {
    pub count: usize,
    pub kind: [u8; 64],
    pub symbol: [u16; 64],
    pub arity: [u8; 64],
    pub child: [u8; 256],
}

#[repr(C)]
#[derive(Clone, Copy)]
pub struct Equations {
    pub count: usize,
    pub name: [u16; 256],
    pub left: [u8; 256],
    pub right: [u8; 256],
}

#[repr(C)]
#[derive(Clone, Copy)]
pub struct Workspace {
    pub terms: Terms,
    pub equations: Equations,
}

pub type Table = [u8; 64];
pub type Trace = [u16; 64];

impl Terms {
    pub fn fresh() -> Terms {
        Terms { count: 0, kind: [0; 64], symbol: [0; 64], arity: [0; 64], child: [0; 256] }
    }

    pub fn put_variable(&mut self) -> u8 {
        let n = self.count;
        self.count = n + 1;
        n as u8
    }

    pub fn put_functor(&mut self, symbol: u16, children: &[u8]) -> u8 {
        let n = self.count;
        for (j, &c) in children.iter().enumerate() {
            self.child[4 * n + j] = c;
        }
        self.kind[n] = 1;
        self.symbol[n] = symbol;
        self.arity[n] = children.len() as u8;
        self.count = n + 1;
        n as u8
    }
}

impl Equations {
    pub fn fresh() -> Equations {
        Equations { count: 0, name: [0; 256], left: [0; 256], right: [0; 256] }
    }

    pub fn put(&mut self, name: u16, left: u8, right: u8) {
        let n = self.count;
        self.name[n] = name;
        self.left[n] = left;
        self.right[n] = right;
        self.count = n + 1;
    }

    pub fn find(&self, name: u16) -> Option<usize> {
        (0..self.count).find(|&i| self.name[i] == name)
    }

    /// The last place freed.
    pub fn pop(&mut self) {
        let k = self.count - 1;
        self.name[k] = 0;
        self.left[k] = 0;
        self.right[k] = 0;
        self.count = k;
    }

    pub fn remove(&mut self, k: usize) {
        self.name.copy_within(k + 1.., k);
        self.left.copy_within(k + 1.., k);
        self.right.copy_within(k + 1.., k);
        self.name[255] = 0;
        self.left[255] = 0;
        self.right[255] = 0;
        self.count -= 1;
    }
}

// ---- the shape test: loops without a way out in the middle, so that they are vectorised

fn zero_from<T: Copy + PartialEq + Default>(s: &[T], k: usize) -> bool {
    s[k..].iter().fold(true, |ok, &x| ok & (x == T::default()))
}

fn first_below(s: &[u8], n: usize, m: u8) -> bool {
    s[..n].iter().fold(true, |ok, &x| ok & (x < m))
}

fn head_ok(kind: u8, symbol: u16, arity: u8) -> bool {
    if kind == 0 {
        (symbol == 0) & (arity == 0)
    } else {
        (kind == 1) & (arity <= 4)
    }
}

fn places_ok(child: &[u8; 256], arity: u8, u: u8) -> bool {
    let at = 4 * u as usize;
    let places = &child[at..at + 4];
    (0..4u8).fold(true, |ok, j| {
        let c = places[j as usize];
        ok & if j < arity { c < u } else { c == 0 }
    })
}

// Whether each functor node of symbol f among the first n has k children.
fn arity_fits(t: &Terms, n: usize, f: u16, k: u8) -> bool {
    (0..n).fold(true, |ok, u| ok & ((t.kind[u] != 1) | (t.symbol[u] != f) | (t.arity[u] == k)))
}

// Whether functor nodes of one symbol have equally many children: by a head for each remainder of a symbol.
fn one_arity(t: &Terms) -> bool {
    let mut head = [64u8; 64];
    for u in 0..t.count {
        if t.kind[u] != 1 {
            continue;
        }
        let (f, k) = (t.symbol[u], t.arity[u]);
        let h = f as usize % 64;
        let v = head[h] as usize;
        if v >= 64 {
            head[h] = u as u8;
            continue;
        }
        let fits = if t.symbol[v] == f { t.arity[v] == k } else { arity_fits(t, u, f, k) };
        if !fits {
            return false;
        }
    }
    true
}

pub fn terms_shaped(t: &Terms) -> bool {
    let n = t.count;
    if n > 64 {
        return false;
    }
    let mut used = true;
    for u in 0..n {
        used &= head_ok(t.kind[u], t.symbol[u], t.arity[u]) & places_ok(&t.child, t.arity[u], u as u8);
    }
    used & zero_from(&t.kind, n) & zero_from(&t.symbol, n) & zero_from(&t.arity, n) & zero_from(&t.child, 4 * n) & one_arity(t)
}

// A bit for each of the 65,536 names.
fn names_differ(e: &Equations) -> bool {
    let mut seen = [0u64; 1024];
    for &x in &e.name[..e.count] {
        let old = &mut seen[x as usize / 64];
        let bit = 1u64 << (x % 64);
        if *old & bit != 0 {
            return false;
        }
        *old |= bit;
    }
    true
}

pub fn equations_shaped(n: usize, e: &Equations) -> bool {
    let m = e.count;
    if m > 256 {
        return false;
    }
    let known = first_below(&e.left, m, n as u8) & first_below(&e.right, m, n as u8);
    let unused = zero_from(&e.name, m) & zero_from(&e.left, m) & zero_from(&e.right, m);
    known & unused && names_differ(e)
}

pub fn shaped(w: &Workspace) -> bool {
    terms_shaped(&w.terms) && equations_shaped(w.terms.count, &w.equations)
}

// ---- the solver

pub fn fresh_table() -> Table {
    std::array::from_fn(|i| i as u8)
}

pub fn merge(table: &mut Table, a: u8, b: u8) {
    let ca = table[a as usize];
    let cb = table[b as usize];
    let (keep, gone) = if ca <= cb { (ca, cb) } else { (cb, ca) };
    for entry in table.iter_mut() {
        // stored in either case, so that the loop is vectorised
        *entry = if *entry == gone { keep } else { *entry };
    }
}

fn join(table: &mut Table, trace: &mut Trace, steps: &mut usize, x: u8, y: u8, reason: u16) {
    if table[x as usize] == table[y as usize] {
        return;
    }
    merge(table, x, y);
    trace[*steps] = reason;
    *steps += 1;
}

// One round from the highest node down: each functor node against the head of its class. A clash ends it.
fn round(t: &Terms, table: &mut Table, trace: &mut Trace, steps: &mut usize) -> Option<(u8, u8)> {
    let mut head = [64u8; 64];
    for u in (0..t.count).rev() {
        if t.kind[u] != 1 {
            continue;
        }
        let c = table[u] as usize;
        let v = head[c] as usize;
        if v >= 64 {
            head[c] = u as u8;
            continue;
        }
        if t.symbol[u] != t.symbol[v] {
            return Some((u as u8, v as u8));
        }
        for k in 0..t.arity[u] as usize {
            let reason = (k + 1) * 4096 + u * 64 + v;
            join(table, trace, steps, t.child[4 * u + k], t.child[4 * v + k], reason as u16);
        }
    }
    None
}

// Rounds until one clashes or merges nothing.
fn rounds(t: &Terms, table: &mut Table, trace: &mut Trace, steps: &mut usize) -> Option<(u8, u8)> {
    loop {
        let before = *steps;
        let clash = round(t, table, trace, steps);
        if clash.is_some() || *steps == before {
            return clash;
        }
    }
}

// How many rounds the closure takes.
pub fn count_rounds(t: &Terms, e: &Equations) -> usize {
    let (mut table, mut trace, mut steps) = (fresh_table(), [0; 64], 0);
    for k in 0..e.count {
        join(&mut table, &mut trace, &mut steps, e.left[k], e.right[k], k as u16);
    }
    let mut count = 0;
    loop {
        let before = steps;
        count += 1;
        if round(t, &mut table, &mut trace, &mut steps).is_some() || steps == before {
            return count;
        }
    }
}

pub struct Closure {
    pub table: Table,
    pub trace: Trace,
    pub steps: usize,
    pub clash: Option<(u8, u8)>,
}

// The closure of the first m equations.
pub fn close(t: &Terms, e: &Equations, m: usize) -> Closure {
    let mut c = Closure { table: fresh_table(), trace: [0; 64], steps: 0, clash: None };
    for k in 0..m {
        join(&mut c.table, &mut c.trace, &mut c.steps, e.left[k], e.right[k], k as u16);
    }
    c.clash = rounds(t, &mut c.table, &mut c.trace, &mut c.steps);
    c
}

// Whether node u has a child in a class that is left.
fn stuck(t: &Terms, table: &Table, height: &[u8; 64], u: usize) -> bool {
    t.kind[u] == 1 && (0..t.arity[u] as usize).any(|j| height[table[t.child[4 * u + j] as usize] as usize] == 255)
}

// Heights of the classes, 255 for those that are left. A class goes once none of its nodes is stuck, and counts as gone within the same pass.
// Passes go up and down by turns, until every class went or a pass lets none go. Gives how many classes are left.
pub fn peel(t: &Terms, table: &Table, height: &mut [u8; 64]) -> u8 {
    let n = t.count;
    *height = [255; 64];
    let mut pending = [true; 64];
    let mut waiting = [0u8; 64];
    let mut total = 0;
    for u in 0..n {
        let c = table[u] as usize;
        waiting[c] += 1;
        if c == u {
            total += 1;
        }
    }
    let mut went = 0;
    let mut down = false;
    while went < total {
        let before = went;
        for i in 0..n {
            let u = if down { n - 1 - i } else { i };
            if !pending[u] || stuck(t, table, height, u) {
                continue;
            }
            let c = table[u] as usize;
            pending[u] = false;
            waiting[c] -= 1;
            if waiting[c] == 0 {
                height[c] = went;
                went += 1;
            }
        }
        if went == before {
            return total - went;
        }
        down = !down;
    }
    0
}

// Which classes lie below a node, and how each was reached.
pub struct Reach {
    pub level: [u8; 64],
    pub parent: [u8; 64],
    pub place: [u8; 64],
    pub child: [u8; 64],
}

// Passes down and up by turns, until one reaches no class. A class that is reached counts for the nodes visited after it; the start itself
// only where a way down leads back to it.
pub fn search(t: &Terms, table: &Table, u: u8, r: &mut Reach) {
    *r = Reach::new();
    let n = t.count;
    let start = table[u as usize];
    let mut reached = 0u8;
    let mut down = true;
    loop {
        let before = reached;
        for i in 0..n {
            let p = if down { n - 1 - i } else { i };
            let c = table[p];
            if t.kind[p] != 1 || (c != start && r.level[c as usize] == 0) {
                continue;
            }
            for j in 0..t.arity[p] as usize {
                let k = t.child[4 * p + j];
                let d = table[k as usize] as usize;
                if r.level[d] == 0 {
                    reached += 1;
                    r.parent[d] = p as u8;
                    r.place[d] = j as u8 + 1;
                    r.child[d] = k;
                    r.level[d] = reached;
                }
            }
        }
        if reached == before {
            return;
        }
        down = !down;
    }
}

impl Reach {
    pub fn new() -> Reach {
        Reach { level: [0; 64], parent: [0; 64], place: [0; 64], child: [0; 64] }
    }
}

// A node below itself, with the way down to it: search from each functor node that the peel left.
fn find_cycle(t: &Terms, table: &Table, height: &[u8; 64], r: &mut Reach) -> Option<u8> {
    for u in 0..t.count {
        let c = table[u] as usize;
        if t.kind[u] != 1 || height[c] != 255 {
            continue;
        }
        search(t, table, u as u8, r);
        if r.level[c] != 0 {
            return Some(u as u8);
        }
    }
    None
}

// 8 for a clash, 9 for a cycle, 0 for a solution.
pub fn verdict(t: &Terms, c: &Closure, height: &mut [u8; 64]) -> u8 {
    if c.clash.is_some() {
        return 8;
    }
    if peel(t, &c.table, height) == 0 {
        0
    } else {
        9
    }
}

// Solves: the verdict, with the table and trace of the closure.
pub fn solve(t: &Terms, e: &Equations, m: usize, height: &mut [u8; 64]) -> (Closure, u8) {
    let c = close(t, e, m);
    let v = verdict(t, &c, height);
    (c, v)
}

// ---- the writer

fn put_line(buf: &mut [u8], n: usize, rule: u8, place: u8, first: u16, second: u16) {
    let line = &mut buf[8 * n..8 * n + 8];
    line[0] = rule;
    line[1] = place;
    line[2..4].copy_from_slice(&first.to_be_bytes());
    line[4..6].copy_from_slice(&second.to_be_bytes());
    line[6] = 0;
    line[7] = 0;
}

// p same q, from lines i, p same x, and j, q same x.
fn link(buf: &mut [u8], n: usize, i: u16, j: u16) {
    put_line(buf, n, 4, 0, j, 0);
    put_line(buf, n + 1, 5, 0, i, n as u16);
}

fn absorb(buf: &mut [u8], n: usize, nodes: usize, table: &Table, gone: u8, l: u16, to: &mut [u16; 64]) -> usize {
    let mut m = n;
    for x in 0..nodes {
        if table[x] == gone {
            put_line(buf, m, 5, 0, to[x], l);
            to[x] = m as u16;
            m += 1;
        }
    }
    m
}

// Line l claims a same b: a line to the lower root for each node of the higher's class.
fn rewire(buf: &mut [u8], n: usize, nodes: usize, table: &Table, l: u16, a: u8, b: u8, to: &mut [u16; 64]) -> usize {
    let i = to[a as usize];
    let j = to[b as usize];
    let ca = table[a as usize];
    let cb = table[b as usize];
    put_line(buf, n, 5, 0, l, j);
    if ca <= cb {
        put_line(buf, n + 1, 4, 0, n as u16, 0);
        put_line(buf, n + 2, 5, 0, n as u16 + 1, i);
        return absorb(buf, n + 3, nodes, table, cb, n as u16 + 2, to);
    }
    put_line(buf, n + 1, 4, 0, i, 0);
    put_line(buf, n + 2, 5, 0, n as u16 + 1, n as u16);
    absorb(buf, n + 3, nodes, table, ca, n as u16 + 2, to)
}

// The two nodes that an entry joins.
fn ends_of(t: &Terms, e: &Equations, entry: u16) -> (u8, u8) {
    let r = entry as usize;
    if r < 4096 {
        return (e.left[r], e.right[r]);
    }
    let j = r / 4096 - 1;
    (t.child[4 * (r / 64 % 64) + j], t.child[4 * (r % 64) + j])
}

// The entries are a trace that joins each of the pairs.
fn joins(t: &Terms, e: &Equations, trace: &[u16], pairs: &[(u8, u8)]) -> bool {
    let mut table = fresh_table();
    for &entry in trace {
        let r = entry as usize;
        let (a, b) = ends_of(t, e, entry);
        if table[a as usize] == table[b as usize] || (r >= 4096 && table[r / 64 % 64] != table[r % 64]) {
            return false;
        }
        merge(&mut table, a, b);
    }
    pairs.iter().all(|&(x, y)| table[x as usize] == table[y as usize])
}

// Entries are dropped, the last first, while the rest still join each of the pairs.
fn trim(t: &Terms, e: &Equations, trace: &Trace, steps: usize, pairs: &[(u8, u8)]) -> (Trace, usize) {
    let mut kept = *trace;
    let mut m = steps;
    for k in (0..steps).rev() {
        let mut less = kept;
        less.copy_within(k + 1..m, k);
        if joins(t, e, &less[..m - 1], pairs) {
            kept = less;
            m -= 1;
        }
    }
    (kept, m)
}

// The trace replayed: for each node, `to` has the number of a line that claims it same its root.
fn replay(buf: &mut [u8], t: &Terms, e: &Equations, trace: &[u16], to: &mut [u16; 64]) -> usize {
    let nodes = t.count;
    for x in 0..nodes {
        put_line(buf, x, 3, 0, x as u16, 0);
        to[x] = x as u16;
    }
    let mut table = fresh_table();
    let mut n = nodes;
    for &entry in trace {
        let r = entry as usize;
        let (a, b) = ends_of(t, e, entry);
        if r < 4096 {
            put_line(buf, n, 1, 0, e.name[r], 0);
            n = rewire(buf, n + 1, nodes, &table, n as u16, a, b, to);
        } else {
            link(buf, n, to[r / 64 % 64], to[r % 64]);
            put_line(buf, n + 2, 6, (r / 4096) as u8, n as u16 + 1, 0);
            n = rewire(buf, n + 3, nodes, &table, n as u16 + 2, a, b, to);
        }
        merge(&mut table, a, b);
    }
    n
}

// The lines of the entries that are needed to join each of the pairs.
fn prepare(buf: &mut [u8], t: &Terms, e: &Equations, c: &Closure, pairs: &[(u8, u8)], to: &mut [u16; 64]) -> usize {
    let (few, k) = trim(t, e, &c.trace, c.steps, pairs);
    replay(buf, t, e, &few[..k], to)
}

pub fn explain_same(buf: &mut [u8], t: &Terms, e: &Equations, c: &Closure, u: u8, v: u8) -> usize {
    let mut to = [0u16; 64];
    let n = prepare(buf, t, e, c, &[(u, v)], &mut to);
    link(buf, n, to[u as usize], to[v as usize]);
    n + 2
}

// From lines i, k same x, and j, q same x, where k is the child of p at place: p below q, in one line or four.
fn descend(buf: &mut [u8], n: usize, to: &[u16; 64], k: u8, q: u8, p: u8, place: u8) -> usize {
    put_line(buf, n, 2, place, p as u16, 0);
    if k == q {
        return n + 1;
    }
    link(buf, n + 1, to[k as usize], to[q as usize]);
    put_line(buf, n + 3, 5, 0, n as u16, n as u16 + 2);
    n + 4
}

// The pairs of nodes of one class that the way from v up to u goes through.
fn way_pairs(table: &Table, r: &Reach, u: u8, v: u8, pairs: &mut [(u8, u8); 65]) -> usize {
    let mut count = 0;
    let mut q = v;
    loop {
        let d = table[q as usize] as usize;
        pairs[count] = (r.child[d], q);
        count += 1;
        q = r.parent[d];
        if table[q as usize] == table[u as usize] {
            pairs[count] = (u, q);
            return count + 1;
        }
    }
}

// The node of u's class at which the way down that leads back to it begins.
fn top(table: &Table, r: &Reach, u: u8) -> u8 {
    let mut q = u;
    loop {
        q = r.parent[table[q as usize] as usize];
        if table[q as usize] == table[u as usize] {
            return q;
        }
    }
}

pub fn explain_below(buf: &mut [u8], t: &Terms, e: &Equations, c: &Closure, r: &Reach, u: u8, v: u8) -> usize {
    let table = &c.table;
    let mut to = [0u16; 64];
    let mut pairs = [(0, 0); 65];
    let count = way_pairs(table, r, u, v, &mut pairs);
    let mut n = prepare(buf, t, e, c, &pairs[..count], &mut to);
    let d = table[v as usize] as usize;
    n = descend(buf, n, &to, r.child[d], v, r.parent[d], r.place[d]);
    let mut q = r.parent[d];
    while table[q as usize] != table[u as usize] {
        let d = table[q as usize] as usize;
        let m = descend(buf, n, &to, r.child[d], q, r.parent[d], r.place[d]);
        put_line(buf, m, 5, 0, m as u16 - 1, n as u16 - 1);
        n = m + 1;
        q = r.parent[d];
    }
    if u == q {
        return n;
    }
    link(buf, n, to[u as usize], to[q as usize]);
    put_line(buf, n + 2, 5, 0, n as u16 + 1, n as u16 - 1);
    n + 3
}

// ---- the checker

#[derive(Clone, Copy)]
pub struct Line {
    pub rule: u8,
    pub place: u8,
    pub first: u16,
    pub second: u16,
    pub reserved: u16,
}

pub fn decode(s: &[u8], k: usize) -> Line {
    let l = &s[8 * k..8 * k + 8];
    Line {
        rule: l[0],
        place: l[1],
        first: u16::from_be_bytes([l[2], l[3]]),
        second: u16::from_be_bytes([l[4], l[5]]),
        reserved: u16::from_be_bytes([l[6], l[7]]),
    }
}

struct Row {
    first: bool,
    second: bool,
    place: bool,
}

const ROWS: [Row; 6] = [
    Row { first: true, second: false, place: false },
    Row { first: true, second: false, place: true },
    Row { first: true, second: false, place: false },
    Row { first: true, second: false, place: false },
    Row { first: true, second: true, place: false },
    Row { first: true, second: false, place: true },
];

fn tidy(l: &Line) -> bool {
    let row = &ROWS[l.rule as usize - 1];
    (row.first || l.first == 0) && (row.second || l.second == 0) && (row.place || l.place == 0) && l.reserved == 0
}

#[derive(Clone, Copy, PartialEq)]
pub enum Goal {
    Clash,
    Cycle,
    Same(u8, u8),
    Below(u8, u8),
}

#[derive(Clone, Copy, PartialEq, Debug)]
pub enum Judgement {
    Passed,
    Refused(u8, usize),
}

struct Claims {
    kind: [u8; 8192],
    start: [u8; 8192],
    end: [u8; 8192],
}

const SAME: u8 = 0;
const BELOW: u8 = 1;

fn place_at(t: &Terms, u: usize, p: u8) -> Option<u8> {
    if p == 0 || p > t.arity[u] {
        return None;
    }
    Some(t.child[4 * u + p as usize - 1])
}

fn functor(t: &Terms, u: usize) -> bool {
    u < t.count && t.kind[u] == 1
}

fn down(t: &Terms, u: usize, v: usize, p: u8) -> Option<(u8, u8, u8)> {
    if !functor(t, u) || !functor(t, v) || t.symbol[u] != t.symbol[v] {
        return None;
    }
    Some((SAME, place_at(t, u, p)?, place_at(t, v, p)?))
}

fn claim(w: &Workspace, offered: Option<(u16, u8, u8)>, done: &Claims, k: usize, l: &Line) -> Option<(u8, u8, u8)> {
    if l.rule < 1 || l.rule > 6 || !tidy(l) {
        return None;
    }
    let t = &w.terms;
    let (a, b) = (l.first as usize, l.second as usize);
    match l.rule {
        1 => match w.equations.find(l.first) {
            Some(i) => Some((SAME, w.equations.left[i], w.equations.right[i])),
            None => match offered {
                Some((name, left, right)) if name == l.first => Some((SAME, left, right)),
                _ => None,
            },
        },
        2 if functor(t, a) => Some((BELOW, a as u8, place_at(t, a, l.place)?)),
        2 => None,
        3 if a < t.count => Some((SAME, a as u8, a as u8)),
        3 => None,
        4 if a < k && done.kind[a] == SAME => Some((SAME, done.end[a], done.start[a])),
        4 => None,
        5 if a < k && b < k && done.end[a] == done.start[b] => Some((done.kind[a] | done.kind[b], done.start[a], done.end[b])),
        5 => None,
        _ if a < k && done.kind[a] == SAME => down(t, done.start[a] as usize, done.end[a] as usize, l.place),
        _ => None,
    }
}

fn shows(t: &Terms, goal: Goal, kind: u8, u: u8, v: u8) -> bool {
    match goal {
        Goal::Clash => {
            let (a, b) = (u as usize, v as usize);
            kind == SAME && functor(t, a) && functor(t, b) && t.symbol[a] != t.symbol[b]
        }
        Goal::Cycle => kind == BELOW && u == v,
        Goal::Same(x, y) => kind == SAME && (x, y) == (u, v),
        Goal::Below(x, y) => kind == BELOW && (x, y) == (u, v),
    }
}

// The call: what the checker says of a workspace and known nodes.
pub fn check_same(w: &Workspace, bytes: &[u8], u: u8, v: u8) -> Judgement {
    if !shaped(w) || solve(&w.terms, &w.equations, w.equations.count, &mut [0; 64]).1 != 0 {
        return Judgement::Refused(1, 0);
    }
    if u as usize >= w.terms.count || v as usize >= w.terms.count {
        return Judgement::Refused(4, 0);
    }
    check(w, None, bytes, Goal::Same(u, v))
}

pub fn check(w: &Workspace, offered: Option<(u16, u8, u8)>, bytes: &[u8], goal: Goal) -> Judgement {
    let size = bytes.len();
    if size == 0 || size > 65536 || size % 8 != 0 {
        return Judgement::Refused(11, 0);
    }
    let mut done = Claims { kind: [0; 8192], start: [0; 8192], end: [0; 8192] };
    let count = size / 8;
    for i in 0..count {
        let l = decode(bytes, i);
        let Some((kind, u, v)) = claim(w, offered, &done, i, &l) else {
            return Judgement::Refused(12, i);
        };
        done.kind[i] = kind;
        done.start[i] = u;
        done.end[i] = v;
    }
    let last = count - 1;
    if shows(&w.terms, goal, done.kind[last], done.start[last], done.end[last]) {
        Judgement::Passed
    } else {
        Judgement::Refused(13, 0)
    }
}

// The names cited by equation lines that the last line rests on, rising, each once.
pub fn cited(bytes: &[u8]) -> Vec<u16> {
    let count = bytes.len() / 8;
    let mut marks = vec![false; count];
    let mut names = Vec::new();
    marks[count - 1] = true;
    for k in (0..count).rev().filter(|&k| k < count) {
        if !marks[k] {
            continue;
        }
        let l = decode(bytes, k);
        match l.rule {
            1 => names.push(l.first),
            4 | 6 => marks[l.first as usize] = true,
            5 => {
                marks[l.first as usize] = true;
                marks[l.second as usize] = true;
            }
            _ => {}
        }
    }
    names.sort_unstable();
    names.dedup();
    names
}

// ---- the calls

#[derive(Clone, Copy, PartialEq, Debug)]
pub enum Reply {
    Node(u8),
    Held,
    Gone,
    Same(usize),
    Below(usize),
    Above(usize),
    Apart,
    Class(u8, u8),
    Refused(u8, usize),
}

// The lines of a clash or a cycle.
fn explain_fault(buf: &mut [u8], t: &Terms, e: &Equations, c: &Closure, height: &[u8; 64]) -> usize {
    if let Some((u, v)) = c.clash {
        return explain_same(buf, t, e, c, u, v);
    }
    let mut r = Reach::new();
    match find_cycle(t, &c.table, height, &mut r) {
        Some(u) => {
            let p = top(&c.table, &r, u);
            explain_below(buf, t, e, c, &r, p, p)
        }
        None => 0,
    }
}

pub fn equate(w: &mut Workspace, name: u16, left: u16, right: u16, buf: &mut [u8]) -> Reply {
    let mut height = [0; 64];
    let m = w.equations.count;
    if !shaped(w) {
        return Reply::Refused(1, 0);
    }
    let (mut c, k) = solve(&w.terms, &w.equations, m, &mut height);
    if k != 0 {
        return Reply::Refused(1, 0);
    }
    let n = w.terms.count as u16;
    let early = if buf.len() < 65536 {
        5
    } else if left >= n || right >= n {
        4
    } else if w.equations.find(name).is_some() {
        6
    } else if m >= 256 {
        7
    } else {
        0
    };
    if early != 0 {
        return Reply::Refused(early, 0);
    }
    // on from the table and the trace of the held equations
    w.equations.put(name, left as u8, right as u8);
    join(&mut c.table, &mut c.trace, &mut c.steps, left as u8, right as u8, m as u16);
    c.clash = rounds(&w.terms, &mut c.table, &mut c.trace, &mut c.steps);
    let v = verdict(&w.terms, &c, &mut height);
    if v == 0 {
        return Reply::Held;
    }
    let reply = Reply::Refused(v, explain_fault(buf, &w.terms, &w.equations, &c, &height));
    w.equations.pop();
    reply
}

pub fn declare(w: &mut Workspace, symbol: u16, children: &[u16]) -> Reply {
    let mut height = [0; 64];
    if !shaped(w) || solve(&w.terms, &w.equations, w.equations.count, &mut height).1 != 0 {
        return Reply::Refused(1, 0);
    }
    let t = &mut w.terms;
    let n = t.count;
    let refusal = if n >= 64 {
        2
    } else if children.len() > 4 {
        3
    } else if children.iter().any(|&c| c as usize >= n) {
        4
    } else if !arity_fits(t, n, symbol, children.len() as u8) {
        18
    } else {
        0
    };
    if refusal != 0 {
        return Reply::Refused(refusal, 0);
    }
    let mut bytes = [0u8; 4];
    for (b, &c) in bytes.iter_mut().zip(children) {
        *b = c as u8;
    }
    Reply::Node(t.put_functor(symbol, &bytes[..children.len()]))
}

pub fn withdraw(w: &mut Workspace, name: u16) -> Reply {
    let mut height = [0; 64];
    if !shaped(w) || solve(&w.terms, &w.equations, w.equations.count, &mut height).1 != 0 {
        return Reply::Refused(1, 0);
    }
    match w.equations.find(name) {
        None => Reply::Refused(10, 0),
        Some(k) => {
            w.equations.remove(k);
            Reply::Gone
        }
    }
}

pub fn compare(w: &Workspace, u: u16, v: u16, buf: &mut [u8]) -> Reply {
    let mut height = [0; 64];
    if !shaped(w) {
        return Reply::Refused(1, 0);
    }
    let (c, k) = solve(&w.terms, &w.equations, w.equations.count, &mut height);
    if k != 0 {
        return Reply::Refused(1, 0);
    }
    if buf.len() < 65536 {
        return Reply::Refused(5, 0);
    }
    let n = w.terms.count as u16;
    if u >= n || v >= n {
        return Reply::Refused(4, 0);
    }
    let (u, v) = (u as u8, v as u8);
    if c.table[u as usize] == c.table[v as usize] {
        return Reply::Same(explain_same(buf, &w.terms, &w.equations, &c, u, v));
    }
    let mut r = Reach::new();
    search(&w.terms, &c.table, u, &mut r);
    if r.level[c.table[v as usize] as usize] != 0 {
        return Reply::Below(explain_below(buf, &w.terms, &w.equations, &c, &r, u, v));
    }
    search(&w.terms, &c.table, v, &mut r);
    if r.level[c.table[u as usize] as usize] != 0 {
        return Reply::Above(explain_below(buf, &w.terms, &w.equations, &c, &r, v, u));
    }
    Reply::Apart
}

// The places that have x, one bit for each.
fn places(bytes: &[u8; 64], x: u8) -> u64 {
    let mut set = 0;
    for (i, &b) in bytes.iter().enumerate() {
        if b == x {
            set |= 1 << i;
        }
    }
    set
}

pub fn class_of(w: &Workspace, u: u16) -> Reply {
    let mut height = [0; 64];
    if !shaped(w) {
        return Reply::Refused(1, 0);
    }
    let (c, k) = solve(&w.terms, &w.equations, w.equations.count, &mut height);
    if k != 0 {
        return Reply::Refused(1, 0);
    }
    if u as usize >= w.terms.count {
        return Reply::Refused(4, 0);
    }
    let all = places(&c.table, c.table[u as usize]);
    let types = all & places(&w.terms.kind, 1);
    let shown = if types == 0 { all } else { types };
    Reply::Class(shown.trailing_zeros() as u8, all.count_ones() as u8)
}
