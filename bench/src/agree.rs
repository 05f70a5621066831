//! Both sides give the same answers, value for value, before anything is timed.
use crate::calls::{Calls, PLAIN, RATTLE};
use crate::plain::{self, Equations, Reply, Workspace};
use crate::rattle;
use crate::workloads::{self, Seed};
use std::collections::BTreeMap;

fn solved_alike(w: &Workspace) -> u8 {
    let (mut a, mut b) = ([0; 64], [0; 64]);
    let m = w.equations.count;
    let (c, v) = plain::solve(&w.terms, &w.equations, m, &mut a);
    let (d, k) = rattle::solve(&w.terms, &w.equations, m, &mut b);
    assert!(v == k && c.table == d.table && c.trace == d.trace && c.steps == d.steps && c.clash == d.clash && a == b);
    v
}

/// One value of a workspace changed.
fn damage(w: &mut Workspace, seed: &mut Seed) {
    let x = seed.next(256) as u8;
    match seed.next(10) {
        0 => w.terms.count = seed.next(70),
        1 => w.terms.kind[seed.next(64)] = x,
        2 => w.terms.symbol[seed.next(64)] = x as u16,
        3 => w.terms.arity[seed.next(64)] = x % 8,
        4 => w.terms.child[seed.next(256)] = x,
        5 => w.equations.count = seed.next(260),
        6 => w.equations.name[seed.next(256)] = x as u16,
        7 => w.equations.left[seed.next(256)] = x,
        8 => w.equations.right[seed.next(256)] = x,
        _ => {}
    }
}

/// A call of each kind, with the same reply, the same lines and the same workspace afterwards on both sides.
fn called_alike(w: &Workspace, seed: &mut Seed, a: &mut [u8], b: &mut [u8], counts: &mut BTreeMap<String, usize>) {
    let mut node = || seed.next(w.terms.count.min(64) + 1) as u16;
    let (u, v) = (node(), node());
    let name = seed.next(130) as u16;
    let children: Vec<u16> = (0..seed.next(6)).map(|_| seed.next(w.terms.count.min(64) + 1) as u16).collect();
    // mostly a symbol that some node has
    let symbol = if seed.next(4) == 0 { seed.next(256) as u16 } else { w.terms.symbol[seed.next(64)] };
    let each = |side: Calls, buf: &mut [u8]| {
        let first = side.equate(w, name, u, v, buf);
        let second = side.withdraw(&first.space, name);
        [first, second, side.compare(w, u, v, buf), side.class_of(w, u), side.declare(w, symbol, &children)]
    };
    let (plain, rattle) = (each(PLAIN, a), each(RATTLE, b));
    assert!(a == b, "the same lines");
    for (p, r) in plain.iter().zip(&rattle) {
        assert_eq!(p.reply(), r.reply());
        assert!(same_values(&p.space, &r.space), "the same workspace");
        let reply = match p.reply() {
            Reply::Refused(k, _) => format!("{k}"),
            other => format!("{other:?}").split('(').next().unwrap().to_lowercase(),
        };
        *counts.entry(reply).or_default() += 1;
    }
}

fn same_values(x: &Workspace, y: &Workspace) -> bool {
    let (s, t) = (&x.terms, &y.terms);
    let (d, e) = (&x.equations, &y.equations);
    (s.count, s.kind, s.symbol, s.arity, s.child) == (t.count, t.kind, t.symbol, t.arity, t.child)
        && (d.count, d.name, d.left, d.right) == (e.count, e.name, e.left, e.right)
}

pub fn check() {
    let mut seed = Seed(0x5eed_5eed_5eed_5eed);
    let (mut buf, mut other) = (vec![0u8; 65536], vec![0u8; 65536]);
    let mut counts = BTreeMap::new();
    let mut verdicts = [0; 3];
    let (mut shaped, mut misshaped, mut passed, mut refused) = (0, 0, 0, 0);
    for turn in 0..20_000 {
        let n = 1 + seed.next(64);
        let mut w = Workspace { terms: workloads::random_terms(&mut seed, n), equations: Equations::fresh() };
        // of every third one, all symbols leave one remainder by 64
        if turn % 3 == 0 {
            w.terms.symbol.iter_mut().for_each(|f| *f *= 64);
        }
        // of every second one, only what leaves a solution
        for k in 0..seed.next(if n < 12 { 8 } else { 40 }) {
            w.equations.put(k as u16 * 3, seed.next(n) as u8, seed.next(n) as u8);
            if turn % 2 == 0 && plain::solve(&w.terms, &w.equations, w.equations.count, &mut [0; 64]).1 != 0 {
                w.equations.pop();
            }
        }
        let v = solved_alike(&w);
        verdicts[v as usize % 7] += 1;
        other.copy_from_slice(&buf);
        called_alike(&w, &mut seed, &mut buf, &mut other, &mut counts);
        let (u, x) = (seed.next(n) as u8, seed.next(n) as u8);
        if let Reply::Same(lines) = plain::compare(&w, u as u16, x as u16, &mut buf) {
            for _ in 0..4 {
                let proof = &mut buf[..8 * lines];
                let same = PLAIN.check_same(&w, proof, u, x).judgement();
                assert_eq!(same, RATTLE.check_same(&w, proof, u, x).judgement());
                *(if same == plain::Judgement::Passed { &mut passed } else { &mut refused }) += 1;
                let at = seed.next(proof.len());
                proof[at] = seed.next(8) as u8;
            }
        }
        damage(&mut w, &mut seed);
        let ok = plain::shaped(&w);
        assert_eq!(ok, rattle::shaped(&w));
        other.copy_from_slice(&buf);
        called_alike(&w, &mut seed, &mut buf, &mut other, &mut counts);
        *(if ok { &mut shaped } else { &mut misshaped }) += 1;
    }
    println!(
        "both sides agree on 20,000 random inputs: {} solved, {} clashes, {} cycles; {shaped} well-shaped, {misshaped} not; {passed} proofs passed, {refused} refused",
        verdicts[0], verdicts[1], verdicts[2]
    );
    let counts: Vec<String> = counts.iter().map(|(reply, count)| format!("{reply} {count}")).collect();
    println!("and on the replies, lines and workspaces of 200,000 calls (a number is a refusal): {}", counts.join(", "));
}
