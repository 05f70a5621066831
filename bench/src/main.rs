//! Times the plain Rust beside the proved library, in one run: `bench/run`.
mod agree;
mod calls;
mod citations;
mod plain;
mod program;
mod rattle;
mod timing;
mod workloads;

use calls::{Calls, Told, PLAIN, RATTLE};
use plain::{Goal, Judgement, Reply, Workspace};
use std::hint::black_box;
use timing::{row, Side};
use workloads::Workload;

fn shape_rows(all: &[Workload]) {
    timing::title("the shape test");
    let worst = ("64 symbols of one remainder", workloads::one_remainder());
    for (name, w) in all.iter().map(|l| (l.name, l.workspace)).chain([worst]) {
        assert!(plain::shaped(&w) && rattle::shaped(&w));
        let rust = || {
            black_box(plain::shaped(black_box(&w)));
        };
        let rattle = || {
            black_box(rattle::shaped(black_box(&w)));
        };
        row(name, &mut [Side::of(rust), Side::of(rattle)]);
    }
}

fn solve_rows(all: &[Workload]) {
    timing::title("solve: class table, trace, heights and verdict");
    for l in all {
        let w = l.workspace;
        let rust = || {
            let mut height = [0; 64];
            let (c, v) = plain::solve(black_box(&w.terms), &w.equations, w.equations.count, &mut height);
            black_box((c.table, c.trace, v, height));
        };
        let rattle = || {
            let mut height = [0; 64];
            let (c, v) = rattle::solve(black_box(&w.terms), &w.equations, w.equations.count, &mut height);
            black_box((c.table, c.trace, v, height));
        };
        let rounds = plain::count_rounds(&w.terms, &w.equations);
        row(&format!("{}, {rounds} rounds", l.name), &mut [Side::of(rust), Side::of(rattle)]);
    }
}

const ROWS: [&str; 10] = [
    "declare, node", "declare, refused 18", "equate, held", "equate, refused 8", "equate, refused 9", "compare, same", "compare, below", "class",
    "withdraw", "handed over and back",
];

const COPIES: &str = ROWS[9];

fn call(side: Calls, w: &Workspace, l: &Workload, buf: &mut [u8], which: &str) -> Option<Told> {
    let mut equate = |(name, u, v): (u16, u8, u8)| side.equate(w, name, u as u16, v as u16, buf);
    Some(match which {
        "declare, node" => side.declare(w, 7, &[0, 0]),
        "declare, refused 18" => side.declare(w, *w.terms.symbol.iter().find(|&&f| f > 0)?, &[]),
        "equate, held" => equate(l.held),
        "equate, refused 8" => equate(l.clash?),
        "equate, refused 9" => equate(l.cycle?),
        "compare, same" => side.compare(w, l.same?.0 as u16, l.same?.1 as u16, buf),
        "compare, below" => side.compare(w, l.below?.0 as u16, l.below?.1 as u16, buf),
        "withdraw" => side.withdraw(w, *w.equations.name[..w.equations.count].last()?),
        _ => side.class_of(w, 0),
    })
}

fn start_of(l: &Workload, which: &str) -> Workspace {
    let mut w = if which.starts_with("equate") { l.room } else { l.workspace };
    if which.starts_with("declare") {
        w = workloads::room_for_a_node(&w);
    }
    // refused at once, so that the copies are all there is to time
    if which == COPIES {
        w.terms.count = 65;
    }
    w
}

fn call_rows(all: &[Workload]) {
    for which in ROWS {
        timing::title(which);
        for l in all.iter().take(if which == COPIES { 1 } else { all.len() }) {
            let start = start_of(l, which);
            let (mut a, mut b) = (vec![0u8; 65536], vec![0u8; 65536]);
            let Some(told) = call(PLAIN, &start, l, &mut a, which) else { continue };
            let reply = told.reply();
            assert_eq!(reply, call(RATTLE, &start, l, &mut b, which).unwrap().reply());
            assert!(a == b, "the same lines");
            let rust = || {
                black_box(call(PLAIN, black_box(&start), l, &mut a, which));
            };
            let rattle = || {
                black_box(call(RATTLE, black_box(&start), l, &mut b, which));
            };
            row(&format!("{}: {reply:?}", l.name), &mut [Side::of(rust), Side::of(rattle)]);
        }
    }
}

/// 8,192 lines: the proof of the 64-node workload's last pair, with copies of a joined line after it.
fn long_proof(l: &Workload) -> Vec<u8> {
    let mut buf = vec![0u8; 65536];
    let (u, v) = l.same.unwrap();
    let Reply::Same(n) = plain::compare(&l.workspace, u as u16, v as u16, &mut buf) else { unreachable!() };
    for k in n..8192 {
        let from = (k - n) % n;
        buf.copy_within(8 * from..8 * from + 8, 8 * k);
    }
    buf.copy_within(8 * (n - 1)..8 * n, 65536 - 8);
    assert_eq!(plain::check(&l.workspace, None, &buf, Goal::Same(u, v)), Judgement::Passed);
    buf
}

fn check_rows(all: &[Workload]) {
    timing::title("check: 8,192 lines, ns a line");
    for l in all.iter().filter(|l| l.same.is_some()) {
        let bytes = long_proof(l);
        let (u, v) = l.same.unwrap();
        let rust = || {
            black_box(PLAIN.check_same(&l.workspace, black_box(&bytes), u, v));
        };
        let rattle = || {
            black_box(RATTLE.check_same(&l.workspace, black_box(&bytes), u, v));
        };
        timing::row_per(l.name, 8192.0, &mut [Side::of(rust), Side::of(rattle)]);
    }
}

fn growth_rows() {
    timing::title("equate, held: growth with the number of equations, 64 nodes");
    let mut seed = workloads::Seed(0x2545_f491_4f6c_dd1d);
    let full = workloads::random_workspace(&mut seed, 64, 256);
    for m in [16, 32, 64, 128, 256] {
        let mut start = full;
        while start.equations.count >= m {
            start.equations.remove(start.equations.count - 1);
        }
        let (u, v) = (full.equations.left[m - 1] as u16, full.equations.right[m - 1] as u16);
        let (mut a, mut b) = (vec![0u8; 65536], vec![0u8; 65536]);
        let rust = || {
            black_box(PLAIN.equate(black_box(&start), 7, u, v, &mut a));
        };
        let rattle = || {
            black_box(RATTLE.equate(black_box(&start), 7, u, v, &mut b));
        };
        row(&format!("equation {m}"), &mut [Side::of(rust), Side::of(rattle)]);
    }
}

fn main() {
    agree::check();
    let all = workloads::all();
    timing::head();
    shape_rows(&all);
    solve_rows(&all);
    check_rows(&all);
    call_rows(&all);
    growth_rows();
    citations::rows(RATTLE);
    program::rows();
}
