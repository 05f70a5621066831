//! Orders a second of the program `eqtrace`, where it is built, beside the calls alone.
use crate::calls::RATTLE;
use crate::plain::{Equations, Terms, Workspace};
use crate::workloads::Seed;
use std::io::Write;
use std::path::Path;
use std::process::{Command, Stdio};
use std::time::Instant;

enum Order {
    Equate(u16, u16, u16),
    Withdraw(u16),
    Compare(u16, u16),
}

/// `K`, for many orders are refused, declared nodes, then equations, questions and withdrawals, up to the 65,536 bytes that the program reads.
struct Orders {
    terms: Terms,
    list: Vec<Order>,
    text: String,
}

fn orders() -> Orders {
    let mut seed = Seed(0x0dd0_5eed_0dd0_5eed);
    let mut o = Orders { terms: Terms::fresh(), list: Vec::new(), text: String::from("K\n") };
    for u in 0..64 {
        if u < 3 || seed.next(10) < 4 {
            o.terms.put_variable();
            o.text += "V\n";
        } else {
            let (symbol, a, b) = (1 + seed.next(3), seed.next(u), seed.next(u));
            o.terms.put_functor(symbol as u16, &[a as u8, b as u8]);
            o.text += &format!("F {symbol} {a} {b}\n");
        }
    }
    while o.text.len() < 65_000 {
        let (u, v, name) = (seed.next(64) as u16, seed.next(64) as u16, seed.next(40) as u16);
        let (order, line) = match seed.next(4) {
            0 | 1 => (Order::Equate(name, u, v), format!("E {name} {u} {v}\n")),
            2 => (Order::Compare(u, v), format!("Q {u} {v}\n")),
            _ => (Order::Withdraw(name), format!("W {name}\n")),
        };
        o.list.push(order);
        o.text += &line;
    }
    o
}

fn run(path: &Path, input: &[u8]) -> f64 {
    let start = Instant::now();
    let mut child = Command::new(path).stdin(Stdio::piped()).stdout(Stdio::null()).spawn().expect("eqtrace starts");
    child.stdin.take().unwrap().write_all(input).expect("eqtrace reads its input");
    child.wait().expect("eqtrace ends");
    start.elapsed().as_secs_f64()
}

/// The same orders by the library's calls, the declarations made beforehand.
fn call(o: &Orders, buf: &mut [u8]) -> f64 {
    let mut w = Workspace { terms: o.terms, equations: Equations::fresh() };
    let start = Instant::now();
    for order in &o.list {
        w = match *order {
            Order::Equate(name, u, v) => RATTLE.equate(&w, name, u, v, buf).space,
            Order::Withdraw(name) => RATTLE.withdraw(&w, name).space,
            Order::Compare(u, v) => RATTLE.compare(&w, u, v, buf).space,
        };
    }
    start.elapsed().as_secs_f64()
}

fn best(mut run: impl FnMut() -> f64) -> f64 {
    (0..10).map(|_| run()).fold(f64::MAX, f64::min)
}

pub fn rows() {
    let o = orders();
    let mut buf = vec![0u8; 65536];
    let took = best(|| call(&o, &mut buf));
    println!("orders a second, over {} equations, questions and withdrawals on 64 nodes", o.list.len());
    println!("  {:<56} {:>10.0}", "the calls alone", o.list.len() as f64 / took);
    let path = Path::new(env!("CARGO_MANIFEST_DIR")).join("../crates/eqtrace/out/eqtrace");
    if !path.exists() {
        println!("  {:<56} {:>10}", "the program eqtrace (not built: bin/eqtrace does)", "-");
        return;
    }
    let took = best(|| run(&path, o.text.as_bytes())) - best(|| run(&path, b""));
    println!("  {:<56} {:>10.0}", "the program eqtrace, its start not counted", (o.list.len() + 65) as f64 / took);
}
