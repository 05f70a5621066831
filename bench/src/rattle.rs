//! The proved library's parts, by the functions that crates/bench_ffi exports. What each asks of its caller, its contract there says.
use crate::plain::{Closure, Equations, Table, Terms, Trace, Workspace};

#[repr(C)]
struct Ending {
    steps: usize,
    clash: bool,
    left: usize,
    right: usize,
}

type Bytes = [u8; 64];
type Words = [u16; 64];
type Long = [u8; 256];
type Names = [u16; 256];

extern "C" {
    fn ffi_shaped(
        n: usize, kind: &Bytes, symbol: &Words, arity: &Bytes, child: &Long, m: usize, name: &Names, left: &Long, right: &Long,
    ) -> bool;
    fn ffi_settle(
        table: &mut Table, trace: &mut Trace, n: usize, kind: &Bytes, symbol: &Words, arity: &Bytes, child: &Long, m: usize, left: &Long,
        right: &Long,
    ) -> Ending;
    fn ffi_peel(table: &Table, height: &mut Bytes, n: usize, kind: &Bytes, symbol: &Words, arity: &Bytes, child: &Long) -> u8;
}

pub fn shaped(w: &Workspace) -> bool {
    let (t, e) = (&w.terms, &w.equations);
    unsafe { ffi_shaped(t.count, &t.kind, &t.symbol, &t.arity, &t.child, e.count, &e.name, &e.left, &e.right) }
}

pub fn close(t: &Terms, e: &Equations, m: usize) -> Closure {
    let mut c = Closure { table: [0; 64], trace: [0; 64], steps: 0, clash: None };
    let r = unsafe {
        ffi_settle(&mut c.table, &mut c.trace, t.count, &t.kind, &t.symbol, &t.arity, &t.child, m, &e.left, &e.right)
    };
    c.steps = r.steps;
    c.clash = if r.clash { Some((r.left as u8, r.right as u8)) } else { None };
    c
}

pub fn peel(t: &Terms, table: &Table, height: &mut Bytes) -> u8 {
    unsafe { ffi_peel(table, height, t.count, &t.kind, &t.symbol, &t.arity, &t.child) }
}

pub fn solve(t: &Terms, e: &Equations, m: usize, height: &mut Bytes) -> (Closure, u8) {
    let c = close(t, e, m);
    let v = match c.clash {
        Some(_) => 8,
        None if peel(t, &c.table, height) == 0 => 0,
        None => 9,
    };
    (c, v)
}
