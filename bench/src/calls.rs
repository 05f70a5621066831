//! The calls of both sides in one form: the workspace goes by value and comes back beside the reply, as document 01's calls take
//! it and hand it back.
use crate::plain::{self, Judgement, Reply, Workspace};
use std::slice;

/// A reply by numbers, see `told` in crates/bench_ffi/specs/Numbers.antt, and the workspace after it.
pub struct Told {
    numbers: Numbers,
    pub space: Workspace,
}

type Numbers = [u16; 3];

#[derive(Clone, Copy)]
pub struct Calls {
    declare: unsafe extern "C" fn(Workspace, u16, *const u16, usize, &mut Numbers) -> Workspace,
    equate: unsafe extern "C" fn(Workspace, u16, u16, u16, *mut u8, usize, &mut Numbers) -> Workspace,
    withdraw: unsafe extern "C" fn(Workspace, u16, &mut Numbers) -> Workspace,
    compare: unsafe extern "C" fn(Workspace, u16, u16, *mut u8, usize, &mut Numbers) -> Workspace,
    class_of: unsafe extern "C" fn(Workspace, u16, &mut Numbers) -> Workspace,
    check_same: unsafe extern "C" fn(Workspace, *const u8, usize, u16, u16, &mut Numbers) -> Workspace,
}

extern "C" {
    // a slice is its address and its length
    fn ffi_declare(space: Workspace, symbol: u16, children: *const u16, len: usize, numbers: &mut Numbers) -> Workspace;
    fn ffi_equate(space: Workspace, name: u16, left: u16, right: u16, proof: *mut u8, len: usize, numbers: &mut Numbers) -> Workspace;
    fn ffi_withdraw(space: Workspace, name: u16, numbers: &mut Numbers) -> Workspace;
    fn ffi_compare(space: Workspace, u: u16, v: u16, proof: *mut u8, len: usize, numbers: &mut Numbers) -> Workspace;
    fn ffi_class_of(space: Workspace, u: u16, numbers: &mut Numbers) -> Workspace;
    fn ffi_check_same(space: Workspace, lines: *const u8, len: usize, u: u16, v: u16, numbers: &mut Numbers) -> Workspace;
}

/// The proved library.
pub const RATTLE: Calls = Calls {
    declare: ffi_declare,
    equate: ffi_equate,
    withdraw: ffi_withdraw,
    compare: ffi_compare,
    class_of: ffi_class_of,
    check_same: ffi_check_same,
};

unsafe extern "C" fn declare(mut w: Workspace, symbol: u16, children: *const u16, len: usize, numbers: &mut Numbers) -> Workspace {
    let reply = plain::declare(&mut w, symbol, slice::from_raw_parts(children, len));
    *numbers = tell(reply);
    w
}

unsafe extern "C" fn equate(mut w: Workspace, name: u16, left: u16, right: u16, proof: *mut u8, len: usize, numbers: &mut Numbers) -> Workspace {
    let reply = plain::equate(&mut w, name, left, right, slice::from_raw_parts_mut(proof, len));
    *numbers = tell(reply);
    w
}

unsafe extern "C" fn withdraw(mut w: Workspace, name: u16, numbers: &mut Numbers) -> Workspace {
    let reply = plain::withdraw(&mut w, name);
    *numbers = tell(reply);
    w
}

unsafe extern "C" fn compare(w: Workspace, u: u16, v: u16, proof: *mut u8, len: usize, numbers: &mut Numbers) -> Workspace {
    let reply = plain::compare(&w, u, v, slice::from_raw_parts_mut(proof, len));
    *numbers = tell(reply);
    w
}

unsafe extern "C" fn class_of(w: Workspace, u: u16, numbers: &mut Numbers) -> Workspace {
    let reply = plain::class_of(&w, u);
    *numbers = tell(reply);
    w
}

unsafe extern "C" fn check_same(w: Workspace, lines: *const u8, len: usize, u: u16, v: u16, numbers: &mut Numbers) -> Workspace {
    *numbers = match plain::check_same(&w, slice::from_raw_parts(lines, len), u as u8, v as u8) {
        Judgement::Passed => [9, 0, 0],
        Judgement::Refused(k, i) => [0, k as u16, i as u16],
    };
    w
}

/// The same work in plain Rust.
pub const PLAIN: Calls = Calls { declare, equate, withdraw, compare, class_of, check_same };

fn tell(reply: Reply) -> Numbers {
    match reply {
        Reply::Refused(k, n) => [0, k as u16, n as u16],
        Reply::Node(u) => [1, u as u16, 0],
        Reply::Held => [2, 0, 0],
        Reply::Gone => [3, 0, 0],
        Reply::Same(n) => [4, n as u16, 0],
        Reply::Below(n) => [5, n as u16, 0],
        Reply::Above(n) => [6, n as u16, 0],
        Reply::Apart => [7, 0, 0],
        Reply::Class(number, size) => [8, number as u16, size as u16],
    }
}

impl Told {
    pub fn reply(&self) -> Reply {
        let [said, number, second] = self.numbers;
        let lines = number as usize;
        match said {
            0 => Reply::Refused(number as u8, second as usize),
            1 => Reply::Node(number as u8),
            2 => Reply::Held,
            3 => Reply::Gone,
            4 => Reply::Same(lines),
            5 => Reply::Below(lines),
            6 => Reply::Above(lines),
            7 => Reply::Apart,
            8 => Reply::Class(number as u8, second as u8),
            k => unreachable!("reply {k}"),
        }
    }

    pub fn judgement(&self) -> Judgement {
        match self.numbers {
            [9, _, _] => Judgement::Passed,
            [_, number, second] => Judgement::Refused(number as u8, second as usize),
        }
    }
}

impl Calls {
    pub fn declare(&self, w: &Workspace, symbol: u16, children: &[u16]) -> Told {
        let mut numbers = [0; 3];
        let space = unsafe { (self.declare)(*w, symbol, children.as_ptr(), children.len(), &mut numbers) };
        Told { numbers, space }
    }

    pub fn equate(&self, w: &Workspace, name: u16, left: u16, right: u16, buf: &mut [u8]) -> Told {
        let mut numbers = [0; 3];
        let space = unsafe { (self.equate)(*w, name, left, right, buf.as_mut_ptr(), buf.len(), &mut numbers) };
        Told { numbers, space }
    }

    pub fn withdraw(&self, w: &Workspace, name: u16) -> Told {
        let mut numbers = [0; 3];
        let space = unsafe { (self.withdraw)(*w, name, &mut numbers) };
        Told { numbers, space }
    }

    pub fn compare(&self, w: &Workspace, u: u16, v: u16, buf: &mut [u8]) -> Told {
        let mut numbers = [0; 3];
        let space = unsafe { (self.compare)(*w, u, v, buf.as_mut_ptr(), buf.len(), &mut numbers) };
        Told { numbers, space }
    }

    pub fn class_of(&self, w: &Workspace, u: u16) -> Told {
        let mut numbers = [0; 3];
        let space = unsafe { (self.class_of)(*w, u, &mut numbers) };
        Told { numbers, space }
    }

    pub fn check_same(&self, w: &Workspace, bytes: &[u8], u: u8, v: u8) -> Told {
        let mut numbers = [0; 3];
        let space = unsafe { (self.check_same)(*w, bytes.as_ptr(), bytes.len(), u as u16, v as u16, &mut numbers) };
        Told { numbers, space }
    }
}
