// Links the proved library, which `rt lib` in crates/bench_ffi writes: run `bench/run`.
use std::path::Path;

fn main() {
    let dir = Path::new(&std::env::var("CARGO_MANIFEST_DIR").unwrap()).join("../crates/bench_ffi/out");
    let lib = dir.join("libbench_ffi.a");
    println!("cargo::rerun-if-changed={}", lib.display());
    println!("cargo::rustc-link-search=native={}", dir.display());
    println!("cargo::rustc-link-lib=static=bench_ffi");
}
