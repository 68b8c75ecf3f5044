//! Where BENCH_LINK has a number, the linker puts the functions in an order that it shuffles by
//! that number. The linker is LLD, with which cargo links by itself from 1.90 on.

use std::env;

fn main() {
    println!("cargo:rerun-if-env-changed=BENCH_LINK");
    if let Ok(number) = env::var("BENCH_LINK") {
        println!("cargo:rustc-link-arg-bins=-Wl,--shuffle-sections=.text*={number}");
    }
}
