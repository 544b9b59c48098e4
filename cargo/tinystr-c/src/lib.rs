//! The calls of `tinystr-proved` for C, which `c/include/tinystr.h` of the repository declares. They allocate nothing and keep
//! nothing between calls. `cargo/erase` generates `src/proved/` from the proved `crates/tinystr_c`; the rest is written by hand.
#![no_std]
#![deny(unsafe_op_in_unsafe_fn)]

use core::panic::PanicInfo;

mod slices;

include!("proved/lib.rs");

unsafe extern "C" {
    safe fn abort() -> !;
}

// Without its standard library Rust asks for this. The proofs show that no export panics. The compiler can't see this of some
// indexes, and keeps their checks: one that failed would end the process here.
#[panic_handler]
fn panic(_: &PanicInfo) -> ! {
    abort()
}
