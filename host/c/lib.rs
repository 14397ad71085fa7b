//! The proved sources as a library for C, without Rust's own library: what it imports are C's `memcpy` and the like.

#![no_std]

// All of its exported functions.
pub use genie_source::*;

/// Where an index or a sum is out of range, which the proofs rule out, the program ends; it does not go on with a wrong one.
#[cfg(not(test))]
#[panic_handler]
fn ends(_: &core::panic::PanicInfo) -> ! {
    #[cfg(any(target_arch = "x86_64", target_arch = "x86"))]
    unsafe {
        core::arch::asm!("ud2", options(noreturn, nomem, nostack))
    }
    #[cfg(target_arch = "aarch64")]
    unsafe {
        core::arch::asm!("brk #1", options(noreturn, nomem, nostack))
    }
    #[cfg(any(target_arch = "riscv64", target_arch = "riscv32"))]
    unsafe {
        core::arch::asm!("unimp", options(noreturn, nomem, nostack))
    }
    #[cfg(target_arch = "wasm32")]
    core::arch::wasm32::unreachable();
    #[cfg(not(any(
        target_arch = "x86_64",
        target_arch = "x86",
        target_arch = "aarch64",
        target_arch = "riscv64",
        target_arch = "riscv32",
        target_arch = "wasm32"
    )))]
    loop {}
}
