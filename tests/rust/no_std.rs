//! A library without `std`: it has a panic handler of its own, which `std` would have too.

#![no_std]

#[panic_handler]
fn halt(_: &core::panic::PanicInfo) -> ! {
    loop {}
}

pub fn nodes(table: &[u8]) -> usize {
    kolfsein::read(table).unwrap_or(0)
}
