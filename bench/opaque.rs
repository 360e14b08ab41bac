// A value of which the compiler knows nothing more, so that a call whose answer nobody uses is made all the same. It is what
// `std::hint::black_box` does; the packaged compiler of Debian 12 is older than that one.
pub fn black_box<T>(mut value: T) -> T {
    // nothing is done; as far as the compiler can tell, the value was read and written
    unsafe { std::arch::asm!("/* {0} */", in(reg) &mut value, options(nostack, preserves_flags)) };
    value
}
