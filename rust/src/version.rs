//! Which library this crate is for.

/// The version, as in `LINDUVAR_VERSION` of the header.
pub const VERSION: &str = env!("CARGO_PKG_VERSION");
/// The number of the layout. It rises whenever a struct that crosses the
/// boundary changes its layout. Layout 1 had ranks of 32 bits.
pub const LAYOUT: usize = 2;

mod boundary {
    extern "C" {
        pub fn linduvar_layout() -> usize;
    }
}

/// The number of the layout that the library has. If it is not [`LAYOUT`], make
/// no other call: this crate and the library do not fit.
pub fn layout() -> usize {
    // Safety: the call takes nothing, and answers one number in every layout.
    unsafe { boundary::linduvar_layout() }
}
