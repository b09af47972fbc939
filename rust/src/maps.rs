//! Maps of a source into a target: the check, the search, why there is none, the
//! least depth of a regular chip, and the carrying of a path. A map comes back as
//! 32 numbers, but a call wants as many as the source has nodes and refuses any
//! other length by 6.

use crate::{Carried, Diagnosis, Path};

mod boundary {
    use super::*;

    extern "C" {
        pub fn linduvar_check(
            source: *const u8,
            source_length: usize,
            target: *const u8,
            target_length: usize,
            map: *const u8,
            map_length: usize,
        ) -> u8;
        pub fn linduvar_search(
            source: *const u8,
            source_length: usize,
            target: *const u8,
            target_length: usize,
            out: *mut u8,
            out_length: usize,
        ) -> u8;
        pub fn linduvar_why(
            source: *const u8,
            source_length: usize,
            target: *const u8,
            target_length: usize,
        ) -> Diagnosis;
        pub fn linduvar_least_depth(
            source: *const u8,
            source_length: usize,
            d: usize,
            depth: *mut usize,
        ) -> u8;
        pub fn linduvar_carry(
            source: *const u8,
            source_length: usize,
            target: *const u8,
            target_length: usize,
            map: *const u8,
            map_length: usize,
            path: Path,
        ) -> Carried;
    }
}

// Safety, for every call below: each pointer and the length after it are those
// of one slice, which outlives the call, and `depth` is one number that does. The
// library writes to `out` and to `depth` alone, and these are borrowed for
// writing. A path goes in and comes out by value, and a diagnosis comes out so,
// laid out as C does.

/// 0 if the map passes, else the refusal.
pub fn check(source: &[u8], target: &[u8], map: &[u8]) -> u8 {
    unsafe {
        boundary::linduvar_check(
            source.as_ptr(),
            source.len(),
            target.as_ptr(),
            target.len(),
            map.as_ptr(),
            map.len(),
        )
    }
}

/// 0 and the least map in the first 32 bytes of `out`, or the refusal;
/// [`NO_ROOM`](crate::NO_ROOM) where there is a map and `out` is shorter. Nothing
/// is written unless it is 0.
pub fn search(source: &[u8], target: &[u8], out: &mut [u8]) -> u8 {
    unsafe {
        boundary::linduvar_search(
            source.as_ptr(),
            source.len(),
            target.as_ptr(),
            target.len(),
            out.as_mut_ptr(),
            out.len(),
        )
    }
}

/// Why the source has no map into the target.
pub fn why(source: &[u8], target: &[u8]) -> Diagnosis {
    unsafe { boundary::linduvar_why(source.as_ptr(), source.len(), target.as_ptr(), target.len()) }
}

/// 0 and in `depth` the least depth of a complete tree, with d children at each
/// inner node, into which the source has a map; or the refusal. Nothing is
/// written unless it is 0.
pub fn least_depth(source: &[u8], d: usize, depth: &mut usize) -> u8 {
    unsafe { boundary::linduvar_least_depth(source.as_ptr(), source.len(), d, depth) }
}

/// A path of the source, carried over to the target.
pub fn carry(source: &[u8], target: &[u8], map: &[u8], path: &Path) -> Carried {
    unsafe {
        boundary::linduvar_carry(
            source.as_ptr(),
            source.len(),
            target.as_ptr(),
            target.len(),
            map.as_ptr(),
            map.len(),
            *path,
        )
    }
}
