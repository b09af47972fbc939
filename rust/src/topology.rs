//! Reading the bytes of a tree.

mod boundary {
    extern "C" {
        pub fn linduvar_read(bytes: *const u8, length: usize, limit: usize) -> u8;
        pub fn linduvar_branch(
            bytes: *const u8,
            length: usize,
            node: usize,
            refusal: *mut u8,
        ) -> usize;
        pub fn linduvar_branch_byte(bytes: *const u8, length: usize, node: usize, at: usize) -> u8;
    }
}

// Safety, for every call below: the pointer and the length are those of one
// slice, which outlives the call, and the library only reads from it. `refusal`
// is one number that outlives the call.

/// 0 if the bytes are a tree of at most `limit` nodes, else the refusal.
pub fn read(bytes: &[u8], limit: usize) -> u8 {
    unsafe { boundary::linduvar_read(bytes.as_ptr(), bytes.len(), limit) }
}

/// The refusal, or 0, and the length of the branch under `node`, which begins at
/// `bytes[node]`.
pub fn branch(bytes: &[u8], node: usize) -> (u8, usize) {
    // No refusal has this number: it shows if the library writes none.
    let mut refusal = 238;
    let length =
        unsafe { boundary::linduvar_branch(bytes.as_ptr(), bytes.len(), node, &mut refusal) };
    (refusal, length)
}

/// Byte `at` of the branch under `node`; [`NO_BYTE`](crate::NO_BYTE) if there is
/// none.
pub fn branch_byte(bytes: &[u8], node: usize, at: usize) -> u8 {
    unsafe { boundary::linduvar_branch_byte(bytes.as_ptr(), bytes.len(), node, at) }
}
