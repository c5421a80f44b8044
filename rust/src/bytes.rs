//! Lists of numbers as the bytes that the library reads and writes: the lowest byte of each number first.

#[cfg(not(target_endian = "little"))]
compile_error!("lists of numbers are handed on as they lie in memory: the lowest byte must stand first");

/// Numbers that have no byte of padding and of which every pattern of bytes is one.
///
/// # Safety
/// This must hold of the type.
pub(crate) unsafe trait Number: Copy {}

// SAFETY: each is a number of the processor, or three of 4 bytes one after the other.
unsafe impl Number for f64 {}
unsafe impl Number for u64 {}
unsafe impl Number for u32 {}
unsafe impl Number for [i32; 3] {}

/// The bytes of a list.
pub(crate) fn bytes<T: Number>(list: &[T]) -> &[u8] {
    // SAFETY: these are the list's own bytes, all of them set, lent for as long as the list is.
    unsafe { std::slice::from_raw_parts(list.as_ptr().cast(), std::mem::size_of_val(list)) }
}

/// The bytes of a list, to be written.
pub(crate) fn bytes_mut<T: Number>(list: &mut [T]) -> &mut [u8] {
    // SAFETY: as above, and whatever is written leaves a list of numbers.
    unsafe { std::slice::from_raw_parts_mut(list.as_mut_ptr().cast(), std::mem::size_of_val(list)) }
}
