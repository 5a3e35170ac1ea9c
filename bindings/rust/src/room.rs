//! Memory for what calls write: that there is none is an error, and no end of the process.

use crate::Refused;
use std::alloc::{alloc_zeroed, Layout};

/// Returns an empty vector with room for so many elements.
pub fn empty<T>(length: usize) -> Result<Vec<T>, Refused> {
    let mut made = Vec::new();
    made.try_reserve_exact(length).map_err(|_| Refused::NoMemory)?;
    Ok(made)
}

/// Returns a vector of so many elements.
pub fn filled<T: Clone>(length: usize, element: T) -> Result<Vec<T>, Refused> {
    let mut made = empty(length)?;
    made.resize(length, element);
    Ok(made)
}

/// Returns so many bytes, all zeros. The system gives those of a long vector as they are first written.
pub fn zeros(length: usize) -> Result<Vec<u8>, Refused> {
    let layout = Layout::array::<u8>(length).map_err(|_| Refused::NoMemory)?;
    if length == 0 {
        return Ok(Vec::new());
    }
    // SAFETY: the layout has bytes.
    let start = unsafe { alloc_zeroed(layout) };
    if start.is_null() {
        return Err(Refused::NoMemory);
    }
    // SAFETY: the global allocator gave these bytes for this layout, all of them are set, and nothing else has them.
    Ok(unsafe { Vec::from_raw_parts(start, length, length) })
}
