//! Memory that is lent to the library. What the system does not have is an answer, not an abort.

use crate::trouble::Trouble;
use std::alloc::{alloc_zeroed, Layout};

/// As many zeros, of memory that is taken from the system only where it is written.
fn zeros<T: Copy>(count: usize) -> Option<Vec<T>> {
    let layout = Layout::array::<T>(count).ok()?;
    if layout.size() == 0 {
        return Some(Vec::new());
    }
    let memory = unsafe { alloc_zeroed(layout) }.cast::<T>();
    // Sound for the number types below: all zero bits are a value, and the layout is that of a Vec of this capacity.
    (!memory.is_null()).then(|| unsafe { Vec::from_raw_parts(memory, count, count) })
}

fn or_trouble<T>(memory: Option<T>, bytes: usize) -> Result<T, Trouble> {
    memory.ok_or_else(|| {
        Trouble::System(format!(
            "mel: not enough memory: {bytes} bytes more are needed"
        ))
    })
}

pub fn bytes(count: usize) -> Result<Vec<u8>, Trouble> {
    or_trouble(zeros(count), count)
}

pub fn pixels(count: usize) -> Result<Vec<i64>, Trouble> {
    or_trouble(zeros(count), 8 * count)
}

/// Room for so many bytes more.
pub fn more(bytes: &mut Vec<u8>, count: usize) -> Result<(), Trouble> {
    or_trouble(bytes.try_reserve(count).ok(), count)
}
