//! The sizes of the memories, and the look at a memory without a frame.

use std::ops::Range;

/// Bytes in the security register.
const REGISTER_LENGTH: usize = 128;

/// Which of the two lent memories is meant.
#[derive(Clone, Copy, Debug, PartialEq, Eq)]
pub enum Memory {
    /// The main array.
    Array,
    /// The security register.
    Register,
}

/// Whether a main array may have that many bytes.
pub(crate) fn is_array_length(length: usize) -> bool {
    matches!(length, 131_072 | 65_536)
}

/// Whether a security register may have that many bytes.
pub(crate) fn is_register_length(length: usize) -> bool {
    length == REGISTER_LENGTH
}

/// The address lines a memory of a power-of-two length decodes; the higher
/// ones are not connected.
pub(crate) fn wired(address: usize, length: usize) -> usize {
    address & (length - 1)
}

/// Where in the chosen memory a look of `count` bytes from `address` falls:
/// it ends at the memory's end at the latest, and is empty at 0 for a memory
/// of a wrong length.
pub fn look(which: Memory, array_length: usize, register_length: usize, address: u64, count: u64) -> Range<usize> {
    let (length, fits) = match which {
        Memory::Array => (array_length, is_array_length(array_length)),
        Memory::Register => (register_length, is_register_length(register_length)),
    };
    if !fits {
        return 0..0;
    }
    let length = length as u64;
    let start = address % length;
    let end = start + count.min(length - start);
    start as usize..end as usize
}
