//! The buffer that collects program data while chip select is low.

/// Places in the buffer: one page of the main array.
pub(crate) const PAGE: usize = 256;

/// Bytes of the security register that the user may program, from byte 0.
pub(crate) const OTP_PLACES: usize = 64;

/// Program data by place, and which places were aimed at.
#[derive(Clone, Copy, Debug, PartialEq, Eq)]
pub(crate) struct PageBuffer {
    /// The data, FFh where none came.
    bytes: [u8; PAGE],
    /// Which places data came for.
    aimed: [bool; PAGE],
    /// Where the next byte goes.
    offset: usize,
    /// How many places are in use, a power of two: the offset wraps there.
    places: usize,
    /// How many bytes came in, those overwritten since included.
    sent: usize,
}

impl PageBuffer {
    /// An empty buffer of the first `places` places, whose offset counter
    /// starts at the low bits of the address.
    pub(crate) fn aimed_at(address: usize, places: usize) -> PageBuffer {
        PageBuffer {
            bytes: [0xFF; PAGE],
            aimed: [false; PAGE],
            offset: address % places,
            places,
            sent: 0,
        }
    }

    /// Stores an arriving byte and steps the offset counter. A byte that
    /// comes round to a place already used takes that place over.
    pub(crate) fn take(&mut self, byte: u8) {
        self.bytes[self.offset] = byte;
        self.aimed[self.offset] = true;
        self.offset = (self.offset + 1) % self.places;
        self.sent += 1;
    }

    /// How many bytes came in.
    pub(crate) fn sent(&self) -> usize {
        self.sent
    }

    /// Pulls down, at each place aimed at, the bits that are 0 in the data.
    pub(crate) fn burn(&self, cells: &mut [u8]) {
        for ((cell, byte), aimed) in cells.iter_mut().zip(self.bytes).zip(self.aimed) {
            if aimed {
                *cell &= byte;
            }
        }
    }
}
