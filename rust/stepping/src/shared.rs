//! Words that a child process and its watcher see alike.

use crate::os;

/// As many words as were asked for, all zero at first.
pub struct Shared {
    at: *mut u32,
    length: usize,
}

impl Shared {
    pub fn new(length: usize) -> Result<Shared, String> {
        Ok(Shared { at: os::map_shared(bytes(length))?, length })
    }

    /// The words as they are now. Nobody may write them while the slice is in use: the child must stand still.
    pub fn words(&self) -> &[u32] {
        // SAFETY: the mapping is as long, words hold any bits, and the child that could write them stands still.
        unsafe { std::slice::from_raw_parts(self.at, self.length) }
    }

    /// The number of the word at an address.
    pub fn word_at(&self, address: usize) -> Result<usize, String> {
        let from = address.wrapping_sub(self.at as usize);
        if from >= 4 * self.length || !from.is_multiple_of(4) {
            return Err(format!("an instruction touched {address:#x}, which is no word of the pool"));
        }
        Ok(from / 4)
    }

    /// The words to write in, for the child, or for the watcher before it starts.
    #[allow(clippy::mut_from_ref)]
    pub fn words_mut(&self) -> &mut [u32] {
        // SAFETY: as above; only one of the two processes is not standing still.
        unsafe { std::slice::from_raw_parts_mut(self.at, self.length) }
    }
}

impl Drop for Shared {
    fn drop(&mut self) {
        // SAFETY: the mapping is of `map_shared`, and slices of it do not outlive this.
        unsafe { os::unmap(self.at, bytes(self.length)) }
    }
}

fn bytes(length: usize) -> usize {
    4 * length.max(1)
}
