//! Lists of bytes in one buffer, as a file that was split gives them.

#[derive(Default)]
pub struct Cells {
    /// The bytes of all cells, and of the one that is being made.
    pub bytes: Vec<u8>,
    ends: Vec<usize>,
}

impl Cells {
    /// Ends a cell after its bytes.
    pub fn end(&mut self) {
        self.ends.push(self.bytes.len());
    }

    pub fn get(&self, index: usize) -> &[u8] {
        let start = if index == 0 { 0 } else { self.ends[index - 1] };
        &self.bytes[start..self.ends[index]]
    }

    pub fn iter(&self) -> impl Iterator<Item = &[u8]> {
        (0..self.ends.len()).map(|index| self.get(index))
    }
}
