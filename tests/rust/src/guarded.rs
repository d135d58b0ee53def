//! What is lent to the library, with a margin on both sides to find a store outside.

pub struct Guarded<T> {
    cells: Vec<T>,
    length: usize,
    margin: T,
}

const MARGIN: usize = 64;

impl<T: Copy + PartialEq> Guarded<T> {
    pub fn new(content: &[T], margin: T) -> Guarded<T> {
        let mut cells = Vec::with_capacity(content.len() + 2 * MARGIN);
        cells.resize(MARGIN, margin);
        cells.extend_from_slice(content);
        cells.resize(content.len() + 2 * MARGIN, margin);
        Guarded { cells, length: content.len(), margin }
    }

    pub fn content(&mut self) -> &mut [T] {
        &mut self.cells[MARGIN..MARGIN + self.length]
    }

    pub fn margins_stand(&self) -> bool {
        self.cells[..MARGIN].iter().chain(&self.cells[MARGIN + self.length..]).all(|&cell| cell == self.margin)
    }
}
