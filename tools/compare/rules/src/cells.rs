//! Stacks as cells that name the cell below; a cell's number is its entry's identity.

use base::answers::Entry;

#[derive(Clone, Copy)]
struct Cell {
    entry: Entry,
    below: u32,
    height: u32,
}

#[derive(Default)]
pub struct Cells(Vec<Cell>);

impl Cells {
    pub fn len(&self) -> usize {
        self.0.len()
    }

    /// Forgets the cells from `len` on.
    pub fn cut(&mut self, len: usize) {
        self.0.truncate(len);
    }

    pub fn bottom(&mut self, entry: Entry) -> u32 {
        self.0.push(Cell { entry, below: u32::MAX, height: 1 });
        self.0.len() as u32 - 1
    }

    pub fn push(&mut self, below: u32, entry: Entry) -> u32 {
        let height = self.height(below) + 1;
        self.0.push(Cell { entry, below, height });
        self.0.len() as u32 - 1
    }

    pub fn entry(&self, cell: u32) -> &Entry {
        &self.0[cell as usize].entry
    }

    pub fn height(&self, cell: u32) -> u32 {
        self.0[cell as usize].height
    }

    pub fn below(&self, cell: u32) -> u32 {
        self.0[cell as usize].below
    }

    /// The cell `n` below; `n` is less than the height.
    pub fn down(&self, mut cell: u32, n: u32) -> u32 {
        for _ in 0..n {
            cell = self.below(cell);
        }
        cell
    }

    /// Whether the stack that ends at `top` has this very cell in it.
    pub fn holds(&self, top: u32, cell: u32) -> bool {
        let (height, wanted) = (self.height(top), self.height(cell));
        height >= wanted && self.down(top, height - wanted) == cell
    }

    /// From the start of the lowest of the `n` top entries to the end of the highest; at `n` = 0 empty at the top's end.
    pub fn span(&self, top: u32, n: u32) -> (u32, u32) {
        let end = self.entry(top).end;
        match n {
            0 => (end, end),
            _ => (self.entry(self.down(top, n - 1)).start, end),
        }
    }

    pub fn entries_down(&self, top: u32) -> Vec<Entry> {
        let mut cell = top;
        (0..self.height(top))
            .map(|_| {
                let entry = *self.entry(cell);
                cell = self.below(cell);
                entry
            })
            .collect()
    }
}
