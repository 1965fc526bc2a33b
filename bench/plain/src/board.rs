//! The fenced board: the partitions' areas as parts of one memory.

use crate::vector::{Tables, MAX_PARTITIONS};

/// The largest area a partition can have, in bytes.
pub const MAX_AREA: usize = 1024;

/// Where an area lies in the memory.
#[derive(Debug, Clone, Copy, Default, PartialEq, Eq)]
pub struct Fence {
    pub base: usize,
    pub size: usize,
}

impl Fence {
    /// One past the last byte; none where the sum is larger than any memory.
    fn end(self) -> Option<usize> {
        self.base.checked_add(self.size)
    }

    fn fits(self, memory: usize) -> bool {
        self.size == 0 || self.size <= MAX_AREA && self.end().is_some_and(|end| end <= memory)
    }

    /// Whether two fences that fit a memory share a byte.
    fn overlaps(self, other: Fence) -> bool {
        self.size > 0 && other.size > 0 && self.base < other.base + other.size && other.base < self.base + self.size
    }
}

#[derive(Debug, Clone)]
pub struct Board {
    memory: Vec<u8>,
    fences: [Fence; MAX_PARTITIONS],
}

impl Board {
    /// A board with these fences. If they are not sound, all areas are empty.
    pub fn new(memory: Vec<u8>, fences: [Fence; MAX_PARTITIONS]) -> Board {
        let fences = if sound(memory.len(), &fences) { fences } else { Default::default() };
        // An empty area gets base 0, so that its (empty) slice always lies in the memory.
        let fences = fences.map(|fence| if fence.size == 0 { Fence::default() } else { fence });
        Board { memory, fences }
    }

    /// A board with areas of the vector's sizes, side by side, all bytes 0.
    pub fn zeroed(tables: &Tables) -> Board {
        let mut fences = [Fence::default(); MAX_PARTITIONS];
        let mut base = 0;
        for (fence, partition) in fences.iter_mut().zip(&tables.partitions) {
            *fence = Fence { base, size: usize::from(partition.area) };
            base += fence.size;
        }
        Board::new(vec![0; base], fences)
    }

    /// Whether each partition's area has exactly the size that the vector gives.
    pub fn fits(&self, tables: &Tables) -> bool {
        tables.partitions.iter().zip(&self.fences).all(|(row, fence)| usize::from(row.area) == fence.size)
    }

    pub fn area(&self, partition: usize) -> &[u8] {
        let Fence { base, size } = self.fences[partition];
        &self.memory[base..base + size]
    }

    pub fn area_mut(&mut self, partition: usize) -> &mut [u8] {
        let Fence { base, size } = self.fences[partition];
        &mut self.memory[base..base + size]
    }

    /// The bytes of a range, if it ends within the area.
    pub fn range(&self, partition: usize, address: u32, length: u32) -> Option<&[u8]> {
        let start = address as usize;
        self.area(partition).get(start..start.checked_add(length as usize)?)
    }

    pub fn range_mut(&mut self, partition: usize, address: u32, length: u32) -> Option<&mut [u8]> {
        let start = address as usize;
        self.area_mut(partition).get_mut(start..start.checked_add(length as usize)?)
    }
}

fn sound(memory: usize, fences: &[Fence]) -> bool {
    fences.iter().all(|fence| fence.fits(memory))
        && (1..fences.len()).all(|i| fences[..i].iter().all(|other| !fences[i].overlaps(*other)))
}
