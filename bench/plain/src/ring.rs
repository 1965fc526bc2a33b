//! A queue of fixed room, without allocation.

/// At most `N` items, the oldest first. `N` is a power of two, so that wrapping round is a mask.
#[derive(Debug, Clone)]
pub struct Ring<T, const N: usize> {
    items: [T; N],
    first: usize,
    len: usize,
}

impl<T: Copy, const N: usize> Ring<T, N> {
    pub fn new(filler: T) -> Self {
        debug_assert!(N.is_power_of_two());
        Ring { items: [filler; N], first: 0, len: 0 }
    }

    pub fn len(&self) -> usize {
        self.len
    }

    pub fn front(&self) -> Option<&T> {
        (self.len > 0).then(|| &self.items[self.first & (N - 1)])
    }

    /// Takes the oldest item out.
    pub fn pop(&mut self) -> Option<T> {
        let item = *self.front()?;
        self.drop_front();
        Some(item)
    }

    /// Drops the oldest item, if there is one.
    pub fn drop_front(&mut self) {
        if self.len > 0 {
            self.first = (self.first + 1) & (N - 1);
            self.len -= 1;
        }
    }

    /// Makes room behind the others and hands it out to be filled in place. A full ring loses its oldest item.
    pub fn push_place(&mut self) -> &mut T {
        if self.len == N {
            self.drop_front();
        }
        let place = (self.first + self.len) & (N - 1);
        self.len += 1;
        &mut self.items[place]
    }

    pub fn push(&mut self, item: T) {
        *self.push_place() = item;
    }

    pub fn clear(&mut self) {
        self.len = 0;
    }
}
