//! Lent buffers: with guard values on both sides, so that every change outside
//! the slice is noticed, or with none, so that the heap block is the slice and a
//! memory checker notices every read outside it.

/// Guard values on each side. Odd, so that byte slices start at odd addresses.
pub const GUARD: usize = 67;

/// A slice between guards, and what both were at the start.
pub struct Guarded<'a, T> {
    values: Vec<T>,
    contents: &'a [T],
    guards: [&'a [T]; 2],
}

impl<'a, T: Copy + PartialEq> Guarded<'a, T> {
    /// A slice with `contents` and `guard` values of `fill` on each side.
    pub fn new(contents: &'a [T], fill: &'a [T], guard: usize) -> Self {
        let guards = [&fill[..guard], &fill[fill.len() - guard..]];
        let length = contents.len() + 2 * guard;
        // As long as the values and no longer; for none there is no heap block.
        let mut values = Vec::with_capacity(length);
        for part in [guards[0], contents, guards[1]] {
            values.extend_from_slice(part);
        }
        Guarded {
            values,
            contents,
            guards,
        }
    }

    fn start(&self) -> usize {
        self.guards[0].len()
    }

    /// The length of the slice.
    pub fn length(&self) -> usize {
        self.contents.len()
    }

    pub fn slice(&mut self) -> &mut [T] {
        let (start, length) = (self.start(), self.length());
        &mut self.values[start..][..length]
    }

    /// The first values of the slice.
    pub fn first(&self, count: usize) -> &[T] {
        &self.values[self.start()..][..count]
    }

    /// Whether everything but the first `count` values of the slice, guards
    /// included, is as it was.
    pub fn is_kept_but(&self, count: usize) -> bool {
        let (before, rest) = self.values.split_at(self.start());
        let (slice, after) = rest.split_at(self.length());
        before == self.guards[0]
            && slice[count..] == self.contents[count..]
            && after == self.guards[1]
    }
}
