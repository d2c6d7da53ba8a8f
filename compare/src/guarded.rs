//! Words or bytes between guard words or bytes, so that a write outside them
//! is seen.

const GUARD: usize = 16;

/// A kind of element, with the value of its guards.
pub trait Element: Copy + PartialEq {
    const MARK: Self;
}

impl Element for u32 {
    const MARK: u32 = 0xA5C3_96E1;
}

impl Element for u8 {
    const MARK: u8 = 0xA5;
}

pub struct Guarded<T>(Vec<T>);

impl<T: Element> Guarded<T> {
    pub fn new(inside: &[T]) -> Self {
        let mut all = vec![T::MARK; inside.len() + 2 * GUARD];
        all[GUARD..GUARD + inside.len()].copy_from_slice(inside);
        Guarded(all)
    }

    pub fn inside(&self) -> &[T] {
        &self.0[GUARD..self.0.len() - GUARD]
    }

    pub fn inside_mut(&mut self) -> &mut [T] {
        let end = self.0.len() - GUARD;
        &mut self.0[GUARD..end]
    }

    /// Whether the elements are these and every guard is as it was.
    pub fn holds(&self, inside: &[T]) -> bool {
        let ends = self.0[..GUARD].iter().chain(&self.0[self.0.len() - GUARD..]);
        self.inside() == inside && ends.into_iter().all(|&guard| guard == T::MARK)
    }
}
