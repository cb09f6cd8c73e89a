//! What is lent to a call, between guards that no call may change.
const GUARD: usize = 8;

#[derive(Clone, Debug, PartialEq)]
pub struct Lent<T>(Vec<T>);

impl<T: Copy + From<u8>> Lent<T> {
    pub fn new(contents: &[T]) -> Lent<T> {
        let guard = [T::from(0xA5); GUARD];
        Lent([&guard, contents, &guard].concat())
    }

    pub fn part(&self) -> &[T] {
        &self.0[GUARD..self.0.len() - GUARD]
    }

    pub fn part_mut(&mut self) -> &mut [T] {
        let end = self.0.len() - GUARD;
        &mut self.0[GUARD..end]
    }
}
