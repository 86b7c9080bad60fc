//! A list to lend to a call, with a place on either side that no call may touch.

pub struct Guarded<T> {
    filler: T,
    all: Vec<T>,
}

impl<T: Copy + PartialEq> Guarded<T> {
    /// The list, between two places that hold the filler.
    pub fn new(filler: T, list: &[T]) -> Guarded<T> {
        let all = [&[filler], list, &[filler]].concat();
        Guarded { filler, all }
    }

    pub fn filled(filler: T, places: usize) -> Guarded<T> {
        Guarded::new(filler, &vec![filler; places])
    }

    pub fn list(&self) -> &[T] {
        &self.all[1..self.all.len() - 1]
    }

    pub fn list_mut(&mut self) -> &mut [T] {
        let last = self.all.len() - 1;
        &mut self.all[1..last]
    }

    /// Whether the list holds these, and both places around it are as they were.
    pub fn holds(&self, expected: &[T]) -> bool {
        let ends = [self.all[0], self.all[self.all.len() - 1]];
        self.list() == expected && ends == [self.filler; 2]
    }
}
