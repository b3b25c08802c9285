//! The versions of one field, or of one object's existence.

/// Oldest first. The first has write stamp 0.
pub struct Versions<T> {
    versions: Vec<(u32, T)>,
}

impl<T: Copy> Versions<T> {
    pub fn initial(value: T) -> Self {
        Versions {
            versions: vec![(0, value)],
        }
    }

    pub fn newest(&self) -> T {
        let (_, value) = self.versions[self.versions.len() - 1];
        value
    }

    /// The newest version that is not above a write stamp, and whether there are
    /// newer ones.
    pub fn not_above(&self, write_stamp: u32) -> (T, bool) {
        let versions = &self.versions;
        let position = versions
            .iter()
            .rposition(|(stamp, _)| *stamp <= write_stamp);
        let position = position.expect("version 0 is always there");
        (versions[position].1, position + 1 < versions.len())
    }

    /// Adds a version; it replaces the one of the same write stamp, if there is one.
    /// Says whether there was.
    pub fn put(&mut self, write_stamp: u32, value: T) -> bool {
        let replaces = self.versions[self.versions.len() - 1].0 == write_stamp;
        if replaces {
            self.versions.pop();
        }
        self.versions.push((write_stamp, value));
        replaces
    }
}
