//! What is known of the bytes of a block: who accessed them last, and how. Bytes of which the same is known are kept as
//! one stretch, so an access costs by the stretches that it meets, and not by its bytes.

use std::collections::BTreeMap;

use crate::trace::{Event, Range};

/// The bytes from where a stretch begins to where the next one does.
#[derive(Clone, Default)]
pub struct Stretch {
    /// The position of the last event that wrote these bytes.
    pub written: Option<usize>,
    /// Of accesses that are alike the last one each.
    pub marks: Vec<Mark>,
}

#[derive(Clone, Copy)]
pub struct Mark {
    pub position: usize,
    pub event: Event,
}

impl Mark {
    /// Whether all that races with an older mark, and is later than both, races with this one too.
    fn replaces(&self, older: &Mark) -> bool {
        let (new, old) = (&self.event, &older.event);
        let is_as_wide = new.atomic == old.atomic && (!new.atomic || new.range == old.range);
        new.agent == old.agent && new.read == old.read && new.write == old.write && is_as_wide
    }
}

/// The stretches of one block, by where they begin. The first one begins at 0.
pub struct Shadow(BTreeMap<u32, Stretch>);

impl Shadow {
    pub fn new() -> Self {
        Shadow(BTreeMap::from([(0, Stretch::default())]))
    }

    /// Has stretches begin where a range does, and where it ends.
    pub fn split(&mut self, range: Range) {
        for at in [range.begin, range.end] {
            let last = self.0.range(..=at).next_back();
            let divided = last.filter(|(&begin, _)| begin < at).map(|(_, stretch)| stretch.clone());
            if let Some(stretch) = divided {
                self.0.insert(at, stretch);
            }
        }
    }

    /// The stretches that a range has, once it was split.
    pub fn of(&self, range: Range) -> impl Iterator<Item = &Stretch> {
        self.0.range(range.begin..range.end).map(|(_, stretch)| stretch)
    }

    /// Adds an access to the marks of all its stretches.
    pub fn mark(&mut self, mark: Mark) {
        let Range { begin, end, .. } = mark.event.range;
        for (_, stretch) in self.0.range_mut(begin..end) {
            match stretch.marks.iter_mut().find(|old| mark.replaces(old)) {
                Some(old) => *old = mark,
                None => stretch.marks.push(mark),
            }
            if mark.event.write {
                stretch.written = Some(mark.position);
            }
        }
    }

    /// Makes one stretch of a range, which has the mark of a write alone.
    pub fn overwrite(&mut self, mark: Mark) {
        let Range { begin, end, .. } = mark.event.range;
        while let Some((&inner, _)) = self.0.range(begin + 1..end).next() {
            self.0.remove(&inner);
        }
        let stretch = self.0.entry(begin).or_default();
        stretch.written = Some(mark.position);
        stretch.marks.clear();
        stretch.marks.push(mark);
    }
}
