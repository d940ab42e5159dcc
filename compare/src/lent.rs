//! A lent list filled with marks, so that every entry that a call has written can be seen. Document
//! 01 says in "The placing" and "What each cause gives" which entries are left as they were.

/// Marked entries before and after the lent ones.
const GUARD: usize = 4;

pub struct LentList {
    entries: Vec<u32>,
    mark: u32,
}

impl LentList {
    /// A list to lend `length` entries of. The entries are marked from `mark` downwards, so that the
    /// marks change places where the whole list is sorted. No mark may be an id or 0.
    pub fn new(length: usize, mark: u32) -> LentList {
        LentList {
            entries: marks(mark).take(length + 2 * GUARD).collect(),
            mark,
        }
    }

    pub fn lend(&mut self) -> &mut [u32] {
        let end = self.entries.len() - GUARD;
        &mut self.entries[GUARD..end]
    }

    pub fn entries(&self) -> &[u32] {
        &self.entries[GUARD..self.entries.len() - GUARD]
    }

    /// Says which entry other than the first `count` lent ones was written, if one was.
    pub fn written_beyond(&self, count: usize) -> Option<String> {
        let allowed = GUARD..GUARD + count;
        let mut marked = marks(self.mark).zip(&self.entries).enumerate();
        let (at, (_, entry)) =
            marked.find(|(at, (mark, entry))| !allowed.contains(at) && mark != *entry)?;
        let place = at as isize - GUARD as isize;
        let length = self.entries().len();
        Some(format!("entry {place} of {length} was set to {entry}"))
    }
}

fn marks(first: u32) -> impl Iterator<Item = u32> {
    (0..=first).rev()
}

#[cfg(test)]
mod tests {
    use super::*;

    #[test]
    fn a_sorted_list_shows() {
        let mut list = LentList::new(4, 0xa000_0000);
        list.lend()[..2].copy_from_slice(&[9, 7]);
        assert_eq!(list.written_beyond(2), None);
        list.lend().sort();
        assert!(list.written_beyond(2).is_some());
    }

    #[test]
    fn every_written_entry_shows() {
        let mark = 0xa000_0000;
        assert_eq!(LentList::new(3, mark).written_beyond(0), None);
        for at in 0..3 + 2 * GUARD {
            let mut list = LentList::new(3, mark);
            list.entries[at] = 7;
            let lent = (GUARD..GUARD + 2).contains(&at);
            assert_eq!(list.written_beyond(2).is_none(), lent);
            assert!(list.written_beyond(0).is_some());
        }
    }
}
