//! The activity sets that a candidate can have, in the scope's order.

/// A set with the position after its last extension by higher codes.
#[derive(Clone, Copy, Debug, PartialEq, Eq)]
pub struct Entry {
    pub set: u16,
    pub after: usize,
}

/// All non-empty sets of at most `most` codes below `activities`: lower code first at the first
/// difference, a set before the longer ones that begin with it.
pub fn ordered_sets(activities: u8, most: u8) -> Vec<Entry> {
    let mut entries = Vec::new();
    extend(&mut entries, 0, 0, activities, most);
    entries
}

/// Appends the sets that add one or more codes from `first` on to `set`.
fn extend(entries: &mut Vec<Entry>, set: u16, first: u8, activities: u8, room: u8) {
    if room == 0 {
        return;
    }
    for code in first..activities {
        let position = entries.len();
        let longer = set | 1 << code;
        entries.push(Entry {
            set: longer,
            after: 0,
        });
        extend(entries, longer, code + 1, activities, room - 1);
        entries[position].after = entries.len();
    }
}
