//! What the files of each version have, and where their fields up to the bells stand.

/// Version and count; what the count counts begins here, with the driver count.
pub(crate) const HEAD: usize = 5;
pub(crate) const DRIVERS_AT: usize = HEAD;
/// Where the shift stands, or would stand.
pub(crate) const SHIFT_AT: usize = 6;

#[derive(Clone, Copy, Debug, PartialEq, Eq)]
pub struct Layout {
    /// Whether a byte after the driver count is the shift; where it is missing, the shift is 0.
    pub has_shift: bool,
    /// Whether each bell has two bytes after cb for its rest; where they are missing, the rest is 0.
    pub has_rest: bool,
}

/// By version, from 1 on.
const LAYOUTS: [Layout; 3] = [
    Layout {
        has_shift: false,
        has_rest: false,
    },
    Layout {
        has_shift: true,
        has_rest: false,
    },
    Layout {
        has_shift: true,
        has_rest: true,
    },
];

impl Layout {
    /// The layout of a version; none if there is no such version.
    pub fn of(version: u64) -> Option<Layout> {
        let row = usize::try_from(version).ok()?.checked_sub(1)?;
        LAYOUTS.get(row).copied()
    }

    pub(crate) fn bell_count_at(self) -> usize {
        SHIFT_AT + usize::from(self.has_shift)
    }

    pub fn bells_at(self) -> usize {
        self.bell_count_at() + 1
    }

    /// The bytes of one bell.
    pub fn bell_bytes(self) -> usize {
        7 + 2 * usize::from(self.has_rest)
    }
}
