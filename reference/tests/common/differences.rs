//! Differences between what is expected and what the library gives, as errors.

/// Compares two answers of the host's calls: a number, or a refusal with its place.
pub fn same_number(expected: u64, found: u64) -> Result<(), String> {
    let shown = |answer: u64| match answer >> 32 {
        0 => format!("{answer}"),
        number => format!("{number} at {}", answer as u32),
    };
    same(
        expected == found,
        format!("expected {}, found {}", shown(expected), shown(found)),
    )
}

pub fn same(is_same: bool, difference: impl Into<String>) -> Result<(), String> {
    if is_same {
        Ok(())
    } else {
        Err(difference.into())
    }
}
