//! What can happen to a single fact, beside simply becoming known or unknown.

/// Some chips get the value now and the others keep what they have, so only a fact that already has it stays known.
#[inline]
pub fn may_become<T: PartialEq>(fact: &mut Option<T>, value: T) {
    if *fact != Some(value) {
        *fact = None;
    }
}

/// A known value must lie in its fact's range; an unknown one always does.
pub fn at_most(fact: Option<u8>, highest: u8) -> bool {
    fact.is_none_or(|value| value <= highest)
}
