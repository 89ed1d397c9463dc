//! Claims whose number quantifiers cannot leave a range, so that trying that
//! range is trying all numbers.

use crate::draft::Draft;
use crate::table::{is_for_all, over_sets, Claim};

/// The claim with every number quantifier kept within `Ranges::around` the
/// size with this spare: below an exists, and(guard, rest); below a for-all,
/// or(not guard, rest). A guard speaks of its own variable and of MAXC
/// alone, so it could as well stand right behind its quantifier.
pub fn guarded(words: &[i32], spare: i32) -> Vec<i32> {
    let claim = Claim::read(words);
    let mut draft = Draft::new(&claim.quantifiers);
    for node in &claim.nodes {
        draft.put(node.kind, node.a, node.b);
    }
    let mut root = claim.root;
    for (number, &word) in claim.quantifiers.iter().enumerate().rev() {
        if over_sets(word) {
            continue;
        }
        let guard = put_guard(&mut draft, number as i32, spare);
        root = if is_for_all(word) {
            let past = draft.put(27, guard, 0);
            draft.put(26, past, root)
        } else {
            draft.put(25, guard, root)
        };
    }
    draft.rooted(root)
}

/// -spare - 1 < variable, and variable < MAXC + spare + 1. A count is at
/// least 0 anyway.
fn put_guard(draft: &mut Draft, quantifier: i32, spare: i32) -> i32 {
    let variable = draft.put(10, quantifier, 0);
    let low = draft.put(11, -spare - 1, 0);
    let above = draft.put(21, low, variable);
    let size = draft.put(12, 0, 0);
    let past = draft.put(11, spare + 1, 0);
    let high = draft.put(13, size, past);
    let below = draft.put(21, variable, high);
    draft.put(25, above, below)
}
