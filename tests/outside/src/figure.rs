//! Figures 6 and 11 of source document 003: a verification condition over
//! sets and integers, and the arithmetic it reduces to.
//!
//! Figure 6 holds at every size, and a comparison of two trues shows little.
//! So its four constants can be varied: the same change on both sides keeps
//! the two figures equivalent, and makes them false at some sizes.

use crate::draft::Draft;

/// The constants of figure 6: |e| = element, |e and content| = common,
/// size' = size + added, floor < size'. The figure itself has 1, 0, 1, 0.
#[derive(Clone, Copy, Debug, PartialEq, Eq)]
pub struct Constants {
    pub element: i32,
    pub common: i32,
    pub added: i32,
    pub floor: i32,
}

pub const PRINTED: Constants = Constants { element: 1, common: 0, added: 1, floor: 0 };

/// Figure 6 as a table: for all sets e, content and content', for all
/// integers size and size'.
pub fn figure_6(constants: Constants) -> Vec<i32> {
    let mut draft = Draft::new(&[4, 4, 4, 2, 2]);
    let e = draft.put(1, 0, 0);
    let content = draft.put(1, 1, 0);
    let new_content = draft.put(1, 2, 0);
    let size = draft.put(10, 3, 0);
    let new_size = draft.put(10, 4, 0);
    let is_element = put_cardinality_is(&mut draft, e, constants.element);
    let common = draft.put(5, e, content);
    let is_common = put_cardinality_is(&mut draft, common, constants.common);
    let content_size = draft.put(16, content, 0);
    let is_size = draft.put(20, size, content_size);
    let union = draft.put(4, content, e);
    let is_union = draft.put(23, new_content, union);
    let added = draft.put(11, constants.added, 0);
    let sum = draft.put(13, size, added);
    let is_sum = draft.put(20, new_size, sum);
    let mut premise = is_element;
    for part in [is_common, is_size, is_union, is_sum] {
        premise = draft.put(25, premise, part);
    }
    let not_premise = draft.put(27, premise, 0);
    let floor = draft.put(11, constants.floor, 0);
    let above = draft.put(21, floor, new_size);
    let new_content_size = draft.put(16, new_content, 0);
    let is_new_size = draft.put(20, new_size, new_content_size);
    let conclusion = draft.put(25, above, is_new_size);
    draft.put(26, not_premise, conclusion);
    draft.finished()
}

fn put_cardinality_is(draft: &mut Draft, set: i32, constant: i32) -> i32 {
    let cardinality = draft.put(16, set, 0);
    let constant = draft.put(11, constant, 0);
    draft.put(20, cardinality, constant)
}

/// The innermost part of figure 11. `l` is indexed by region, so the figure's
/// l_101 is `l[0b101]` with its digits read backwards: the figure writes the
/// innermost set first, a region number has the outermost set highest. The
/// figure's sum for "content and e, minus content'" has three parts; the
/// running text next to it leaves one out, and the figure is right.
pub fn figure_11_body(constants: Constants, l: &[i128; 8], size: i128, new_size: i128) -> bool {
    let digits = |c_new: usize, c: usize, e: usize| l[e << 2 | c << 1 | c_new];
    let l111 = digits(1, 1, 1);
    let l011 = digits(0, 1, 1);
    let l101 = digits(1, 0, 1);
    let l001 = digits(0, 0, 1);
    let l110 = digits(1, 1, 0);
    let l010 = digits(0, 1, 0);
    let l100 = digits(1, 0, 0);
    let premise = l111 + l011 + l101 + l001 == i128::from(constants.element)
        && l111 + l011 == i128::from(constants.common)
        && l111 + l011 + l110 + l010 == size
        && l100 == 0
        && l011 + l001 + l010 == 0
        && new_size == size + i128::from(constants.added);
    let conclusion =
        i128::from(constants.floor) < new_size && l111 + l101 + l110 + l100 == new_size;
    !premise || conclusion
}

/// Figure 11 at a size, its integers limited to a range.
pub fn figure_11(constants: Constants, maxc: i128, integers: (i128, i128)) -> bool {
    for l1 in 0..=maxc {
        let l0 = maxc - l1;
        for l11 in 0..=l1 {
            for l10 in 0..=l0 {
                // Parts in region order: outside e and content, and so on.
                let parts = [l0 - l10, l10, l1 - l11, l11];
                if !figure_11_inner(constants, parts, integers) {
                    return false;
                }
            }
        }
    }
    true
}

fn figure_11_inner(constants: Constants, parts: [i128; 4], integers: (i128, i128)) -> bool {
    let mut l = [0; 8];
    // Each part's inside count, all four as the digits of one number.
    let combinations: i128 = parts.iter().map(|part| part + 1).product();
    for combination in 0..combinations {
        let mut rest = combination;
        for (region, part) in parts.iter().enumerate() {
            l[2 * region + 1] = rest % (part + 1);
            l[2 * region] = part - l[2 * region + 1];
            rest /= part + 1;
        }
        for size in integers.0..=integers.1 {
            for new_size in integers.0..=integers.1 {
                if !figure_11_body(constants, &l, size, new_size) {
                    return false;
                }
            }
        }
    }
    true
}
