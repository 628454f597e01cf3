//! Which branches of an image are jumps and which landings: the words do not tell them apart, both
//! hold the offset of the jump.

/// How the offset of a branch is written.
#[derive(Clone, Copy, Debug, PartialEq, Eq)]
pub enum Branch {
    /// A jump to this address.
    To(usize),
    /// The landing of the jump at this address.
    From(usize),
    /// Neither; by its number.
    Number,
}

/// The branches of a code, given the offset of each word that is one.
///
/// Words of one offset that lead to each other form a chain. A jump stands at its front and lands
/// on the second, so jumps and landings alternate; but a word whose own jump would leave the code
/// is always a landing.
pub fn branches(offsets: &[Option<i64>]) -> Vec<Branch> {
    let mut found = vec![Branch::Number; offsets.len()];
    // Each chain from its front: upward where the offset is above 0, downward where it is below.
    for at in 0..offsets.len() {
        if let Some(offset @ 1..) = offsets[at] {
            found[at] = branch(at, offset, offsets, &found);
        }
    }
    for at in (0..offsets.len()).rev() {
        if let Some(offset @ ..0) = offsets[at] {
            found[at] = branch(at, offset, offsets, &found);
        }
    }
    found
}

fn branch(at: usize, offset: i64, offsets: &[Option<i64>], found: &[Branch]) -> Branch {
    let code = |address: i64| {
        let address = usize::try_from(address).ok()?;
        (address < offsets.len()).then_some(address)
    };
    let target = code(at as i64 + offset);
    let origin = code(at as i64 - offset).filter(|from| offsets[*from] == Some(offset));
    match (target, origin) {
        (None, None) => Branch::Number,
        (Some(to), None) => Branch::To(to),
        (Some(to), Some(from)) if matches!(found[from], Branch::From(_)) => Branch::To(to),
        (_, Some(from)) => Branch::From(from),
    }
}

#[cfg(test)]
mod tests {
    use super::{branches, Branch, Branch::*};

    fn found(offsets: &[(usize, i64)], k: usize) -> Vec<Branch> {
        let mut code = vec![None; k];
        for (at, offset) in offsets {
            code[*at] = Some(*offset);
        }
        let all = branches(&code);
        offsets.iter().map(|(at, _)| all[*at]).collect()
    }

    #[test]
    fn a_jump_and_its_landing() {
        assert_eq!(found(&[(1, 3), (4, 3)], 6), [To(4), From(1)]);
        // The landing's own jump would stay in the code as well.
        assert_eq!(found(&[(1, 3), (4, 3)], 9), [To(4), From(1)]);
        assert_eq!(found(&[(7, -5), (2, -5)], 10), [To(2), From(7)]);
    }

    #[test]
    fn what_is_neither() {
        assert_eq!(found(&[(1, 3)], 9), [To(4)]);
        assert_eq!(found(&[(1, 3)], 4), [Number]);
        assert_eq!(found(&[(1, -2)], 4), [Number]);
        assert_eq!(found(&[(1, 0)], 4), [Number]);
    }

    #[test]
    fn chains_alternate() {
        let up = found(&[(0, 2), (2, 2), (4, 2), (6, 2)], 8);
        assert_eq!(up, [To(2), From(0), To(6), From(4)]);
        let down = found(&[(6, -2), (4, -2), (2, -2), (0, -2)], 8);
        assert_eq!(down, [To(4), From(6), To(0), From(2)]);
        // The third would jump to a word that is no branch, or leave the code.
        assert_eq!(found(&[(0, 2), (2, 2), (4, 2)], 8)[2], To(6));
        assert_eq!(found(&[(0, 2), (2, 2), (4, 2)], 6)[2], From(2));
    }
}
