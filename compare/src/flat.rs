//! A second search for the nearest word, with flat arrays, for long runs: it gives what `plain::nearest`
//! gives, some twenty times as fast. tests/flat.rs compares the two, ties included, and every comparison
//! run compares them again on a part of its subframes.

use crate::plain::{Nearest, NEAREST_MOST, TAIL_BITS};

/// A count that no word reaches: one step adds at most 2, so 584 at most come together.
const FAR: u16 = 10_000;

/// In how many places the two symbols of a bit differ from the two received ones. `received` is the first
/// symbol times 2 plus the second. The register's content is `plain::nearest`'s: the bit k before the
/// present one has weight two to the k-1. With the present bit below it that is seven bits, the present
/// one lowest; the octal numbers of document 01 have the present bit highest, so they are turned round:
/// 171 is 1111001, turned 1001111; 133 is 1011011, turned 1101101.
const fn differing(content: usize, bit: usize, received: usize) -> u16 {
    let seven = (content * 2 + bit) as u32;
    let g1 = (seven & 0b1001111).count_ones() % 2;
    let g2 = (seven & 0b1101101).count_ones() % 2;
    ((g1 * 2 + g2) ^ received as u32).count_ones() as u16
}

/// `differing` for every two received symbols, by the content after the bit: from the content whose oldest
/// bit is 0, and from the one whose oldest bit is 1.
const STEPS: [[[u16; 64]; 2]; 4] = steps();

const fn steps() -> [[[u16; 64]; 2]; 4] {
    let mut steps = [[[0; 64]; 2]; 4];
    let mut received = 0;
    while received < 4 {
        let mut after = 0;
        while after < 64 {
            steps[received][0][after] = differing(after / 2, after % 2, received);
            steps[received][1][after] = differing(after / 2 + 32, after % 2, received);
            after += 1;
        }
        received += 1;
    }
    steps
}

/// The word that document 01 takes, as `plain::nearest` (symbols 0 and 1).
///
/// After each bit, for each content of the register, it keeps the fewest differing places of all
/// beginnings with that content, and the oldest bit of the content before. Two beginnings that meet in one
/// content have their last six bits in common and part in the bit before these, which is that oldest bit:
/// on a tie the rule of document 01 takes the one with 0 there.
pub fn nearest(coded: &[u8]) -> Option<Nearest> {
    let length = coded.len() / 2;
    if coded.len() % 2 == 1 || !(TAIL_BITS..=NEAREST_MOST).contains(&length) {
        return None;
    }
    let mut cost = [FAR; 64];
    cost[0] = 0;
    let mut oldest = [[0u8; 64]; NEAREST_MOST];
    for i in 0..length {
        let [zero, one] = &STEPS[usize::from(coded[2 * i] & 1) * 2 + usize::from(coded[2 * i + 1] & 1)];
        let mut next = [FAR; 64];
        for after in 0..64 {
            let (from_zero, from_one) = (cost[after / 2] + zero[after], cost[after / 2 + 32] + one[after]);
            next[after] = from_zero.min(from_one);
            oldest[i][after] = u8::from(from_one < from_zero);
        }
        if i >= length - TAIL_BITS {
            // The tail is zero: nothing goes on with a 1.
            next.iter_mut().skip(1).step_by(2).for_each(|it| *it = FAR);
        }
        cost = next;
    }
    let mut bits = vec![0; length];
    let mut content = 0;
    for i in (0..length).rev() {
        bits[i] = (content % 2) as u8;
        content = content / 2 + 32 * usize::from(oldest[i][content]);
    }
    Some(Nearest { differing: u32::from(cost[0]), bits })
}
