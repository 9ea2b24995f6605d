//! The nearest word: the search against trying all words (short), and against the tie rule applied one
//! bit at a time (full length).

mod random;

use compare::plain::*;
use random::Random;

/// Compares both searches on one input; gives how many words were equally near.
fn compare_both(coded: &[u8]) -> u32 {
    let (tried, count) = nearest_by_trying_all(coded).expect("a word");
    assert_eq!(nearest(coded), Some(tried), "{coded:?}");
    count
}

#[test]
fn random_symbols_of_every_short_length() {
    let mut random = Random::new(2);
    let (mut inputs, mut ties, mut most) = (0, 0, 0);
    for free in 0..=12 {
        for _ in 0..(if free <= 8 { 2000 } else { 300 }) {
            let count = compare_both(&random.bits(2 * (free + 6)));
            inputs += 1;
            ties += u32::from(count > 1);
            most = most.max(count);
        }
    }
    println!("{inputs} inputs, {ties} with a tie, at most {most} words equally near");
    assert!(ties > inputs / 10);
}

#[test]
fn all_symbols_of_the_shortest_lengths() {
    for free in 0..=2 {
        let length = 2 * (free + 6);
        for choice in 0..(1u32 << length) {
            let coded: Vec<u8> = (0..length).map(|i| ((choice >> i) & 1) as u8).collect();
            compare_both(&coded);
        }
    }
}

#[test]
fn halfway_between_two_words() {
    let mut random = Random::new(3);
    let mut ties = 0;
    for _ in 0..3000 {
        let free = 1 + random.below(11) as usize;
        let coded = halfway(&mut random, free);
        ties += u32::from(compare_both(&coded) > 1);
    }
    println!("{ties} ties of 3000");
    assert!(ties > 1000);
}

/// The coded form of a word with half of the places changed where that of another differs.
fn halfway(random: &mut Random, free: usize) -> Vec<u8> {
    let word = |random: &mut Random| [random.bits(free), vec![0; 6]].concat();
    let (one, other) = (encode(&word(random)), encode(&word(random)));
    let mut places: Vec<usize> = (0..one.len()).filter(|&i| one[i] != other[i]).collect();
    for i in (1..places.len()).rev() {
        places.swap(i, random.below(i as u64 + 1) as usize);
    }
    let mut coded = one;
    for &i in &places[..places.len() / 2] {
        coded[i] = other[i];
    }
    coded
}

#[test]
fn lengths_that_have_no_word() {
    for length in [0, 1, 2, 11, 13, 25, 643, 642] {
        assert_eq!(nearest(&vec![0; length]), None, "{length}");
    }
    assert_eq!(nearest(&[0; 12]).map(|it| it.bits), Some(vec![0; 6]));
    assert!(nearest(&[0; 640]).is_some());
    assert!(nearest_by_trying_all(&[0; 38]).is_none());
}

// The rule of document 01 taken literally, at full length. Where `fixed[i]` is 0 or 1, bit i + 1 must be
// so. `least` only counts: it has no tie to decide. Taps here are the octal numbers 171 and 133, read
// with the present bit at the left.

fn least(coded: &[u8], fixed: &[Option<u8>]) -> u32 {
    const FAR: u32 = 1_000_000;
    let mut cost = [FAR; 64];
    cost[0] = 0;
    for (i, must) in fixed.iter().enumerate() {
        let mut next = [FAR; 64];
        for register in 0..64u32 {
            for bit in 0..2u32 {
                if must.is_some_and(|must| u32::from(must) != bit) {
                    continue;
                }
                // Present bit at weight 64, the one before it 32, ..., six before it 1.
                let seven = bit * 64 + register;
                let g1 = ((seven & 0o171).count_ones() % 2) as u8;
                let g2 = ((seven & 0o133).count_ones() % 2) as u8;
                let more = u32::from(g1 != coded[2 * i]) + u32::from(g2 != coded[2 * i + 1]);
                let after = (seven / 2) as usize;
                next[after] = next[after].min(cost[register as usize] + more);
            }
        }
        cost = next;
    }
    cost.into_iter().min().unwrap()
}

/// From the last free bit back to the first: 0 if a nearest word has 0 there, otherwise 1.
fn by_the_rule(coded: &[u8]) -> Nearest {
    let length = coded.len() / 2;
    let mut fixed: Vec<Option<u8>> = vec![None; length];
    fixed[length - 6..].fill(Some(0));
    let differing = least(coded, &fixed);
    for i in (0..length - 6).rev() {
        fixed[i] = Some(0);
        if least(coded, &fixed) != differing {
            fixed[i] = Some(1);
        }
    }
    Nearest { differing, bits: fixed.into_iter().flatten().collect() }
}

#[test]
fn full_length_by_the_rule() {
    let mut random = Random::new(4);
    for round in 0..24 {
        let coded = match round % 3 {
            0 => random.bits(CODED_SYMBOLS),
            1 => halfway(&mut random, 286),
            _ => {
                let mut coded = encode(&[random.bits(286), vec![0; 6]].concat());
                for _ in 0..10 + 4 * round {
                    coded[random.below(584) as usize] ^= 1;
                }
                coded
            }
        };
        assert_eq!(nearest(&coded), Some(by_the_rule(&coded)), "round {round}");
    }
}
