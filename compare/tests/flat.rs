//! The search with flat arrays gives what the plain one gives, and so does trying all words where that is
//! possible; ties included.

mod random;

use compare::plain::*;
use compare::{flat, plain};
use random::Random;

/// Compares the searches; gives how many words were equally near, where all can be tried.
fn compare_all(coded: &[u8]) -> u32 {
    let found = flat::nearest(coded);
    assert_eq!(found, plain::nearest(coded), "{coded:?}");
    match nearest_by_trying_all(coded) {
        Some((tried, count)) => {
            assert_eq!(found, Some(tried), "{coded:?}");
            count
        }
        None => 0,
    }
}

#[test]
fn every_length() {
    let mut random = Random::new(21);
    for length in 0..=NEAREST_MOST + 2 {
        for symbols in [2 * length, 2 * length + 1] {
            compare_all(&random.bits(symbols));
        }
    }
}

#[test]
fn short_words_and_all_of_them() {
    let mut random = Random::new(22);
    let (mut inputs, mut ties) = (0, 0);
    for free in 0..=12 {
        for _ in 0..(if free <= 8 { 2000 } else { 100 }) {
            inputs += 1;
            ties += u32::from(compare_all(&random.bits(2 * (free + 6))) > 1);
        }
    }
    println!("{inputs} inputs, {ties} with a tie");
    assert!(ties > inputs / 10);
}

#[test]
fn all_symbols_of_the_shortest_lengths() {
    for free in 0..=2 {
        let length = 2 * (free + 6);
        for choice in 0..(1u32 << length) {
            let coded: Vec<u8> = (0..length).map(|i| ((choice >> i) & 1) as u8).collect();
            compare_all(&coded);
        }
    }
}

/// Full length: noise, halfway between two words near each other, halfway between any two, and errors.
#[test]
fn full_length() {
    let mut random = Random::new(23);
    for round in 0..3000 {
        let word = [random.bits(286), vec![0; 6]].concat();
        let coded = match round % 4 {
            0 => random.bits(CODED_SYMBOLS),
            1 => {
                let mut near = word.clone();
                for _ in 0..=random.below(3) {
                    near[random.below(286) as usize] ^= 1;
                }
                halfway(&mut random, &encode(&word), &encode(&near))
            }
            2 => {
                let other = [random.bits(286), vec![0; 6]].concat();
                halfway(&mut random, &encode(&word), &encode(&other))
            }
            _ => {
                let mut coded = encode(&word);
                for _ in 0..random.below(90) {
                    coded[random.below(584) as usize] ^= 1;
                }
                coded
            }
        };
        compare_all(&coded);
    }
}

/// Half of the places where two coded words differ taken from the one, half from the other.
fn halfway(random: &mut Random, one: &[u8], other: &[u8]) -> Vec<u8> {
    let mut places: Vec<usize> = (0..one.len()).filter(|&i| one[i] != other[i]).collect();
    for i in (1..places.len()).rev() {
        places.swap(i, random.below(i as u64 + 1) as usize);
    }
    let mut coded = one.to_vec();
    for &i in &places[..places.len() / 2] {
        coded[i] = other[i];
    }
    coded
}

/// The reader gives the same with either search.
#[test]
fn readings() {
    let mut random = Random::new(24);
    for _ in 0..300 {
        let mut symbols = random.bits(600);
        symbols[..16].copy_from_slice(&SYNC);
        let (mut one, mut other) = ([7; 40], [7; 40]);
        let reading = read_by(flat::nearest, &symbols, &mut one);
        assert_eq!((reading, one), (read(&symbols, &mut other), other));
    }
}
