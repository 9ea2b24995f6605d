//! The tests: by hand in `records`, from the outside vectors in `vectors`.

#[path = "../../../../compare/tests/json.rs"]
mod json;
mod records;
mod vectors;

use crate::*;

/// The symbols of a text: line feeds left out, a byte that is neither '0' nor '1' as a bad symbol.
fn symbols_of(text: &[u8]) -> Vec<u8> {
    let symbol = |byte: &u8| match byte {
        b'0' => 0,
        b'1' => 1,
        _ => 255,
    };
    text.iter().filter(|byte| **byte != b'\n').map(symbol).collect()
}

/// The six numbers that the program prints.
fn line(answer: &Result<Reading, ReadRefusal>) -> [u32; 6] {
    match answer {
        Ok(reading) => {
            let (record, quality) = (&reading.record, reading.quality);
            let id = record.message_id().unwrap_or(0);
            [0, quality.corrected, u32::from(quality.turned_over), record.subframe(), record.head().towc.0, id]
        }
        Err(refusal) => {
            let (corrected, turned_over) = refusal.quality().map_or((0, false), |it| (it.corrected, it.turned_over));
            [u32::from(refusal.number()), corrected, u32::from(turned_over), 0, 0, 0]
        }
    }
}
