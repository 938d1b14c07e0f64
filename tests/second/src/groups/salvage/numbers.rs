//! The numbers of a salvage: the first condition in the order decides, whatever else is wrong, and later blocks and padding decide nothing.

use super::{draft_of_200, number_is, spoiled};
use crate::damage::cards::Spoil;
use crate::file::{BLOCK, PAYLOAD, sealed};
use crate::groups::Bench;
use crate::job::{HEADER, RECORD};

const FRONT: usize = HEADER + 200 * RECORD;

/// What may be wrong, in the order in which it decides.
const ORDER: [(u32, Wrong); 8] = [
    (14, Wrong::NoHeader),
    (5, Wrong::Bytes(0, [&[0], &[4], &[255]])),
    (6, Wrong::Bytes(1, [&[0], &[9], &[255]])),
    (7, Wrong::Bytes(2, [&[0, 0], &[1, 1], &[255, 255]])),
    (8, Wrong::Bytes(4, [&[64, 1], &[128, 0], &[255, 255]])),
    (14, Wrong::NoRecords),
    (10, Wrong::Bytes(HEADER + 4, [&[4], &[0, 3], &[1, 2, 0, 1]])),
    (11, Wrong::Bytes(FRONT, [&[4], &[132], &[255]])),
];

/// Block 0 or block 1 is spoiled or not there, or the stream has other bytes in a place, one of three ways.
#[derive(Clone, Copy)]
enum Wrong {
    NoHeader,
    NoRecords,
    Bytes(usize, [&'static [u8]; 3]),
}

/// Later blocks, which decide nothing: as they were, one spoiled, gone, zeroed, or with many behind them.
fn later(card: &mut Vec<u8>, way: usize) {
    match way {
        1 => card[2 * BLOCK + 40] ^= 1,
        2 => card.truncate(2 * BLOCK + 100),
        3 => card[3 * BLOCK..].fill(0),
        4 => card.extend([1; 40 * BLOCK]),
        _ => {}
    }
}

/// The card of a set of faults, each in one of three ways, with this byte for padding.
fn card(set: usize, way: usize, padding: u8) -> Vec<u8> {
    let has = |place: usize| set >> place & 1 == 1;
    let mut stream = draft_of_200().stream();
    stream.resize(stream.len().div_ceil(PAYLOAD) * PAYLOAD, padding);
    for (place, (_, wrong)) in ORDER.iter().enumerate().filter(|(place, _)| has(*place)) {
        if let Wrong::Bytes(at, ways) = wrong {
            let bytes = ways[(way + place) % 3];
            stream[*at..at + bytes.len()].copy_from_slice(bytes);
        }
    }
    let mut card = sealed(&stream);
    later(&mut card, way % 5);
    for (place, (_, wrong)) in ORDER.iter().enumerate().filter(|(place, _)| has(*place)) {
        match wrong {
            Wrong::NoHeader => not_whole(&mut card, 0, way),
            Wrong::NoRecords => not_whole(&mut card, 1, way + place),
            Wrong::Bytes(..) => {}
        }
    }
    card
}

/// A block that is not kept: another sum, another number, or cut in its last byte.
fn not_whole(card: &mut Vec<u8>, position: usize, way: usize) {
    match way % 3 {
        _ if card.len() < (position + 1) * BLOCK => {}
        0 => *card = spoiled(card, &[(position, Spoil::Byte(509, 1))], &[]),
        1 => *card = spoiled(card, &[(position, Spoil::Number(position as u16 + 3))], &[]),
        _ => card.truncate((position + 1) * BLOCK - 1),
    }
}

/// Every set of faults, each in every way, with right padding and wrong: the first of them in the order decides.
pub fn order(bench: &mut Bench) -> Result<usize, String> {
    let mut count = 0;
    for set in 0..1 << ORDER.len() {
        for way in 0..15 {
            let card = card(set, way, (way % 2) as u8);
            let first = ORDER.iter().zip(0..).find(|(_, place)| set >> place & 1 == 1);
            number_is(bench, &card, first.map_or(0, |((number, _), _)| *number))?;
            count += 1;
        }
    }
    Ok(count)
}
