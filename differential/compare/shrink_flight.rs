//! Makes a differing input of fly smaller while it still differs.

use std::io;

use oracle::blocks::{Header, ROW_BYTES, STATE_BYTES, TICK_BYTES};

/// Whether an input differs; an error where that cannot be told.
type Differs<'a> = &'a dyn Fn(&[u8]) -> io::Result<bool>;

/// Fewer ticks, fewer rows, then plainer numbers, while the flight still differs.
pub fn smallest(
    mut input: Vec<u8>,
    differs: impl Fn(&[u8]) -> io::Result<bool>,
) -> io::Result<Vec<u8>> {
    loop {
        let before = input.clone();
        for smaller in [without_ticks, without_rows, with_plain_numbers] {
            input = smaller(&differs, input)?;
        }
        if input == before {
            return Ok(input);
        }
    }
}

/// Where the rows, the state and the ticks start.
fn starts(input: &[u8]) -> Option<(usize, usize, usize)> {
    let state = Header::read(input).ok()?.length();
    let rows = state - ROW_BYTES * usize::from(input[1] & 31);
    Some((rows, state, state + STATE_BYTES))
}

fn without(input: &[u8], at: usize, count: usize) -> Vec<u8> {
    [&input[..at], &input[at + count..]].concat()
}

fn without_ticks(differs: Differs, mut input: Vec<u8>) -> io::Result<Vec<u8>> {
    let Some((_, _, ticks)) = starts(&input) else {
        return Ok(input);
    };
    let mut end = input.len();
    while end >= ticks + TICK_BYTES {
        end -= TICK_BYTES;
        let tried = without(&input, end, TICK_BYTES);
        if differs(&tried)? {
            input = tried;
        }
    }
    Ok(input)
}

fn without_rows(differs: Differs, mut input: Vec<u8>) -> io::Result<Vec<u8>> {
    let Some((rows, state, _)) = starts(&input) else {
        return Ok(input);
    };
    let mut end = state;
    while end > rows && input.len() >= state {
        end -= ROW_BYTES;
        let mut tried = without(&input, end, ROW_BYTES);
        tried[1] -= 1;
        if differs(&tried)? {
            input = tried;
        }
    }
    Ok(input)
}

/// The places of the numbers: after the header, after each row's first byte, to the end.
fn number_places(input: &[u8]) -> Vec<usize> {
    let Some((rows, state, _)) = starts(input) else {
        return Vec::new();
    };
    let in_rows = (rows..state)
        .step_by(ROW_BYTES)
        .flat_map(|row| [row + 1, row + 5, row + 9]);
    let after = (state..input.len()).step_by(4);
    let all = (2..rows).step_by(4).chain(in_rows).chain(after);
    all.filter(|at| at + 4 <= input.len()).collect()
}

fn with_plain_numbers(differs: Differs, mut input: Vec<u8>) -> io::Result<Vec<u8>> {
    for at in number_places(&input) {
        let old = u32::from_be_bytes([input[at], input[at + 1], input[at + 2], input[at + 3]]);
        for plain in [0, 0x3F80_0000, old & 0xFF80_0000, old & 0xFFFF_0000] {
            if plain == old || old == 0 {
                continue;
            }
            let mut tried = input.clone();
            tried[at..at + 4].copy_from_slice(&plain.to_be_bytes());
            if differs(&tried)? {
                input = tried;
                break;
            }
        }
    }
    Ok(input)
}
