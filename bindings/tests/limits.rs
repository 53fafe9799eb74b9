//! The table of airframe numbers in docs/SCOPE.md, tried on the library: each number is accepted at
//! its limits and refused with its place at the next float beyond. BENCH_SCOPE names the page.

use bench::{AIRFRAME_NUMBERS, REPORT_NUMBERS, STATE_NUMBERS, place, place_name, raw};

use crate::calm;

const HEAD: &str = "| Place | Name | Unit | Low | High | Meaning |";
/// How many numbers a block has with wash and lift numbers: places 1 to 48 and 52 to 57.
const NUMBERS: usize = 54;
const OUT_OF_RANGE: u64 = 6;

// Where the torques and weights of a prepared airframe start, and the lift rotors' torques.
const TORQUES: usize = 58;
const WEIGHTS: usize = 82;
const LIFT_TORQUES: usize = 121;

struct Row {
    place: u64,
    name: String,
    pitch_speed: bool,
    low: f32,
    high: f32,
}

fn row(line: &str) -> Option<Row> {
    let cells: Vec<&str> = line.split('|').map(str::trim).collect();
    let ["", place, name, _, low, high, _, ""] = cells[..] else {
        return None;
    };
    Some(Row {
        place: place.parse().ok()?,
        name: name.replace('`', ""),
        pitch_speed: name.ends_with("PitchSpeed"),
        low: low.parse().ok()?,
        high: high.parse().ok()?,
    })
}

/// The rows of the table, all of which must be understood.
fn table() -> Vec<Row> {
    let file = std::env::var("BENCH_SCOPE").expect("BENCH_SCOPE names the page with the table");
    let page = std::fs::read_to_string(&file).unwrap_or_else(|error| panic!("{file}: {error}"));
    let lines = page.lines().skip_while(|line| *line != HEAD).skip(2);
    let rows = lines.take_while(|line| line.starts_with('|'));
    rows.map(|line| row(line).unwrap_or_else(|| panic!("not a row: {line}"))).collect()
}

/// An accepted block with wash and lift numbers, and with the rows given: ones.
fn block(pitch_speed: bool, rows: &[[f32; 3]]) -> Vec<u8> {
    let mut block = vec![if pitch_speed { 0x17 } else { 0x13 }, rows.len() as u8];
    block.extend([1.0f32; NUMBERS].iter().flat_map(|number| number.to_be_bytes()));
    for factors in rows {
        block.push(0);
        block.extend(factors.iter().flat_map(|factor| factor.to_be_bytes()));
    }
    block
}

/// The reply to the block with this number at the row's place.
fn reply_with(row: &Row, number: f32) -> u64 {
    let mut block = block(row.pitch_speed, &[]);
    let before = if row.place < place::LIFT_MAX_THRUST_N { 1 } else { 4 };
    let at = 2 + 4 * (row.place as usize - before);
    block[at..at + 4].copy_from_slice(&number.to_be_bytes());
    raw::read_airframe(&block)
}

fn refused_at(place: u64) -> u64 {
    OUT_OF_RANGE + 16 * place
}

#[test]
fn the_table_names_all_places() {
    let places: Vec<u64> = table().iter().map(|row| row.place).collect();
    let expected: Vec<u64> = (1..=37).chain(37..=48).chain(52..=57).collect();
    assert_eq!(places, expected);
    for row in table() {
        let kind = match (row.place, row.pitch_speed) {
            (place::THRUST_FALLOFF, true) => " PitchSpeed",
            (place::THRUST_FALLOFF, false) => " Linear",
            _ => "",
        };
        assert_eq!(row.name, format!("{}{kind}", place_name(row.place)));
    }
}

#[test]
fn the_tables_limits_are_the_librarys() {
    let rows = table();
    assert!(!rows.is_empty());
    for row in rows {
        let replies = [row.low, row.high].map(|number| reply_with(&row, number));
        assert_eq!(replies, [0; 2], "{} at its limits", row.name);
        let beyond = [row.low.next_down(), row.high.next_up()];
        let replies = beyond.map(|number| reply_with(&row, number));
        assert_eq!(replies, [refused_at(row.place); 2], "{} beyond its limits", row.name);
    }
}

/// The reply to a block whose second row has this factor on this axis.
fn reply_with_factor(axis: usize, factor: f32) -> u64 {
    let mut rows = [[0.0; 3]; 2];
    rows[1][axis] = factor;
    raw::read_airframe(&block(false, &rows))
}

#[test]
fn row_factors_have_place_49() {
    let (small, large) = (0.01f32, 10.0f32);
    for axis in 0..3 {
        for factor in [0.0, -0.0, small, -small, large, -large] {
            assert_eq!(reply_with_factor(axis, factor), 0, "{factor}");
        }
        let beyond = [0.0f32.next_up(), small.next_down(), large.next_up(), f32::NAN];
        for factor in beyond.into_iter().flat_map(|factor| [factor, -factor]) {
            assert_eq!(reply_with_factor(axis, factor), refused_at(place::ROW_FACTOR), "{factor}");
        }
    }
}

/// The reply to a tick with this number in the prepared airframe, from a state at rest.
fn ticked_with(at: usize, number: f32) -> u64 {
    let mut airframe = [0.0; AIRFRAME_NUMBERS];
    assert_eq!(raw::prepare(&block(false, &[]), &mut airframe), 0);
    airframe[at] = number;
    let mut state = [0.0; STATE_NUMBERS];
    state[6] = 1.0;
    raw::tick_prepared(&airframe, &mut state, &calm(), &mut [0.0; REPORT_NUMBERS])
}

/// All 24 numbers from `first` on are held to `limit`, both ways.
fn held_to(first: usize, limit: f32, place: u64) {
    for at in first..first + 24 {
        assert_eq!([limit, -limit].map(|number| ticked_with(at, number)), [0; 2], "{at}");
        let beyond = [limit.next_up(), -limit.next_up(), f32::NAN];
        assert_eq!(beyond.map(|number| ticked_with(at, number)), [refused_at(place); 3], "{at}");
    }
}

#[test]
fn motor_torques_have_place_50() {
    held_to(TORQUES, 100.0, place::MOTOR_TORQUE);
}

#[test]
fn surface_weights_have_place_51() {
    held_to(WEIGHTS, 101.0, place::SURFACE_WEIGHT);
}

#[test]
fn lift_torques_have_place_58() {
    held_to(LIFT_TORQUES, 100.0, place::LIFT_TORQUE);
}
