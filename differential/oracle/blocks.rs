//! Document 01's blocks: reading an airframe, a state and a tick, writing a state and a tick. Written
//! from 01 and 02 alone; only a row's torques and weights come from the originals.

use stable_flight::Vec3;
use stable_flight::mixers::{MixRow, Slot, TableMixer};

use crate::limits;
use crate::motors::{MotorLayout, Motors};
use crate::quadplane_model::LiftRotors;
use crate::surfaces::Surfaces;
use crate::wing::FixedWing;

pub const SLOTS: usize = 8;
pub const AIRFRAME_NUMBERS: usize = 41;
pub const WASH_NUMBERS: usize = 7;
pub const LIFT_NUMBERS: usize = 6;
/// The place of the first lift number.
pub const LIFT_PLACE: usize = 52;
pub const HEADER_BYTES: usize = 2;
pub const ROW_BYTES: usize = 13;
pub const STATE_NUMBERS: usize = 45;
pub const TICK_NUMBERS: usize = 20;
pub const STATE_BYTES: usize = 4 * STATE_NUMBERS;
/// A state block from before there were lift rotors, and one from before there were thrust scales.
pub const NO_LIFT_BYTES: usize = STATE_BYTES - 4 * SLOTS;
pub const UNSCALED_BYTES: usize = NO_LIFT_BYTES - 4 * SLOTS;
pub const TICK_BYTES: usize = 4 * TICK_NUMBERS;
const MOST_ROWS: usize = 16;

/// Why a block was refused: the number and, for 6, the place.
#[derive(Debug, Clone, Copy, PartialEq)]
pub struct Refusal {
    pub number: u8,
    pub place: u8,
}

impl Refusal {
    pub const fn of(number: u8) -> Self {
        Refusal { number, place: 0 }
    }
}

/// An airframe value. Numbers by place: `numbers[0]` has place 1, `wash[0]` place 42, `lift[0]`
/// place 52.
#[derive(Debug, Clone, PartialEq)]
pub struct Airframe {
    pub pitch_speed: bool,
    pub numbers: [f32; AIRFRAME_NUMBERS],
    pub wash: Option<[f32; WASH_NUMBERS]>,
    pub used: [bool; SLOTS],
    pub torques: [Vec3; SLOTS],
    pub weights: [Vec3; SLOTS],
    pub lift: Option<[f32; LIFT_NUMBERS]>,
    pub lift_used: [bool; SLOTS],
    pub lift_torques: [Vec3; SLOTS],
}

impl Airframe {
    /// What a refused read returns: zeros, Linear, with neither wash nor lift numbers, and no motor of
    /// either group used.
    pub fn zero() -> Self {
        Airframe {
            pitch_speed: false,
            numbers: [0.0; AIRFRAME_NUMBERS],
            wash: None,
            used: [false; SLOTS],
            torques: [Vec3::zeros(); SLOTS],
            weights: [Vec3::zeros(); SLOTS],
            lift: None,
            lift_used: [false; SLOTS],
            lift_torques: [Vec3::zeros(); SLOTS],
        }
    }

    /// The number at `place`, 1 to 41.
    pub fn at(&self, place: usize) -> f32 {
        self.numbers[place - 1]
    }

    pub fn three(&self, place: usize) -> Vec3 {
        Vec3::new(self.at(place), self.at(place + 1), self.at(place + 2))
    }

    /// The lowest place whose number is out of range; `rows_good` says whether all row factors
    /// are in range (place 49).
    fn bad_place(&self, rows_good: bool) -> Option<u8> {
        let numbers = (1..).zip(self.numbers);
        let wash = (1 + AIRFRAME_NUMBERS..).zip(self.wash.into_iter().flatten());
        for (place, number) in numbers.chain(wash) {
            if !limits::within(number, limits::airframe(place, self.pitch_speed)) {
                return Some(place as u8);
            }
        }
        if !rows_good {
            return Some(limits::ROW_PLACE);
        }
        if !all_within(&self.torques, limits::TORQUE) {
            return Some(limits::TORQUE_PLACE);
        }
        if !all_within(&self.weights, limits::WEIGHT) {
            return Some(limits::WEIGHT_PLACE);
        }
        self.bad_lift_place()
    }

    /// The same of the lift rotors; without lift numbers nothing of them is tested.
    fn bad_lift_place(&self) -> Option<u8> {
        for (place, number) in (LIFT_PLACE..).zip(self.lift?) {
            if !limits::within(number, limits::airframe(place, self.pitch_speed)) {
                return Some(place as u8);
            }
        }
        (!all_within(&self.lift_torques, limits::TORQUE)).then_some(limits::LIFT_TORQUE_PLACE)
    }

    /// Test 6 on an airframe value, read or hand-made.
    pub fn refusal(&self) -> Option<Refusal> {
        refused_at(self.bad_place(true))
    }
}

fn refused_at(place: Option<u8>) -> Option<Refusal> {
    place.map(|place| Refusal {
        number: limits::AIRFRAME,
        place,
    })
}

fn all_within(vectors: &[Vec3], range: limits::Range) -> bool {
    vectors
        .iter()
        .flat_map(|v| [v.x, v.y, v.z])
        .all(|number| limits::within(number, range))
}

/// The header of an airframe block.
pub struct Header {
    pitch_speed: bool,
    wash: bool,
    lift: bool,
    rows: usize,
}

impl Header {
    /// Version 4 bits, falloff kind 2, wash 1, lift 1, reserved 3, row count 5.
    pub fn read(bytes: &[u8]) -> Result<Self, Refusal> {
        let [first, second, ..] = *bytes else {
            return Err(Refusal::of(limits::LENGTH));
        };
        let bits = u16::from_be_bytes([first, second]);
        if bits >> 12 != 1 {
            return Err(Refusal::of(limits::VERSION));
        }
        let kind = bits >> 10 & 0b11;
        if kind > 1 {
            return Err(Refusal::of(limits::FALLOFF_KIND));
        }
        if bits >> 5 & 0b111 != 0 {
            return Err(Refusal::of(limits::RESERVED));
        }
        let rows = usize::from(bits & 0b11111);
        if rows > MOST_ROWS {
            return Err(Refusal::of(limits::ROW_COUNT));
        }
        Ok(Header {
            pitch_speed: kind == 1,
            wash: bits >> 9 & 1 == 1,
            lift: bits >> 8 & 1 == 1,
            rows,
        })
    }

    /// Where the lift numbers start, and where the rows do.
    fn lift_at(&self) -> usize {
        let wash = if self.wash { 4 * WASH_NUMBERS } else { 0 };
        HEADER_BYTES + 4 * AIRFRAME_NUMBERS + wash
    }

    fn rows_at(&self) -> usize {
        let lift = if self.lift { 4 * LIFT_NUMBERS } else { 0 };
        self.lift_at() + lift
    }

    /// The whole block's length in bytes.
    pub fn length(&self) -> usize {
        self.rows_at() + ROW_BYTES * self.rows
    }
}

/// The number at `at`, in bytes from the start.
fn number(bytes: &[u8], at: usize) -> f32 {
    f32::from_be_bytes([bytes[at], bytes[at + 1], bytes[at + 2], bytes[at + 3]])
}

fn numbers<const N: usize>(bytes: &[u8], at: usize) -> [f32; N] {
    core::array::from_fn(|place| number(bytes, at + 4 * place))
}

/// A row as the originals have it, and whether it is a lift rotor's: there it is a motor's.
#[derive(Debug, Clone, Copy, PartialEq)]
pub struct Row {
    pub lift: bool,
    pub mix: MixRow,
}

/// A row: the kind in bit 7 of its first byte, the slot in bits 6..4, lift rotor in bit 3; then three
/// factors. Bit 3 is a motor's alone, and only where there are lift numbers.
fn read_row(bytes: &[u8], lift_numbers: bool) -> Result<Row, Refusal> {
    let head = bytes[0];
    let (servo, lift) = (head >> 7 == 1, head >> 3 & 1 == 1);
    if head & 0b111 != 0 || lift && (servo || !lift_numbers) {
        return Err(Refusal::of(limits::RESERVED));
    }
    let slot = head >> 4 & 0b111;
    let slot = if servo {
        Slot::Servo(slot)
    } else {
        Slot::Motor(slot)
    };
    let mix = MixRow::new(slot, numbers(bytes, 1));
    Ok(Row { lift, mix })
}

pub fn read_airframe(bytes: &[u8]) -> Result<Airframe, Refusal> {
    let header = Header::read(bytes)?;
    if bytes.len() != header.length() {
        return Err(Refusal::of(limits::LENGTH));
    }
    let wash_at = HEADER_BYTES + 4 * AIRFRAME_NUMBERS;
    let rows = bytes[header.rows_at()..]
        .chunks(ROW_BYTES)
        .map(|row| read_row(row, header.lift))
        .collect::<Result<Vec<Row>, Refusal>>()?;
    let mut airframe = Airframe {
        pitch_speed: header.pitch_speed,
        numbers: numbers(bytes, HEADER_BYTES),
        wash: header.wash.then(|| numbers(bytes, wash_at)),
        lift: header.lift.then(|| numbers(bytes, header.lift_at())),
        ..Airframe::zero()
    };
    if let Some(refusal) = refused_at(airframe.bad_place(good_factors(&rows))) {
        return Err(refusal);
    }
    mix(&mut airframe, &rows);
    Ok(airframe)
}

fn good_factors(rows: &[Row]) -> bool {
    rows.iter()
        .flat_map(|row| [row.mix.roll(), row.mix.pitch(), row.mix.yaw()])
        .all(limits::row_factor)
}

/// Calls what lays rows out with the originals, which take them as an array: one arm for each row
/// count.
macro_rules! with_array {
    ($rows:expr, $lay_out:ident, $airframe:expr) => {
        with_array!($rows, $lay_out, $airframe, 0 1 2 3 4 5 6 7 8 9 10 11 12 13 14 15 16)
    };
    ($rows:expr, $lay_out:ident, $airframe:expr, $($count:literal)*) => {
        match $rows.len() {
            $($count => $lay_out::<$count>($airframe, core::array::from_fn(|i| $rows[i])),)*
            count => panic!("{count} rows"),
        }
    };
}

/// Lays the rows out on the airframe: each group gets its own, in their order.
pub(crate) fn mix(airframe: &mut Airframe, rows: &[Row]) {
    let of = |lift| -> Vec<MixRow> {
        let own = rows.iter().filter(|row| row.lift == lift);
        own.map(|row| row.mix).collect()
    };
    let (forward, lift) = (of(false), of(true));
    with_array!(forward, mix_forward, airframe);
    with_array!(lift, mix_lift, airframe);
}

/// Place 40 is the layout's arm and place 41 its yaw torque.
fn mix_forward<const N: usize>(airframe: &mut Airframe, rows: [MixRow; N]) {
    let mixer = TableMixer::new(rows);
    let motors = Motors::new(mixer.rows(), &layout(airframe));
    airframe.used = motors.used();
    airframe.torques = motors.torques();
    airframe.weights = Surfaces::new(mixer.rows()).weights();
}

/// The slots of the original lift group of these rows; without lift numbers there is none.
fn mix_lift<const N: usize>(airframe: &mut Airframe, rows: [MixRow; N]) {
    if let Some(numbers) = airframe.lift {
        let motors = FixedWing::lift_motors_of(&TableMixer::new(rows), rotors(numbers));
        airframe.lift_used = motors.used();
        airframe.lift_torques = motors.torques();
    }
}

/// Places 52 to 57. Of the drag the originals make a number over all rotors' full thrust, and so a wing
/// gets place 57 put in as it stands.
pub(crate) fn rotors(numbers: [f32; LIFT_NUMBERS]) -> LiftRotors {
    let [max_thrust, exponent, arm, yaw_torque, time_constant, drag] = numbers;
    let layout = MotorLayout {
        moment_arm_m: arm,
        yaw_torque_per_thrust_m: yaw_torque,
        max_thrust_n: max_thrust,
        thrust_exponent: exponent,
    };
    LiftRotors::new(layout, time_constant, drag)
}

pub(crate) fn layout(airframe: &Airframe) -> MotorLayout {
    MotorLayout {
        moment_arm_m: airframe.at(40),
        yaw_torque_per_thrust_m: airframe.at(41),
        max_thrust_n: airframe.at(35),
        thrust_exponent: airframe.at(36),
    }
}

/// A state, its numbers in their order.
#[derive(Debug, Clone, Copy, PartialEq)]
pub struct State {
    pub position: [f32; 3],
    pub velocity: [f32; 3],
    pub attitude: [f32; 4],
    pub rates: [f32; 3],
    pub motors: [f32; SLOTS],
    pub servos: [f32; SLOTS],
    pub thrust_scale: [f32; SLOTS],
    pub lift_motors: [f32; SLOTS],
}

impl State {
    /// What a refused read returns.
    pub fn zero() -> Self {
        Self::from_numbers(&[0; UNSCALED_BYTES], [0.0; SLOTS], [0.0; SLOTS])
    }

    /// The numbers of a block, not tested: 180 bytes have them all; 148 have no running values of lift
    /// rotors, which then are 0; 116 have no thrust scales either, which then are 1; none for any
    /// other length.
    pub fn of_block(bytes: &[u8]) -> Option<Self> {
        let (thrust_scale, lift_motors) = match bytes.len() {
            STATE_BYTES => (
                numbers(bytes, UNSCALED_BYTES),
                numbers(bytes, NO_LIFT_BYTES),
            ),
            NO_LIFT_BYTES => (numbers(bytes, UNSCALED_BYTES), [0.0; SLOTS]),
            UNSCALED_BYTES => ([1.0; SLOTS], [0.0; SLOTS]),
            _ => return None,
        };
        Some(Self::from_numbers(bytes, thrust_scale, lift_motors))
    }

    /// The height, which is the position down negated.
    pub fn height_m(&self) -> f32 {
        -self.position[2]
    }

    fn from_numbers(bytes: &[u8], thrust_scale: [f32; SLOTS], lift_motors: [f32; SLOTS]) -> Self {
        State {
            position: numbers(bytes, 0),
            velocity: numbers(bytes, 12),
            attitude: numbers(bytes, 24),
            rates: numbers(bytes, 40),
            motors: numbers(bytes, 52),
            servos: numbers(bytes, 84),
            thrust_scale,
            lift_motors,
        }
    }

    /// All numbers in the block's order.
    pub fn numbers(&self) -> Vec<f32> {
        [
            &self.position[..],
            &self.velocity,
            &self.attitude,
            &self.rates,
            &self.motors,
            &self.servos,
            &self.thrust_scale,
            &self.lift_motors,
        ]
        .concat()
    }

    /// Whether the state is within the envelope.
    pub fn inside(&self) -> bool {
        let all = |numbers: &[f32], range| numbers.iter().all(|x| limits::within(*x, range));
        let [w, i, j, k] = self.attitude;
        all(&self.position, limits::POSITION)
            && all(&self.velocity, limits::VELOCITY)
            && all(&self.rates, limits::RATE)
            && limits::within(i * i + j * j + k * k + w * w, limits::NORM)
            && all(&self.motors, limits::MOTOR)
            && all(&self.servos, limits::SERVO)
            && all(&self.thrust_scale, limits::SCALE)
            && all(&self.lift_motors, limits::MOTOR)
    }
}

pub fn read_state(bytes: &[u8]) -> Result<State, Refusal> {
    let Some(state) = State::of_block(bytes) else {
        return Err(Refusal::of(limits::LENGTH));
    };
    if !state.inside() {
        return Err(Refusal::of(limits::STATE));
    }
    Ok(state)
}

/// Writes the numbers, untested, where just as many bytes are lent as they need; else answers 1
/// and leaves the bytes.
fn write(numbers: &[f32], bytes: &mut [u8]) -> Result<(), Refusal> {
    if bytes.len() != 4 * numbers.len() {
        return Err(Refusal::of(limits::LENGTH));
    }
    for (place, number) in bytes.chunks_exact_mut(4).zip(numbers) {
        place.copy_from_slice(&number.to_be_bytes());
    }
    Ok(())
}

/// Writes `state` into 180 bytes lent.
pub fn write_state(state: &State, bytes: &mut [u8]) -> Result<(), Refusal> {
    write(&state.numbers(), bytes)
}

/// A tick: step, wind NED, motor and servo commands.
#[derive(Debug, Clone, Copy, PartialEq)]
pub struct Tick {
    pub step: f32,
    pub wind: [f32; 3],
    pub motors: [f32; SLOTS],
    pub servos: [f32; SLOTS],
}

impl Tick {
    /// All 20 numbers in the block's order.
    pub fn numbers(&self) -> Vec<f32> {
        [&[self.step], &self.wind[..], &self.motors, &self.servos].concat()
    }
}

/// Writes `tick` into 80 bytes lent.
pub fn write_tick(tick: &Tick, bytes: &mut [u8]) -> Result<(), Refusal> {
    write(&tick.numbers(), bytes)
}

pub fn read_tick(bytes: &[u8]) -> Result<Tick, Refusal> {
    if bytes.len() != TICK_BYTES {
        return Err(Refusal::of(limits::LENGTH));
    }
    Ok(Tick {
        step: number(bytes, 0),
        wind: numbers(bytes, 4),
        motors: numbers(bytes, 16),
        servos: numbers(bytes, 48),
    })
}
