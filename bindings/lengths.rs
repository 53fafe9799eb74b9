// The lengths, answers and places of include/bench.h, written by bindings/lengths.
pub const BLOCK_VERSION: usize = 1;
pub const CALLS_VERSION: usize = 7;
pub const AIRFRAME_NUMBERS: usize = 145;
pub const STATE_NUMBERS: usize = 45;
pub const TICK_NUMBERS: usize = 20;
pub const REPORT_NUMBERS: usize = 3;
pub const SLOTS: usize = 8;
pub const STATE_BYTES: usize = 180;
pub const STATE_BYTES_NO_LIFT: usize = 148;
pub const STATE_BYTES_UNSCALED: usize = 116;
pub const TICK_BYTES: usize = 80;
pub const AIRFRAME_BYTES: usize = 166;
pub const WASH_BYTES: usize = 28;
pub const LIFT_BYTES: usize = 24;
pub const ROW_BYTES: usize = 13;
pub const MOST_ROWS: usize = 16;
pub const HEADER_LIFT: usize = 1;
pub const ROW_LIFT: usize = 8;

// Where the numbers of the arrays start.
pub const STATE_POSITION: usize = 0;
pub const STATE_VELOCITY: usize = 3;
pub const STATE_ATTITUDE: usize = 6;
pub const STATE_RATES: usize = 10;
pub const STATE_MOTORS: usize = 13;
pub const STATE_SERVOS: usize = 21;
pub const STATE_SCALES: usize = 29;
pub const STATE_LIFT: usize = 37;
pub const TICK_STEP: usize = 0;
pub const TICK_WIND: usize = 1;
pub const TICK_MOTORS: usize = 4;
pub const TICK_SERVOS: usize = 12;
pub const REPORT_ALPHA: usize = 0;
pub const REPORT_BETA: usize = 1;
pub const REPORT_THRUST: usize = 2;
pub const AIRFRAME_PLACES: usize = 0;
pub const AIRFRAME_FALLOFF: usize = 48;
pub const AIRFRAME_WASH: usize = 49;
pub const AIRFRAME_USED: usize = 50;
pub const AIRFRAME_TORQUES: usize = 58;
pub const AIRFRAME_WEIGHTS: usize = 82;
pub const AIRFRAME_LIFT_PLACES: usize = 106;
pub const AIRFRAME_LIFT: usize = 112;
pub const AIRFRAME_LIFT_USED: usize = 113;
pub const AIRFRAME_LIFT_TORQUES: usize = 121;

/// The words of the answers from 0 on.
pub const ANSWERS: [&str; 11] = [
    "done",
    "wrong length",
    "the version is not 1",
    "the falloff kind is 2 or 3",
    "a reserved bit is 1, or a lift rotor's bit on a servo's row or without lift numbers",
    "more than 16 rows",
    "a number of the airframe is outside its limits",
    "the state is outside the envelope",
    "the step is not within 1/1024..0.02 s",
    "the next state would be outside the envelope (departure)",
    "a component of the wind is a NaN or beyond 200 m/s",
];

/// The names of the places from 1 on.
pub const PLACES: [&str; 58] = [
    "mass_kg",
    "inertia_kgm2 roll",
    "inertia_kgm2 pitch",
    "inertia_kgm2 yaw",
    "wing_area_m2",
    "span_m",
    "chord_m",
    "c_lift_0",
    "c_lift_alpha",
    "alpha_stall_rad",
    "stall_sharpness",
    "c_drag_0",
    "oswald",
    "c_side_beta",
    "c_side_rudder",
    "c_roll_beta",
    "c_roll_p",
    "c_roll_r",
    "c_roll_aileron",
    "c_roll_rudder",
    "c_pitch_0",
    "c_pitch_alpha",
    "post_stall_pitch_share",
    "c_pitch_q",
    "c_pitch_elevator",
    "surface_stall_share",
    "c_yaw_beta",
    "c_yaw_p",
    "c_yaw_r",
    "c_yaw_rudder",
    "max_deflection_rad aileron",
    "max_deflection_rad elevator",
    "max_deflection_rad rudder",
    "servo_time_constant_s",
    "max_thrust_n",
    "thrust_exponent",
    "thrust_falloff",
    "thrust_line_below_cg_m",
    "time_constant_s",
    "moment_arm_m",
    "yaw_torque_per_thrust_m",
    "disc_area_m2",
    "surface_fraction",
    "roll_fraction",
    "pitch_moment",
    "stall_pitch_moment",
    "sink_loss",
    "damping_fraction",
    "row factor",
    "motor torque",
    "surface weight",
    "lift max_thrust_n",
    "lift thrust_exponent",
    "lift moment_arm_m",
    "lift yaw_torque_per_thrust_m",
    "lift time_constant_s",
    "lift drag_per_thrust_n_per_mps",
    "lift torque",
];

/// The places of an airframe number that is out of range.
pub mod place {
    pub const MASS_KG: u64 = 1;
    pub const INERTIA_KGM2_ROLL: u64 = 2;
    pub const INERTIA_KGM2_PITCH: u64 = 3;
    pub const INERTIA_KGM2_YAW: u64 = 4;
    pub const WING_AREA_M2: u64 = 5;
    pub const SPAN_M: u64 = 6;
    pub const CHORD_M: u64 = 7;
    pub const C_LIFT_0: u64 = 8;
    pub const C_LIFT_ALPHA: u64 = 9;
    pub const ALPHA_STALL_RAD: u64 = 10;
    pub const STALL_SHARPNESS: u64 = 11;
    pub const C_DRAG_0: u64 = 12;
    pub const OSWALD: u64 = 13;
    pub const C_SIDE_BETA: u64 = 14;
    pub const C_SIDE_RUDDER: u64 = 15;
    pub const C_ROLL_BETA: u64 = 16;
    pub const C_ROLL_P: u64 = 17;
    pub const C_ROLL_R: u64 = 18;
    pub const C_ROLL_AILERON: u64 = 19;
    pub const C_ROLL_RUDDER: u64 = 20;
    pub const C_PITCH_0: u64 = 21;
    pub const C_PITCH_ALPHA: u64 = 22;
    pub const POST_STALL_PITCH_SHARE: u64 = 23;
    pub const C_PITCH_Q: u64 = 24;
    pub const C_PITCH_ELEVATOR: u64 = 25;
    pub const SURFACE_STALL_SHARE: u64 = 26;
    pub const C_YAW_BETA: u64 = 27;
    pub const C_YAW_P: u64 = 28;
    pub const C_YAW_R: u64 = 29;
    pub const C_YAW_RUDDER: u64 = 30;
    pub const MAX_DEFLECTION_RAD_AILERON: u64 = 31;
    pub const MAX_DEFLECTION_RAD_ELEVATOR: u64 = 32;
    pub const MAX_DEFLECTION_RAD_RUDDER: u64 = 33;
    pub const SERVO_TIME_CONSTANT_S: u64 = 34;
    pub const MAX_THRUST_N: u64 = 35;
    pub const THRUST_EXPONENT: u64 = 36;
    pub const THRUST_FALLOFF: u64 = 37;
    pub const THRUST_LINE_BELOW_CG_M: u64 = 38;
    pub const TIME_CONSTANT_S: u64 = 39;
    pub const MOMENT_ARM_M: u64 = 40;
    pub const YAW_TORQUE_PER_THRUST_M: u64 = 41;
    pub const DISC_AREA_M2: u64 = 42;
    pub const SURFACE_FRACTION: u64 = 43;
    pub const ROLL_FRACTION: u64 = 44;
    pub const PITCH_MOMENT: u64 = 45;
    pub const STALL_PITCH_MOMENT: u64 = 46;
    pub const SINK_LOSS: u64 = 47;
    pub const DAMPING_FRACTION: u64 = 48;
    pub const ROW_FACTOR: u64 = 49;
    pub const MOTOR_TORQUE: u64 = 50;
    pub const SURFACE_WEIGHT: u64 = 51;
    pub const LIFT_MAX_THRUST_N: u64 = 52;
    pub const LIFT_THRUST_EXPONENT: u64 = 53;
    pub const LIFT_MOMENT_ARM_M: u64 = 54;
    pub const LIFT_YAW_TORQUE_PER_THRUST_M: u64 = 55;
    pub const LIFT_TIME_CONSTANT_S: u64 = 56;
    pub const LIFT_DRAG_PER_THRUST_N_PER_MPS: u64 = 57;
    pub const LIFT_TORQUE: u64 = 58;
}
