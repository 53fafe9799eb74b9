/* The flight bench for C and C++: blocks, ticks, runs and the mirrored pair.
 *
 * Link crates/bench_c/out/libbench_c.a (x86-64), which `rt lib` in crates/bench_c writes. It keeps no state of its own, asks for no
 * memory and calls nothing but memcpy and memset, so calls from several threads need no lock.
 *
 * Rules for every call: each pointer is followed by its length, counted in elements (bytes of a block, floats of an array). A
 * pointer is never NULL, not even for length 0; an array of floats is aligned as float is. Buffers handed to one call do not
 * overlap. Every call returns, whatever the bytes and floats are, and changes nothing but what its comment names.
 *
 * The calling thread's float environment must be the default of x86-64: rounding to nearest even, subnormals kept (neither FTZ
 * nor DAZ), exceptions masked. In another one, such as that of a host linked with -ffast-math, numbers come out different, a
 * pair need not mirror, and an unmasked exception ends the process; no reply tells. A caller that may be in another one uses the
 * guarded forms at the end of this file. The calls leave raised what exception flags they raise.
 *
 * A reply is answer + 16 * place: bench_answer and bench_place take it apart. The place is 0 but for answer 6.
 *
 * "As found" means bit for bit. For the bits of a NaN this is tested and not proved, since the proofs know one NaN only. A NaN
 * that is written into a block has the bits 7FC00000; one that is read or computed is a NaN, and its bits may be any NaN's.
 */
#ifndef BENCH_H
#define BENCH_H

#include <stddef.h>
#include <stdint.h>
#if defined(__x86_64__) && defined(__GNUC__)
#include <xmmintrin.h>
#endif

#ifdef __cplusplus
extern "C" {
#endif

/* The version of the blocks, which an airframe block's first four bits give: another one means another layout of bytes. The
 * version of the calls: it rises where a call is added or answers otherwise. 2 has bench_read_tick and bench_write_tick, and a
 * run looks at its trace's length before its block. 3 tests the wind of a tick: a NaN or more than 200 m/s gets the new answer
 * 10, after 8 and before 9. 4 has eight thrust scales more in a state: its array has 37 floats, not 29, and its block 148 bytes,
 * not 116, which are still read. 5 takes thrust exponents (place 36) from 1 to 3, not 2 alone, and has bench_logf and
 * bench_powf. 6 has lift rotors: the bits of header and row that announce them are no longer refused, a state has eight running
 * values more (45 floats, 180 bytes; 148 and 116 are still read), an airframe's array 39 floats more at its end. 7 takes the air's
 * density by the height where a tick starts, not 1.225 kg/m3 everywhere, and has bench_density; a tick that starts at 0 m is what
 * it was. */
#define BENCH_BLOCK_VERSION 1
#define BENCH_CALLS_VERSION 7

/* How many floats each array has. */
#define BENCH_AIRFRAME_NUMBERS 145
#define BENCH_STATE_NUMBERS 45
#define BENCH_TICK_NUMBERS 20
#define BENCH_REPORT_NUMBERS 3

/* How many motors of either group there are, and how many servos. The motors along body x pull the aeroplane ahead; lift rotors,
 * the other group, push it up, along body -z. A slot may have one of each: both follow its motor command, each by its own lag. */
#define BENCH_SLOTS 8

/* How many bytes each block has. An airframe block has 166, and 28 for a wash, 24 for lift numbers and 13 for each row more. A
 * trace is tick blocks one after another. Numbers in blocks are IEEE 754 floats of 32 bits, the highest byte first. A state block
 * without the lift rotors' running values, as states were before there were any, has BENCH_STATE_BYTES_NO_LIFT bytes, and one
 * without the thrust scales too BENCH_STATE_BYTES_UNSCALED: bench_read_state takes both, no other call does. */
#define BENCH_STATE_BYTES 180
#define BENCH_STATE_BYTES_NO_LIFT 148
#define BENCH_STATE_BYTES_UNSCALED 116
#define BENCH_TICK_BYTES 80
#define BENCH_AIRFRAME_BYTES 166
#define BENCH_WASH_BYTES 28
#define BENCH_LIFT_BYTES 24
#define BENCH_ROW_BYTES 13
#define BENCH_MOST_ROWS 16

/* The bits of an airframe block that announce lift rotors: of its first byte, that six lift numbers stand behind the wash's, or
 * behind the others where there is no wash; of a row's first byte, that the motor of its slot is a lift rotor. */
#define BENCH_HEADER_LIFT 1
#define BENCH_ROW_LIFT 8

/* What the bench answers: BENCH_DONE = 0 and so on, each with its words. */
#define BENCH_ANSWERS(ANSWER)                                                                                      \
    ANSWER(0, DONE, "done")                                                                                        \
    ANSWER(1, WRONG_LENGTH, "wrong length")                                                                        \
    ANSWER(2, WRONG_VERSION, "the version is not 1")                                                               \
    ANSWER(3, WRONG_FALLOFF, "the falloff kind is 2 or 3")                                                         \
    ANSWER(4, RESERVED_BIT, "a reserved bit is 1, or a lift rotor's bit on a servo's row or without lift numbers") \
    ANSWER(5, TOO_MANY_ROWS, "more than 16 rows")                                                                  \
    ANSWER(6, NUMBER_OUT_OF_RANGE, "a number of the airframe is outside its limits")                               \
    ANSWER(7, STATE_OUTSIDE, "the state is outside the envelope")                                                  \
    ANSWER(8, STEP_OUTSIDE, "the step is not within 1/1024..0.02 s")                                               \
    ANSWER(9, DEPARTURE, "the next state would be outside the envelope (departure)")                               \
    ANSWER(10, WIND_UNUSABLE, "a component of the wind is a NaN or beyond 200 m/s")

/* The places of answer 6: BENCH_PLACE_MASS_KG = 1 and so on, each with its name. 39 is the motors' time constant, 42 to 48 are
 * the wash's numbers; 49 is any row's factor, 50 any motor's torque, 51 any surface's weight; 52 to 57 are the lift rotors'
 * numbers, 58 is any lift rotor's torque. docs/SCOPE.md has their limits. */
#define BENCH_PLACES(PLACE)                                                     \
    PLACE(1, MASS_KG, "mass_kg")                                                \
    PLACE(2, INERTIA_KGM2_ROLL, "inertia_kgm2 roll")                            \
    PLACE(3, INERTIA_KGM2_PITCH, "inertia_kgm2 pitch")                          \
    PLACE(4, INERTIA_KGM2_YAW, "inertia_kgm2 yaw")                              \
    PLACE(5, WING_AREA_M2, "wing_area_m2")                                      \
    PLACE(6, SPAN_M, "span_m")                                                  \
    PLACE(7, CHORD_M, "chord_m")                                                \
    PLACE(8, C_LIFT_0, "c_lift_0")                                              \
    PLACE(9, C_LIFT_ALPHA, "c_lift_alpha")                                      \
    PLACE(10, ALPHA_STALL_RAD, "alpha_stall_rad")                               \
    PLACE(11, STALL_SHARPNESS, "stall_sharpness")                               \
    PLACE(12, C_DRAG_0, "c_drag_0")                                             \
    PLACE(13, OSWALD, "oswald")                                                 \
    PLACE(14, C_SIDE_BETA, "c_side_beta")                                       \
    PLACE(15, C_SIDE_RUDDER, "c_side_rudder")                                   \
    PLACE(16, C_ROLL_BETA, "c_roll_beta")                                       \
    PLACE(17, C_ROLL_P, "c_roll_p")                                             \
    PLACE(18, C_ROLL_R, "c_roll_r")                                             \
    PLACE(19, C_ROLL_AILERON, "c_roll_aileron")                                 \
    PLACE(20, C_ROLL_RUDDER, "c_roll_rudder")                                   \
    PLACE(21, C_PITCH_0, "c_pitch_0")                                           \
    PLACE(22, C_PITCH_ALPHA, "c_pitch_alpha")                                   \
    PLACE(23, POST_STALL_PITCH_SHARE, "post_stall_pitch_share")                 \
    PLACE(24, C_PITCH_Q, "c_pitch_q")                                           \
    PLACE(25, C_PITCH_ELEVATOR, "c_pitch_elevator")                             \
    PLACE(26, SURFACE_STALL_SHARE, "surface_stall_share")                       \
    PLACE(27, C_YAW_BETA, "c_yaw_beta")                                         \
    PLACE(28, C_YAW_P, "c_yaw_p")                                               \
    PLACE(29, C_YAW_R, "c_yaw_r")                                               \
    PLACE(30, C_YAW_RUDDER, "c_yaw_rudder")                                     \
    PLACE(31, MAX_DEFLECTION_RAD_AILERON, "max_deflection_rad aileron")         \
    PLACE(32, MAX_DEFLECTION_RAD_ELEVATOR, "max_deflection_rad elevator")       \
    PLACE(33, MAX_DEFLECTION_RAD_RUDDER, "max_deflection_rad rudder")           \
    PLACE(34, SERVO_TIME_CONSTANT_S, "servo_time_constant_s")                   \
    PLACE(35, MAX_THRUST_N, "max_thrust_n")                                     \
    PLACE(36, THRUST_EXPONENT, "thrust_exponent")                               \
    PLACE(37, THRUST_FALLOFF, "thrust_falloff")                                 \
    PLACE(38, THRUST_LINE_BELOW_CG_M, "thrust_line_below_cg_m")                 \
    PLACE(39, TIME_CONSTANT_S, "time_constant_s")                               \
    PLACE(40, MOMENT_ARM_M, "moment_arm_m")                                     \
    PLACE(41, YAW_TORQUE_PER_THRUST_M, "yaw_torque_per_thrust_m")               \
    PLACE(42, DISC_AREA_M2, "disc_area_m2")                                     \
    PLACE(43, SURFACE_FRACTION, "surface_fraction")                             \
    PLACE(44, ROLL_FRACTION, "roll_fraction")                                   \
    PLACE(45, PITCH_MOMENT, "pitch_moment")                                     \
    PLACE(46, STALL_PITCH_MOMENT, "stall_pitch_moment")                         \
    PLACE(47, SINK_LOSS, "sink_loss")                                           \
    PLACE(48, DAMPING_FRACTION, "damping_fraction")                             \
    PLACE(49, ROW_FACTOR, "row factor")                                         \
    PLACE(50, MOTOR_TORQUE, "motor torque")                                     \
    PLACE(51, SURFACE_WEIGHT, "surface weight")                                 \
    PLACE(52, LIFT_MAX_THRUST_N, "lift max_thrust_n")                           \
    PLACE(53, LIFT_THRUST_EXPONENT, "lift thrust_exponent")                     \
    PLACE(54, LIFT_MOMENT_ARM_M, "lift moment_arm_m")                           \
    PLACE(55, LIFT_YAW_TORQUE_PER_THRUST_M, "lift yaw_torque_per_thrust_m")     \
    PLACE(56, LIFT_TIME_CONSTANT_S, "lift time_constant_s")                     \
    PLACE(57, LIFT_DRAG_PER_THRUST_N_PER_MPS, "lift drag_per_thrust_n_per_mps") \
    PLACE(58, LIFT_TORQUE, "lift torque")

#define BENCH_CONSTANT(number, name, text) BENCH_##name = number,
#define BENCH_PLACE_CONSTANT(number, name, text) BENCH_PLACE_##name = number,
#define BENCH_TEXT(number, name, text) \
    case number:                       \
        return text;
enum bench_answers { BENCH_ANSWERS(BENCH_CONSTANT) };
enum bench_places { BENCH_PLACES(BENCH_PLACE_CONSTANT) };

/* The answer of a reply, one of bench_answers. */
static inline unsigned bench_answer(uint64_t reply)
{
    return (unsigned)(reply % 16);
}

/* The place of a reply: one of bench_places for answer 6, else 0. */
static inline unsigned bench_place(uint64_t reply)
{
    return (unsigned)(reply / 16);
}

/* The words of an answer; "unknown answer" for a number that is none. */
static inline const char *bench_answer_text(unsigned answer)
{
    switch (answer) {
        BENCH_ANSWERS(BENCH_TEXT)
    default:
        return "unknown answer";
    }
}

/* The name of a place; "unknown place" for a number that is none. */
static inline const char *bench_place_name(unsigned place)
{
    switch (place) {
        BENCH_PLACES(BENCH_TEXT)
    default:
        return "unknown place";
    }
}
#undef BENCH_CONSTANT
#undef BENCH_PLACE_CONSTANT
#undef BENCH_TEXT

/* The length of an airframe block by its first two bytes, 0 where they give more than 16 rows. What else may be wrong with them
 * is not looked at. */
static inline size_t bench_airframe_length(const uint8_t header[2])
{
    size_t rows = header[1] % 32, wash = header[0] & 2 ? BENCH_WASH_BYTES : 0;
    size_t lift = header[0] & BENCH_HEADER_LIFT ? BENCH_LIFT_BYTES : 0;
    return rows > BENCH_MOST_ROWS ? 0 : BENCH_AIRFRAME_BYTES + wash + lift + BENCH_ROW_BYTES * rows;
}

/* Where the numbers of a state's array start; they stand in the same order in its block. */
enum bench_state_places {
    BENCH_STATE_POSITION = 0,  /* 3: north, east, down, in m; down negated is the height over the sea */
    BENCH_STATE_VELOCITY = 3,  /* 3: north, east, down, in m/s */
    BENCH_STATE_ATTITUDE = 6,  /* 4: w, i, j, k */
    BENCH_STATE_RATES = 10,    /* 3: body rates p, q, r, in rad/s */
    BENCH_STATE_MOTORS = 13,   /* 8: running motors, 0 to 1 */
    BENCH_STATE_SERVOS = 21,   /* 8: running servos, -1 to 1 */
    BENCH_STATE_SCALES = 29,   /* 8: thrust scales by motor slot, 0 to 1: 1 as built, 0 gives no thrust */
    BENCH_STATE_LIFT = 37      /* 8: running lift rotors, 0 to 1; without lift numbers no tick changes them, and they do nothing */
};

/* Sets the eight thrust scales of a state's array to 1. For a state that is filled by hand: scales left at 0 are accepted, and the
 * motors along body x then give no thrust; lift rotors have no scales. A state that was read has its scales. */
static inline void bench_motors_as_built(float state[BENCH_STATE_NUMBERS])
{
    for (size_t slot = 0; slot < BENCH_SLOTS; slot++)
        state[BENCH_STATE_SCALES + slot] = 1.0f;
}

/* Where the numbers of a tick's array start; they stand in the same order in its block. */
enum bench_tick_places {
    BENCH_TICK_STEP = 0,   /* 1: step, in s */
    BENCH_TICK_WIND = 1,   /* 3: wind north, east, down, in m/s, each within 200 */
    BENCH_TICK_MOTORS = 4, /* 8: motor commands */
    BENCH_TICK_SERVOS = 12 /* 8: servo commands */
};

/* Where the numbers of a tick's report stand. */
enum bench_report_places {
    BENCH_REPORT_ALPHA = 0, /* angle of attack, in rad */
    BENCH_REPORT_BETA = 1,  /* angle of sideslip, in rad */
    BENCH_REPORT_THRUST = 2 /* thrust over all motors along body x, in N; lift rotors are not in it */
};

/* Where the numbers of a prepared airframe's array start. What a later bench adds comes at the end, so these stay. */
enum bench_airframe_places {
    BENCH_AIRFRAME_PLACES = 0,        /* 48: the numbers with places 1 to 48; 42 to 48 are the wash, zeros where there is none */
    BENCH_AIRFRAME_FALLOFF = 48,      /* 1: falloff kind, 0 Linear, else PitchSpeed */
    BENCH_AIRFRAME_WASH = 49,         /* 1: wash present, 0 no, else yes */
    BENCH_AIRFRAME_USED = 50,         /* 8: motors used, 0 no, else yes */
    BENCH_AIRFRAME_TORQUES = 58,      /* 24: roll, pitch, yaw of each motor, torque in Nm per N of thrust */
    BENCH_AIRFRAME_WEIGHTS = 82,      /* 24: roll, pitch, yaw weight of each surface */
    BENCH_AIRFRAME_LIFT_PLACES = 106, /* 6: the numbers with places 52 to 57, the lift rotors', zeros where there are none */
    BENCH_AIRFRAME_LIFT = 112,        /* 1: lift numbers present, 0 no, else yes; where not, no lift rotor does anything */
    BENCH_AIRFRAME_LIFT_USED = 113,   /* 8: lift rotors used, 0 no, else yes */
    BENCH_AIRFRAME_LIFT_TORQUES = 121 /* 24: roll, pitch, yaw of each lift rotor, torque in Nm per N of thrust */
};

/* ---- Blocks ---- */

/* Tests an airframe block and writes nothing. 0 for one that every tick accepts. Refused, the first that holds: fewer than 2
 * bytes (1); the version is not 1 (2); the falloff kind is 2 or 3 (3); a reserved bit of the header is 1 (4); more than 16 rows
 * (5); not as long as the header says (1); a reserved bit of a row is 1, or the bit of a lift rotor on a servo's row or without
 * lift numbers (4); a number outside its limits, the lowest place (6). Of several rows for one slot the last counts, among the
 * rows of its own group. */
uint64_t bench_read_airframe(const uint8_t *block, size_t block_len);

/* Reads an airframe block into an array of 145 floats, for bench_tick_prepared. Replies as bench_read_airframe. A refused block
 * gives zeros. An array of another length gets 1 and is left as found. */
uint64_t bench_prepare(const uint8_t *block, size_t block_len, float *airframe, size_t airframe_len);

/* Reads a state block into an array of 45 floats. A block of 180 bytes has them all; one of 148 has no running values of lift
 * rotors, which are then 0; one of 116 has no thrust scales either, which are then 1. Refused: neither 180 bytes, 148 nor 116 (1);
 * outside the envelope (7). A refused block gives zeros, scales too. An array of another length gets 1 and is left as found. The
 * envelope: position within 1,000,000 m, velocity within 1,000 m/s, rates within 100 rad/s, ((i*i + j*j) + k*k) + w*w in 0.9..1.1,
 * motors 0..1, servos -1..1, thrust scales 0..1, lift rotors 0..1, without lift numbers too; NaN is outside. */
uint64_t bench_read_state(const uint8_t *block, size_t block_len, float *state, size_t state_len);

/* Writes a state's array of 45 floats into a block of 180 bytes. The numbers are written untested. An array or a block of another
 * length, 148 and 116 too, gets 1 and the block is left as found. */
uint64_t bench_write_state(const float *state, size_t state_len, uint8_t *block, size_t block_len);

/* Reads a tick block into an array of 20 floats. The numbers are not tested. Refused: not 80 bytes (1). A refused block gives
 * zeros. An array of another length gets 1 and is left as found. */
uint64_t bench_read_tick(const uint8_t *block, size_t block_len, float *tick, size_t tick_len);

/* Writes a tick's array of 20 floats into a block of 80 bytes. The numbers are not tested. An array or a block of another length
 * gets 1 and the block is left as found. */
uint64_t bench_write_tick(const float *tick, size_t tick_len, uint8_t *block, size_t block_len);

/* ---- A tick ---- */

/* One tick: moves the state in its array of 45 on by the tick's array of 20, with the airframe as its block, and gives alpha, beta
 * and thrust in the report's array of 3. Each motor's thrust is multiplied by its scale, and no tick changes a scale. With lift
 * numbers the lift rotors push along body -z, by their running values alone: airspeed takes nothing of it, and no scale does. Air
 * along their discs drags them, by place 57 times their thrust times its speed ahead and its speed to the side. A motor of either
 * group that no row names keeps its running value, and works by it. The air has the density of the height where the tick starts,
 * as bench_density gives it. Refused, the first that holds: an array of another length (1), which leaves state and report as
 * found; a refused block, with bench_read_airframe's reply; the state outside the envelope (7); the step not in 1/1024..0.02 s
 * (8); a component of the wind that is a NaN or beyond 200 m/s either way (10); a departure (9). But for an array's length, a
 * refusal leaves the state as found and reports zeros. Commands may be any floats: one that is NaN counts as 0, others are held to
 * their range. */
uint64_t bench_tick(const uint8_t *airframe_block, size_t airframe_block_len, float *state, size_t state_len, const float *tick,
                    size_t tick_len, float *report, size_t report_len);

/* The same with the airframe as its array of 145, as bench_prepare gives it or made by hand. The array is tested at each tick: a
 * number out of range is refused with 6 and the lowest place, the motors' torques (within 100) with 50, the surfaces' weights
 * (within 101) with 51 and the lift rotors' torques (within 100) with 58; the numbers of a wash that is not present are not tested,
 * nor is any of 52 to 58 without lift numbers. The zeros of a refused block get 6, place 1. */
uint64_t bench_tick_prepared(const float *airframe, size_t airframe_len, float *state, size_t state_len, const float *tick,
                             size_t tick_len, float *report, size_t report_len);

/* ---- A run over a trace ---- */

/* Flies the ticks of the trace one after another from the state in its array of 45, puts the end state there and the number of
 * accepted ticks into accepted. A refused tick does not end the run: the state stays, the next tick is flown, and the run still
 * replies 0. A state outside the envelope is a matter of its ticks. Refused, the first that holds: an array of another length
 * (1); a trace that is not whole ticks of 80 bytes (1); a refused block, with bench_read_airframe's reply. A refused run leaves
 * the state as found and counts 0. */
uint64_t bench_run(const uint8_t *airframe_block, size_t airframe_block_len, float *state, size_t state_len, const uint8_t *trace,
                   size_t trace_len, uint64_t *accepted);

/* The run above and its reflection: the same flight with left and right exchanged in airframe, state and ticks. What stands in
 * reflected at first does not matter. The end states go into both arrays of 45 and the counts into both numbers. Where the reply
 * is 0, it is proved that they mirror: in reflected, position and velocity east, i, k, p and r have the opposite sign, every
 * other number is that of state, zeros and NaNs alike, and the counts are equal. The same is proved, tick by tick, of ticks called one
 * after another with bench_tick or bench_tick_prepared and of their reflection (docs/MIRROR.md). Refused as bench_run, where either
 * array is of another length (1) too: both arrays are then as found and both counts 0. */
uint64_t bench_mirrored_pair(const uint8_t *airframe_block, size_t airframe_block_len, float *state, size_t state_len,
                             float *reflected, size_t reflected_len, const uint8_t *trace, size_t trace_len, uint64_t *accepted,
                             uint64_t *accepted_reflected);

/* ---- The elementary functions the bench computes with ---- */

/* The square root, correctly rounded; NaN below 0. */
float bench_sqrtf(float x);
/* e to the power x: 0 under -87, infinity over 88. */
float bench_expf(float x);
/* The natural logarithm of v: minus infinity of 0, NaN below 0. */
float bench_logf(float v);
/* v to the power e: 0 where v is 0, else the exponential of e times the logarithm of v, at most 1; NaN where v is not in 0..1. A
 * motor of either group running at v has this share of its thrust by an exponent other than 2; by 2 its share is v * v. The last
 * digits of a power are those of the formula: v to the power 1 need not be v, nor v to the power 2 be v * v. */
float bench_powf(float v, float e);
/* Sine and cosine of x in rad; NaN beyond size 4. */
float bench_sinf(float x);
float bench_cosf(float x);
/* The angle whose sine is s; NaN beyond size 1. */
float bench_asinf(float s);
/* The angle of the point (x, y); -0 counts as 0, and the angle of (0, 0) is 0. */
float bench_atan2f(float y, float x);

/* ---- The air ---- */

/* The air's density in kg/m3 at a height over the sea in m, which is a state's position down negated: 1.225 at 0. ISO 2533's, by a
 * table with a row each 100 m from -1000 m (1.3470) to 5000 m (0.7361), four decimals each, straight between two rows; at the ends and
 * beyond them the end's. NaN for a NaN. */
float bench_density(float height_m);

/* ---- The guarded forms: the calls from any float environment (gcc and clang on x86-64) ---- */
#if defined(__x86_64__) && defined(__GNUC__)

/* The control word MXCSR of the default, but for its six flags of exceptions that have come up. */
#define BENCH_CONTROL_DEFAULT 0x1F80u
#define BENCH_CONTROL_FLAGS 0x3Fu

static inline int bench_control_is_default(unsigned control)
{
    return (control & ~BENCH_CONTROL_FLAGS) == BENCH_CONTROL_DEFAULT;
}

/* Whether the caller's float environment is the one that the calls need. */
static inline int bench_float_environment_is_default(void)
{
    return bench_control_is_default(_mm_getcsr());
}

/* bench_guarded_X takes and gives what bench_X does. Where the environment is not the default, it sets the default, calls, and
 * puts the caller's control word back whole: flags that the call raised are then gone. Where it is the default, nothing is set,
 * and flags stay raised as after bench_X. A guarded form is never inlined, since a compiler may move the caller's own sums past
 * a change of the control word, but not into a function. */
#define BENCH_GUARDED(type, name, parameters, arguments)                          \
    static __attribute__((noinline, unused)) type bench_guarded_##name parameters \
    {                                                                             \
        unsigned was = _mm_getcsr();                                              \
        if (bench_control_is_default(was))                                        \
            return bench_##name arguments;                                        \
        _mm_setcsr(BENCH_CONTROL_DEFAULT);                                        \
        type result = bench_##name arguments;                                     \
        _mm_setcsr(was);                                                          \
        return result;                                                            \
    }

BENCH_GUARDED(uint64_t, read_airframe, (const uint8_t *block, size_t block_len), (block, block_len))
BENCH_GUARDED(uint64_t, prepare, (const uint8_t *block, size_t block_len, float *airframe, size_t airframe_len),
              (block, block_len, airframe, airframe_len))
BENCH_GUARDED(uint64_t, read_state, (const uint8_t *block, size_t block_len, float *state, size_t state_len),
              (block, block_len, state, state_len))
BENCH_GUARDED(uint64_t, write_state, (const float *state, size_t state_len, uint8_t *block, size_t block_len),
              (state, state_len, block, block_len))
BENCH_GUARDED(uint64_t, read_tick, (const uint8_t *block, size_t block_len, float *tick, size_t tick_len),
              (block, block_len, tick, tick_len))
BENCH_GUARDED(uint64_t, write_tick, (const float *tick, size_t tick_len, uint8_t *block, size_t block_len),
              (tick, tick_len, block, block_len))
BENCH_GUARDED(uint64_t, tick,
              (const uint8_t *airframe_block, size_t airframe_block_len, float *state, size_t state_len, const float *tick,
               size_t tick_len, float *report, size_t report_len),
              (airframe_block, airframe_block_len, state, state_len, tick, tick_len, report, report_len))
BENCH_GUARDED(uint64_t, tick_prepared,
              (const float *airframe, size_t airframe_len, float *state, size_t state_len, const float *tick, size_t tick_len,
               float *report, size_t report_len),
              (airframe, airframe_len, state, state_len, tick, tick_len, report, report_len))
BENCH_GUARDED(uint64_t, run,
              (const uint8_t *airframe_block, size_t airframe_block_len, float *state, size_t state_len, const uint8_t *trace,
               size_t trace_len, uint64_t *accepted),
              (airframe_block, airframe_block_len, state, state_len, trace, trace_len, accepted))
BENCH_GUARDED(uint64_t, mirrored_pair,
              (const uint8_t *airframe_block, size_t airframe_block_len, float *state, size_t state_len, float *reflected,
               size_t reflected_len, const uint8_t *trace, size_t trace_len, uint64_t *accepted, uint64_t *accepted_reflected),
              (airframe_block, airframe_block_len, state, state_len, reflected, reflected_len, trace, trace_len, accepted,
               accepted_reflected))
BENCH_GUARDED(float, sqrtf, (float x), (x))
BENCH_GUARDED(float, expf, (float x), (x))
BENCH_GUARDED(float, logf, (float v), (v))
BENCH_GUARDED(float, powf, (float v, float e), (v, e))
BENCH_GUARDED(float, density, (float height_m), (height_m))
BENCH_GUARDED(float, sinf, (float x), (x))
BENCH_GUARDED(float, cosf, (float x), (x))
BENCH_GUARDED(float, asinf, (float s), (s))
BENCH_GUARDED(float, atan2f, (float y, float x), (y, x))
#undef BENCH_GUARDED

#endif

#ifdef __cplusplus
}
#endif

#endif
