/* The header's own code on a sample flight: tests FILE OLDER OLDEST. Words and lengths, and the guarded forms from every float
 * environment: the bits they give are those of the plain calls in the default one, and the caller's control word comes back. And
 * the winds, thrust scales, thrust exponents and lift rotors that a tick refuses, at their limits. OLDER is the same flight with a
 * state block without lift rotors, OLDEST with one without thrust scales too. */
#include <stdio.h>
#include <string.h>

#include "bench.h"

enum { MOST = 1 << 20, TICKS = 20 };
static uint8_t bytes[MOST], older_bytes[MOST], oldest_bytes[MOST];
static int failures;

static void check(int holds, const char *what, const char *where)
{
    if (holds)
        return;
    failures++;
    fprintf(stderr, "tests: %s: %s\n", where, what);
}

/* The sample's parts: airframe block, state block, the first ticks of its trace. */
struct sample {
    uint8_t *airframe, *state, *trace;
    size_t airframe_bytes, trace_bytes;
};

static int read_sample(const char *name, uint8_t *into, size_t state_bytes, struct sample *s)
{
    FILE *file = fopen(name, "rb");
    size_t length = file ? fread(into, 1, MOST, file) : 0;
    if (file)
        fclose(file);
    s->airframe = into;
    s->airframe_bytes = bench_airframe_length(into);
    s->state = into + s->airframe_bytes;
    s->trace = s->state + state_bytes;
    s->trace_bytes = TICKS * BENCH_TICK_BYTES;
    return length >= s->airframe_bytes + state_bytes + s->trace_bytes;
}

/* Puts a number into the block at `at`, counted in numbers. */
static void put(uint8_t *block, size_t at, uint32_t bits)
{
    for (size_t byte = 0; byte < 4; byte++)
        block[4 * at + byte] = (uint8_t)(bits >> (24 - 8 * byte));
}

/* Makes the sample tell environments apart: a row factor whose products are rounded, two servos without command, of which one
 * is subnormal and one becomes so, and commands that are subnormal and NaN. */
static void make_telling(struct sample *s)
{
    put(s->state - 4, 0, 0x3E99999A);
    put(s->state, BENCH_STATE_SERVOS, 0x012345E5);
    put(s->state, BENCH_STATE_SERVOS + 1, 0x00013520);
    put(s->trace, BENCH_TICK_SERVOS, 0);
    put(s->trace, BENCH_TICK_SERVOS + 1, 0);
    put(s->trace, BENCH_TICK_SERVOS + 6, 0x00013520);
    put(s->trace, BENCH_TICK_SERVOS + 7, 0x7FC00001);
}

/* ---- Words ---- */

static void test_words(void)
{
    static const uint8_t plain[2] = {0x10, 0}, wash[2] = {0x12, 2}, full[2] = {0x10, 16}, over[2] = {0x10, 17};
    static const uint8_t lift[2] = {0x11, 0}, all[2] = {0x17, 16};
    check(strcmp(bench_answer_text(BENCH_DONE), "done") == 0, "answer 0", "words");
    check(strcmp(bench_answer_text(BENCH_DEPARTURE), "the next state would be outside the envelope (departure)") == 0, "answer 9",
          "words");
    check(strcmp(bench_answer_text(BENCH_WIND_UNUSABLE), "a component of the wind is a NaN or beyond 200 m/s") == 0, "answer 10",
          "words");
    check(strcmp(bench_answer_text(11), "unknown answer") == 0, "answer 11", "words");
    check(BENCH_PLACE_MASS_KG == 1 && strcmp(bench_place_name(1), "mass_kg") == 0, "place 1", "words");
    check(BENCH_PLACE_DAMPING_FRACTION == 48 && BENCH_PLACE_SURFACE_WEIGHT == 51, "places 48 and 51", "words");
    check(BENCH_PLACE_LIFT_MAX_THRUST_N == 52 && BENCH_PLACE_LIFT_TORQUE == 58, "the last places", "words");
    check(strcmp(bench_place_name(0), "unknown place") == 0, "place 0", "words");
    check(strcmp(bench_place_name(59), "unknown place") == 0, "place 59", "words");
    check(bench_airframe_length(plain) == 166, "no row", "lengths");
    check(bench_airframe_length(wash) == 166 + 28 + 2 * 13, "a wash and two rows", "lengths");
    check(bench_airframe_length(full) == 166 + 16 * 13, "16 rows", "lengths");
    check(bench_airframe_length(lift) == 166 + 24, "lift numbers", "lengths");
    check(bench_airframe_length(all) == 166 + 28 + 24 + 16 * 13, "a wash, lift numbers and 16 rows", "lengths");
    check(bench_airframe_length(over) == 0, "17 rows", "lengths");
}

/* ---- The guard ---- */

enum { A = BENCH_AIRFRAME_NUMBERS, S = BENCH_STATE_NUMBERS, T = BENCH_TICK_NUMBERS, R = BENCH_REPORT_NUMBERS };

/* All calls, in their plain or in their guarded form. */
struct calls {
    uint64_t (*read_airframe)(const uint8_t *, size_t);
    uint64_t (*prepare)(const uint8_t *, size_t, float *, size_t);
    uint64_t (*read_state)(const uint8_t *, size_t, float *, size_t);
    uint64_t (*write_state)(const float *, size_t, uint8_t *, size_t);
    uint64_t (*read_tick)(const uint8_t *, size_t, float *, size_t);
    uint64_t (*write_tick)(const float *, size_t, uint8_t *, size_t);
    uint64_t (*tick)(const uint8_t *, size_t, float *, size_t, const float *, size_t, float *, size_t);
    uint64_t (*tick_prepared)(const float *, size_t, float *, size_t, const float *, size_t, float *, size_t);
    uint64_t (*run)(const uint8_t *, size_t, float *, size_t, const uint8_t *, size_t, uint64_t *);
    uint64_t (*mirrored_pair)(const uint8_t *, size_t, float *, size_t, float *, size_t, const uint8_t *, size_t, uint64_t *,
                              uint64_t *);
    float (*sqrtf)(float), (*expf)(float), (*sinf)(float), (*cosf)(float), (*asinf)(float), (*atan2f)(float, float);
    float (*logf)(float), (*powf)(float, float), (*density)(float);
};

#define CALLS(FORM)                                                                                                         \
    {                                                                                                                       \
        FORM##read_airframe, FORM##prepare, FORM##read_state, FORM##write_state, FORM##read_tick, FORM##write_tick,         \
            FORM##tick, FORM##tick_prepared, FORM##run, FORM##mirrored_pair, FORM##sqrtf, FORM##expf, FORM##sinf,           \
            FORM##cosf, FORM##asinf, FORM##atan2f, FORM##logf, FORM##powf, FORM##density                                    \
    }
static const struct calls plain = CALLS(bench_), guarded = CALLS(bench_guarded_);

/* What all calls give on the sample. */
struct results {
    uint64_t replies[10], accepted[3];
    float airframe[A], tick[T], start[S], by_block[S], prepared[S], report[2][R], ran[S], pair[2][S], functions[9];
    uint8_t state_block[BENCH_STATE_BYTES], tick_block[BENCH_TICK_BYTES];
};

static void read_blocks(const struct calls *call, const struct sample *s, struct results *r)
{
    r->replies[0] = call->read_airframe(s->airframe, s->airframe_bytes);
    r->replies[1] = call->prepare(s->airframe, s->airframe_bytes, r->airframe, A);
    r->replies[2] = call->read_state(s->state, BENCH_STATE_BYTES, r->start, S);
    r->replies[3] = call->read_tick(s->trace, BENCH_TICK_BYTES, r->tick, T);
}

static void tick_both(const struct calls *call, const struct sample *s, struct results *r)
{
    memcpy(r->by_block, r->start, sizeof r->start);
    memcpy(r->prepared, r->start, sizeof r->start);
    r->replies[4] = call->tick(s->airframe, s->airframe_bytes, r->by_block, S, r->tick, T, r->report[0], R);
    r->replies[5] = call->tick_prepared(r->airframe, A, r->prepared, S, r->tick, T, r->report[1], R);
}

static void run_both(const struct calls *call, const struct sample *s, struct results *r)
{
    memcpy(r->ran, r->start, sizeof r->start);
    memcpy(r->pair[0], r->start, sizeof r->start);
    r->replies[6] = call->run(s->airframe, s->airframe_bytes, r->ran, S, s->trace, s->trace_bytes, &r->accepted[0]);
    r->replies[7] = call->mirrored_pair(s->airframe, s->airframe_bytes, r->pair[0], S, r->pair[1], S, s->trace, s->trace_bytes,
                                        &r->accepted[1], &r->accepted[2]);
}

static void write_blocks(const struct calls *call, struct results *r)
{
    r->replies[8] = call->write_state(r->prepared, S, r->state_block, BENCH_STATE_BYTES);
    r->replies[9] = call->write_tick(r->tick, T, r->tick_block, BENCH_TICK_BYTES);
}

static void compute(const struct calls *call, struct results *r)
{
    r->functions[0] = call->sqrtf(2.0f);
    r->functions[1] = call->expf(1.0f);
    r->functions[2] = call->sinf(1.0f);
    r->functions[3] = call->cosf(1.0f);
    r->functions[4] = call->asinf(0.3f);
    r->functions[5] = call->atan2f(1.0f, 3.0f);
    r->functions[6] = call->logf(0.3f);
    r->functions[7] = call->powf(0.3f, 1.8f);
    r->functions[8] = call->density(1234.5f);
}

static void make_all(const struct calls *call, const struct sample *s, struct results *r)
{
    memset(r, 0, sizeof *r);
    read_blocks(call, s, r);
    tick_both(call, s, r);
    run_both(call, s, r);
    write_blocks(call, r);
    compute(call, r);
}

static int same(const struct results *a, const struct results *b)
{
    return memcmp(a, b, sizeof *a) == 0;
}

static int all_done(const struct results *r)
{
    for (int at = 0; at < 10; at++)
        if (r->replies[at] != BENCH_DONE)
            return 0;
    return r->accepted[0] == TICKS && r->accepted[1] == TICKS && r->accepted[2] == TICKS;
}

/* Bits of the control word. */
enum { UP = 0x4000, DOWN = 0x2000, TO_ZERO = 0x6000, FTZ = 0x8000, DAZ = 0x40, MASKS = 0x1F80, A_FLAG = 0x20 };

static const struct environment {
    const char *name;
    unsigned control;
} environments[] = {
    {"rounding up", MASKS | UP},
    {"rounding down", MASKS | DOWN},
    {"rounding to zero", MASKS | TO_ZERO},
    {"FTZ", MASKS | FTZ},
    {"DAZ", MASKS | DAZ},
    {"FTZ and DAZ", MASKS | FTZ | DAZ},
    {"rounding up, FTZ and DAZ", MASKS | UP | FTZ | DAZ},
    {"rounding up, a flag raised", MASKS | UP | A_FLAG},
    {"all exceptions unmasked", 0},
    {"all exceptions unmasked, a flag raised", A_FLAG},
};

/* The results of all calls made in an environment, and the control word after them. */
static unsigned make_in(unsigned control, const struct calls *call, const struct sample *s, struct results *r)
{
    unsigned was = _mm_getcsr(), after;
    _mm_setcsr(control);
    make_all(call, s, r);
    after = _mm_getcsr();
    _mm_setcsr(was);
    return after;
}

/* The plain calls must give other bits, else this would show nothing; with unmasked exceptions they would end the process. */
static void test_environment(const struct environment *e, const struct sample *s, const struct results *expected)
{
    struct results found;
    unsigned after = make_in(e->control, &guarded, s, &found);
    check(same(&found, expected), "a guarded call gives other bits", e->name);
    check(after == e->control, "a guarded call changes the control word", e->name);
    if (e->control & MASKS) {
        make_in(e->control, &plain, s, &found);
        check(!same(&found, expected), "the plain calls give the same bits", e->name);
    }
}

/* The control word after the plain calls has the flags that they raised. */
static void test_default(const struct sample *s, const struct results *expected, unsigned after_plain)
{
    struct results found;
    unsigned after = make_in(BENCH_CONTROL_DEFAULT, &guarded, s, &found);
    check(all_done(expected), "a call is refused", "the default");
    check(same(&found, expected), "a guarded call gives other bits", "the default");
    check(bench_control_is_default(after), "a guarded call changes the control word", "the default");
    check(after == after_plain && after != BENCH_CONTROL_DEFAULT, "a guarded call leaves other flags", "the default");
}

static void test_telling(unsigned control, int is_default)
{
    unsigned was = _mm_getcsr();
    int told;
    _mm_setcsr(control);
    told = bench_float_environment_is_default();
    _mm_setcsr(was);
    check(told == is_default, "the environment is taken for another", "bench_float_environment_is_default");
}

/* The caller's own sum before a guarded call and difference after it; neither has to wait for the call. */
static __attribute__((noinline)) float around_call(float a, float b, float *sum, float *difference)
{
    float before = a + b, root = bench_guarded_sqrtf(a);
    *sum = before;
    *difference = a - b;
    return root;
}

/* Rounded up, 1 + 2^-30 is the next float above 1, and 1 - 2^-30 is 1. */
static void test_own_sums(void)
{
    static volatile float one = 1.0f, little = 0x1p-30f;
    unsigned was = _mm_getcsr();
    float root, sum, difference;
    _mm_setcsr(MASKS | UP);
    root = around_call(one, little, &sum, &difference);
    _mm_setcsr(was);
    check(sum == 0x1.000002p0f && difference == 1.0f && root == 1.0f, "the caller's sums are rounded otherwise", "rounding up");
}

static void test_guard(const struct sample *s)
{
    struct results expected;
    unsigned after_plain = make_in(BENCH_CONTROL_DEFAULT, &plain, s, &expected);
    test_default(s, &expected, after_plain);
    test_telling(BENCH_CONTROL_DEFAULT, 1);
    test_telling(BENCH_CONTROL_DEFAULT | BENCH_CONTROL_FLAGS, 1);
    for (size_t at = 0; at < sizeof environments / sizeof *environments; at++) {
        test_environment(&environments[at], s, &expected);
        test_telling(environments[at].control, 0);
    }
    test_own_sums();
}

/* ---- The wind ---- */

/* 200 m/s and the next float below, either way; the next float beyond, either way, the largest, infinities, NaNs. */
static const uint32_t usable[] = {0x43480000, 0xC3480000, 0x4347FFFF, 0xC347FFFF};
static const uint32_t unusable[] = {0x43480001, 0xC3480001, 0x7F7FFFFF, 0x7F800000, 0xFF800000, 0x7FC00000, 0xFFC00000, 0x7F800001};
enum { USABLE = sizeof usable / sizeof *usable, UNUSABLE = sizeof unusable / sizeof *unusable };

static const char *const components[3] = {"wind north", "wind east", "wind down"};

/* Makes a vector of zeros but for the component, given by its bits. */
static void set_component(float vector[3], size_t component, uint32_t bits)
{
    memset(vector, 0, 3 * sizeof *vector);
    memcpy(vector + component, &bits, sizeof bits);
}

/* The sample's first tick in a wind of this component alone, by block and prepared. */
static void tick_in_wind(const struct sample *s, const float *found, size_t component, uint32_t bits, uint64_t expected)
{
    struct results r;
    read_blocks(&guarded, s, &r);
    memcpy(r.start, found, sizeof r.start);
    memset(r.report, 0xFF, sizeof r.report);
    set_component(r.tick + BENCH_TICK_WIND, component, bits);
    tick_both(&guarded, s, &r);
    check(r.replies[4] == expected && r.replies[5] == expected, "another reply", components[component]);
    if (expected == BENCH_DONE)
        return;
    static const float zeros[2][R] = {{0}};
    check(memcmp(r.by_block, found, sizeof r.start) == 0 && memcmp(r.prepared, found, sizeof r.start) == 0,
          "the state is not as found", components[component]);
    check(memcmp(r.report, zeros, sizeof zeros) == 0, "the report has no zeros", components[component]);
}

/* In a usable wind the aeroplane drifts with it, so that it does not depart. */
static void test_component(const struct sample *s, size_t component)
{
    float state[S];
    guarded.read_state(s->state, BENCH_STATE_BYTES, state, S);
    for (size_t at = 0; at < UNUSABLE; at++)
        tick_in_wind(s, state, component, unusable[at], BENCH_WIND_UNUSABLE);
    for (size_t at = 0; at < USABLE; at++) {
        set_component(state + BENCH_STATE_VELOCITY, component, usable[at]);
        tick_in_wind(s, state, component, usable[at], BENCH_DONE);
    }
}

/* The trace with an unusable wind in one of its ticks: a run, a flight and its reflection are refused there alone. */
static void test_pair_in_wind(const struct sample *s, size_t component)
{
    uint8_t *wind = s->trace + 7 * BENCH_TICK_BYTES + 4 * (BENCH_TICK_WIND + component), was[4];
    memcpy(was, wind, sizeof was);
    for (size_t at = 0; at < UNUSABLE; at++) {
        struct results r;
        put(wind, 0, unusable[at]);
        read_blocks(&guarded, s, &r);
        run_both(&guarded, s, &r);
        check(r.replies[6] == BENCH_DONE && r.replies[7] == BENCH_DONE, "a run is refused", components[component]);
        for (size_t run = 0; run < 3; run++)
            check(r.accepted[run] == TICKS - 1, "another tick is refused, or none", components[component]);
    }
    memcpy(wind, was, sizeof was);
}

static void test_winds(const struct sample *s)
{
    for (size_t component = 0; component < 3; component++) {
        test_component(s, component);
        test_pair_in_wind(s, component);
    }
}

/* ---- The thrust scales ---- */

static void test_as_built(void)
{
    float state[S + 1] = {0};
    state[S] = 7.0f;
    bench_motors_as_built(state);
    for (size_t place = 0; place < S; place++) {
        int scale = place >= BENCH_STATE_SCALES && place < BENCH_STATE_SCALES + BENCH_SLOTS;
        check(state[place] == (scale ? 1.0f : 0.0f), "another number", "bench_motors_as_built");
    }
    check(state[S] == 7.0f, "a number beyond the state", "bench_motors_as_built");
}

/* An older block is read as the sample's, with scales of 1 and lift rotors that stand where it has none, and is not written. */
static void test_older(const struct sample *s, const struct sample *older, size_t length, const char *where)
{
    float state[S], read[S];
    uint8_t block[BENCH_STATE_BYTES], lent[BENCH_STATE_BYTES], found[BENCH_STATE_BYTES];
    memset(lent, 0xA5, sizeof lent);
    memcpy(found, lent, sizeof lent);
    check(guarded.read_state(s->state, BENCH_STATE_BYTES, state, S) == BENCH_DONE, "the sample's state is refused", where);
    check(guarded.read_state(older->state, length, read, S) == BENCH_DONE, "refused", where);
    bench_motors_as_built(state);
    check(memcmp(read, state, sizeof read) == 0, "another state", where);
    check(guarded.write_state(read, S, block, BENCH_STATE_BYTES) == BENCH_DONE, "not written", where);
    check(memcmp(block, s->state, sizeof block) == 0, "another block", where);
    check(guarded.write_state(read, S, lent, length) == BENCH_WRONG_LENGTH, "written", where);
    check(memcmp(lent, found, sizeof lent) == 0, "the bytes are not as found", where);
}

static void test_lengths(const struct sample *s)
{
    float read[S];
    for (size_t length = 0; length <= BENCH_STATE_BYTES + 1; length++) {
        uint8_t room[BENCH_STATE_BYTES + 1] = {0};
        memcpy(room, s->state, BENCH_STATE_BYTES);
        int fits = length == BENCH_STATE_BYTES || length == BENCH_STATE_BYTES_NO_LIFT || length == BENCH_STATE_BYTES_UNSCALED;
        check((guarded.read_state(room, length, read, S) == BENCH_DONE) == fits, "wrong about a length", "a state block");
    }
}

/* 0, -0, the smallest subnormal and 1; the next float beyond 1, the smallest subnormal below 0, infinities, NaNs. */
static const uint32_t scales[] = {0x00000000, 0x80000000, 0x00000001, 0x3F800000};
static const uint32_t no_scales[] = {0x3F800001, 0x80000001, 0x7F800000, 0xFF800000, 0x7FC00000, 0xFFC00000, 0x7F800001};
enum { SCALES = sizeof scales / sizeof *scales, NO_SCALES = sizeof no_scales / sizeof *no_scales };

/* The sample's first ticks with these bits at a place of its state from the scales on: an accepted one leaves all of these, lift
 * rotors too, since the sample has no lift numbers; a refused one the state. */
static void fly_with(const struct sample *s, size_t place, uint32_t bits, uint64_t expected, const char *where)
{
    struct results r;
    size_t kept = expected == BENCH_DONE ? BENCH_STATE_SCALES : 0, count = expected == BENCH_DONE ? TICKS : 0;
    read_blocks(&guarded, s, &r);
    memcpy(r.start + place, &bits, sizeof bits);
    tick_both(&guarded, s, &r);
    run_both(&guarded, s, &r);
    check(r.replies[4] == expected && r.replies[5] == expected, "another reply", where);
    check(r.replies[6] == BENCH_DONE && r.replies[7] == BENCH_DONE, "a run is refused", where);
    for (size_t run = 0; run < 3; run++)
        check(r.accepted[run] == count, "another count", where);
    const float *ends[4] = {r.by_block, r.prepared, r.ran, r.pair[0]};
    for (size_t end = 0; end < 4; end++)
        check(memcmp(ends[end] + kept, r.start + kept, (S - kept) * sizeof *r.start) == 0, "not as found", where);
}

/* Scales and lift rotors' running values have the same limits. */
static void test_scales(const struct sample *s)
{
    for (size_t place = BENCH_STATE_SCALES; place < BENCH_STATE_LIFT + BENCH_SLOTS; place++) {
        const char *where = place < BENCH_STATE_LIFT ? "a scale" : "a lift rotor";
        for (size_t at = 0; at < SCALES; at++)
            fly_with(s, place, scales[at], BENCH_DONE, where);
        for (size_t at = 0; at < NO_SCALES; at++)
            fly_with(s, place, no_scales[at], BENCH_STATE_OUTSIDE, where);
    }
}

/* ---- The thrust exponent ---- */

/* 1, 1.8, 2 and its neighbours, 3; the next float beyond either limit, 0, infinities, NaNs. */
static const uint32_t exponents[] = {0x3F800000, 0x3FE66666, 0x3FFFFFFF, 0x40000000, 0x40000001, 0x40400000};
static const uint32_t no_exponents[] = {0x3F7FFFFF, 0x40400001, 0x00000000, 0x7F800000, 0xFF800000, 0x7FC00000, 0xFFC00000};
enum { EXPONENTS = sizeof exponents / sizeof *exponents, NO_EXPONENTS = sizeof no_exponents / sizeof *no_exponents };

/* All replies of calls with the sample's airframe where its exponent has these bits. */
static void fly_with_exponent(const struct sample *s, uint32_t bits, uint64_t expected)
{
    uint8_t *numbers = s->airframe + 2, was[4];
    struct results r;
    memcpy(was, numbers + 4 * (BENCH_PLACE_THRUST_EXPONENT - 1), sizeof was);
    put(numbers, BENCH_PLACE_THRUST_EXPONENT - 1, bits);
    read_blocks(&guarded, s, &r);
    run_both(&guarded, s, &r);
    check(r.replies[0] == expected && r.replies[1] == expected, "another reply to its block", "an exponent");
    check(r.replies[6] == expected && r.replies[7] == expected, "another reply to a run", "an exponent");
    memcpy(numbers + 4 * (BENCH_PLACE_THRUST_EXPONENT - 1), was, sizeof was);
    guarded.prepare(s->airframe, s->airframe_bytes, r.airframe, A);
    memcpy(r.airframe + BENCH_PLACE_THRUST_EXPONENT - 1, &bits, sizeof bits);
    memcpy(r.prepared, r.start, sizeof r.start);
    r.replies[5] = guarded.tick_prepared(r.airframe, A, r.prepared, S, r.tick, T, r.report[1], R);
    check(r.replies[5] == expected, "another reply to a tick", "an exponent");
}

static void test_exponents(const struct sample *s)
{
    for (size_t at = 0; at < EXPONENTS; at++)
        fly_with_exponent(s, exponents[at], BENCH_DONE);
    for (size_t at = 0; at < NO_EXPONENTS; at++)
        fly_with_exponent(s, no_exponents[at], BENCH_NUMBER_OUT_OF_RANGE + 16 * BENCH_PLACE_THRUST_EXPONENT);
}

/* ---- Lift rotors ---- */

/* Lift numbers in order, and the first one outside its limits that each place is tried with. */
static const float lift_numbers[6] = {10.0f, 2.0f, 0.5f, 0.25f, 0.0625f, 0.01f};
static const uint32_t no_lift_numbers[6] = {0, 0x40400001, 0x41200001, 0xC1200001, 0, 0x41200001};

/* The sample's airframe with lift numbers and, as its last row, a lift rotor's; `lent` has the room. */
static void make_lifted(const struct sample *s, struct sample *lifted, uint8_t *lent)
{
    size_t rows = s->airframe_bytes - BENCH_AIRFRAME_BYTES;
    uint8_t *at = lent + BENCH_AIRFRAME_BYTES;
    *lifted = *s;
    lifted->airframe = lent;
    memcpy(lent, s->airframe, BENCH_AIRFRAME_BYTES);
    lent[0] |= BENCH_HEADER_LIFT;
    lent[1]++;
    for (size_t number = 0; number < 6; number++) {
        uint32_t bits;
        memcpy(&bits, lift_numbers + number, sizeof bits);
        put(at, number, bits);
    }
    memcpy(at + BENCH_LIFT_BYTES, s->airframe + BENCH_AIRFRAME_BYTES, rows);
    memset(at + BENCH_LIFT_BYTES + rows, 0, BENCH_ROW_BYTES);
    at[BENCH_LIFT_BYTES + rows] = 3 << 4 | BENCH_ROW_LIFT;
    lifted->airframe_bytes = bench_airframe_length(lent);
    check(lifted->airframe_bytes == s->airframe_bytes + BENCH_LIFT_BYTES + BENCH_ROW_BYTES, "another length", "lift rotors");
}

/* Flown, the rotor of slot 3 follows its command, and the array has what the block says. */
static void fly_lifted(const struct sample *lifted)
{
    struct results r;
    memset(&r, 0, sizeof r);
    read_blocks(&guarded, lifted, &r);
    r.tick[BENCH_TICK_MOTORS + 3] = 1.0f;
    tick_both(&guarded, lifted, &r);
    run_both(&guarded, lifted, &r);
    write_blocks(&guarded, &r);
    check(all_done(&r), "a call is refused", "lift rotors");
    check(r.by_block[BENCH_STATE_LIFT + 3] > 0.0f && r.prepared[BENCH_STATE_LIFT + 3] > 0.0f, "one does not run", "lift rotors");
    check(r.by_block[BENCH_STATE_LIFT + 2] == 0.0f, "another one runs", "lift rotors");
    check(memcmp(r.airframe + BENCH_AIRFRAME_LIFT_PLACES, lift_numbers, sizeof lift_numbers) == 0, "other numbers", "lift rotors");
    check(r.airframe[BENCH_AIRFRAME_LIFT] == 1.0f, "another flag", "lift rotors");
    check(r.airframe[BENCH_AIRFRAME_LIFT_USED + 3] == 1.0f, "another mark", "lift rotors");
    check(r.airframe[BENCH_AIRFRAME_LIFT_TORQUES + 3 * 3] == 0.0f, "another torque", "lift rotors");
}

/* The reply to the block with another byte at `at`, which is then put back. */
static uint64_t reply_with(const struct sample *lifted, size_t at, uint8_t byte)
{
    uint8_t was = lifted->airframe[at];
    lifted->airframe[at] = byte;
    uint64_t reply = guarded.read_airframe(lifted->airframe, lifted->airframe_bytes);
    lifted->airframe[at] = was;
    return reply;
}

static void test_lift(const struct sample *s)
{
    uint8_t room[512];
    struct sample lifted;
    make_lifted(s, &lifted, room);
    fly_lifted(&lifted);
    size_t last = lifted.airframe_bytes - BENCH_ROW_BYTES;
    check(reply_with(&lifted, last, 0x80 | BENCH_ROW_LIFT) == BENCH_RESERVED_BIT, "taken on a servo's row", "a lift rotor's bit");
    check(reply_with(&lifted, last, BENCH_ROW_LIFT | 1) == BENCH_RESERVED_BIT, "taken beside another", "a lift rotor's bit");
    check(reply_with(&lifted, 1, lifted.airframe[1] | 0x20) == BENCH_RESERVED_BIT, "taken", "a header's reserved bit");
    for (size_t number = 0; number < 6; number++) {
        uint8_t *at = lifted.airframe + BENCH_AIRFRAME_BYTES + 4 * number, was[4];
        memcpy(was, at, sizeof was);
        put(at, 0, no_lift_numbers[number]);
        check(guarded.read_airframe(lifted.airframe, lifted.airframe_bytes) ==
                  BENCH_NUMBER_OUT_OF_RANGE + 16 * (BENCH_PLACE_LIFT_MAX_THRUST_N + number),
              "another reply", bench_place_name((unsigned)(BENCH_PLACE_LIFT_MAX_THRUST_N + number)));
        memcpy(at, was, sizeof was);
    }
}

int main(int count, char **arguments)
{
    struct sample sample, older, oldest;
    if (count != 4 || !read_sample(arguments[1], bytes, BENCH_STATE_BYTES, &sample) ||
        !read_sample(arguments[2], older_bytes, BENCH_STATE_BYTES_NO_LIFT, &older) ||
        !read_sample(arguments[3], oldest_bytes, BENCH_STATE_BYTES_UNSCALED, &oldest)) {
        fprintf(stderr, "usage: tests FILE OLDER OLDEST, a flight of %d ticks or more\n", TICKS);
        return 1;
    }
    test_older(&sample, &older, BENCH_STATE_BYTES_NO_LIFT, "148 bytes");
    test_older(&sample, &oldest, BENCH_STATE_BYTES_UNSCALED, "116 bytes");
    test_lengths(&sample);
    make_telling(&sample);
    test_words();
    test_as_built();
    test_guard(&sample);
    test_winds(&sample);
    test_scales(&sample);
    test_exponents(&sample);
    test_lift(&sample);
    return failures != 0;
}
