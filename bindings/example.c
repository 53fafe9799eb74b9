/* Flies a sample flight through the library, whatever the float environment is: example FILE. Prints the number of accepted ticks
 * and the end state's 45 numbers as hex bits, any zero as 00000000. */
#include <inttypes.h>
#include <stdio.h>
#include <stdlib.h>
#include <string.h>

#include "bench.h"

enum { MOST = 1 << 20 };
static uint8_t bytes[MOST];

static void stop(const char *why, uint64_t reply)
{
    fprintf(stderr, "%s: %s", why, bench_answer_text(bench_answer(reply)));
    if (bench_place(reply) != 0)
        fprintf(stderr, ", place %u (%s)", bench_place(reply), bench_place_name(bench_place(reply)));
    fprintf(stderr, "\n");
    exit(1);
}

static size_t read_file(const char *name)
{
    FILE *file = fopen(name, "rb");
    size_t count = file ? fread(bytes, 1, MOST, file) : 0;
    if (file)
        fclose(file);
    return count;
}

static void print_number(float number)
{
    uint32_t bits = 0;
    if (number != 0.0f)
        memcpy(&bits, &number, sizeof bits);
    printf(" %08" PRIX32, bits);
}

int main(int count, char **arguments)
{
    size_t length = count == 2 ? read_file(arguments[1]) : 0, at = bench_airframe_length(bytes);
    float state[BENCH_STATE_NUMBERS];
    uint64_t accepted, reply;
    if (at == 0)
        stop("the airframe is refused", BENCH_TOO_MANY_ROWS);
    if (length < at + BENCH_STATE_BYTES)
        stop("no whole airframe and state; usage: example FILE", BENCH_WRONG_LENGTH);
    if ((reply = bench_guarded_read_airframe(bytes, at)) != 0)
        stop("the airframe is refused", reply);
    if ((reply = bench_guarded_read_state(bytes + at, BENCH_STATE_BYTES, state, BENCH_STATE_NUMBERS)) != 0)
        stop("the state is refused", reply);
    const uint8_t *trace = bytes + at + BENCH_STATE_BYTES;
    reply = bench_guarded_run(bytes, at, state, BENCH_STATE_NUMBERS, trace, length - at - BENCH_STATE_BYTES, &accepted);
    if (reply != 0)
        stop("the run is refused", reply);
    printf("%" PRIu64 " accepted, end state", accepted);
    for (size_t place = 0; place < BENCH_STATE_NUMBERS; place++)
        print_number(state[place]);
    return printf("\n") < 0;
}
