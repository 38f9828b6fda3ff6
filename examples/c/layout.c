/* Prints what the header declares: each struct and field with its offset and size, each constant, and each refusal with
 * its public name. The example `layout` of rust/cementoad prints the same lines from Rust's declarations. */
#include <inttypes.h>
#include <stdio.h>

#include "cementoad.h"

#define STRUCT(type) printf("struct %s size %zu\n", #type, sizeof(struct cementoad_##type))
#define FIELD(type, field) \
    printf("%s.%s offset %zu size %zu\n", #type, #field, offsetof(struct cementoad_##type, field), \
           sizeof(((struct cementoad_##type *)0)->field))
#define SIGNED(name) printf("%s %" PRId64 "\n", #name, (int64_t)CEMENTOAD_##name)
#define UNSIGNED(name) printf("%s %" PRIu64 "\n", #name, (uint64_t)CEMENTOAD_##name)
#define REFUSAL(name) \
    printf("refusal %d %s %s\n", CEMENTOAD_##name, #name, \
           cementoad_is_invalid_args(CEMENTOAD_##name) ? "INVALID_ARGS" : #name)

static void structs(void)
{
    STRUCT(line);
    FIELD(line, reference);
    FIELD(line, synthetic);
    FIELD(line, remainder);
    FIELD(line, rate);
    STRUCT(clock);
    FIELD(clock, line);
    FIELD(clock, backstop);
    FIELD(clock, latest);
    FIELD(clock, error);
    FIELD(clock, generation);
    FIELD(clock, word);
    FIELD(clock, started);
    STRUCT(request);
    FIELD(request, word);
    FIELD(request, synthetic);
    FIELD(request, reference);
    FIELD(request, rate);
    FIELD(request, error);
    STRUCT(created);
    FIELD(created, clock);
    FIELD(created, refusal);
    STRUCT(updated);
    FIELD(updated, clock);
    FIELD(updated, refusal);
    STRUCT(reading);
    FIELD(reading, refusal);
    FIELD(reading, value);
    STRUCT(details);
    FIELD(details, started);
    FIELD(details, line);
    FIELD(details, error);
    FIELD(details, generation);
    FIELD(details, latest);
    FIELD(details, word);
    FIELD(details, backstop);
    FIELD(details, now);
    STRUCT(detailed);
    FIELD(detailed, refusal);
    FIELD(detailed, details);
    STRUCT(received);
    FIELD(received, request);
    FIELD(received, length);
    FIELD(received, refusal);
    STRUCT(written);
    FIELD(written, length);
    FIELD(written, refusal);
}

static void constants(void)
{
    UNSIGNED(ABI);
    SIGNED(END);
    SIGNED(VERSION_2_END);
    SIGNED(MAX_RATE);
    SIGNED(MAX_RATE_STEP);
    UNSIGNED(UNKNOWN_ERROR);
    UNSIGNED(LONGEST_SLIP);
    UNSIGNED(MONOTONIC);
    UNSIGNED(CONTINUOUS);
    UNSIGNED(AUTO_START);
    UNSIGNED(VERSION_2);
    UNSIGNED(VERSION_3);
    UNSIGNED(SYNTHETIC);
    UNSIGNED(REFERENCE);
    UNSIGNED(RATE);
    UNSIGNED(ERROR);
}

static void refusals(void)
{
    REFUSAL(NO_REFUSAL);
    REFUSAL(NOW_OUTSIDE);
    REFUSAL(NOW_EARLY);
    REFUSAL(WORD_WRONG);
    REFUSAL(NOTHING_FLAGGED);
    REFUSAL(VALUE_OUTSIDE);
    REFUSAL(RATE_OUTSIDE);
    REFUSAL(REFERENCE_ALONE);
    REFUSAL(NOT_STARTED);
    REFUSAL(CONTINUOUS_REFERENCE);
    REFUSAL(CONTINUOUS_SET);
    REFUSAL(MONOTONIC_SET_AND_RATE);
    REFUSAL(LINE_OUTSIDE);
    REFUSAL(BELOW_BACKSTOP);
    REFUSAL(MONOTONIC_BACK);
    REFUSAL(CONTINUOUS_NOT_MONOTONIC);
    REFUSAL(BACKSTOP_OUTSIDE);
    REFUSAL(BACKSTOP_AHEAD);
    REFUSAL(TOO_SHORT);
    REFUSAL(PADDING_SET);
    REFUSAL(BYTES_LEFT_OVER);
    REFUSAL(BUFFER_SHORT);
    REFUSAL(RATE_STEP);
    REFUSAL(VERSION_NEEDLESS);
    REFUSAL(NOT_A_CLOCK);
}

int main(void)
{
    structs();
    constants();
    refusals();
    return 0;
}
