/* A clock is created, set, trimmed and read, with its requests passed on as slips; slips are read in a row; a value
 * past the end of version 2 is set; then two refusals are met. */
#include <inttypes.h>
#include <stdio.h>
#include <stdlib.h>

#include "cementoad.h"

/* Ends the program where a step is refused that should be taken. */
static void taken(const char *step, uint8_t refusal)
{
    if (refusal != CEMENTOAD_NO_REFUSAL) {
        fprintf(stderr, "%s: refusal %d\n", step, refusal);
        exit(EXIT_FAILURE);
    }
}

/* The clock as the request leaves it. */
static struct cementoad_clock update(struct cementoad_clock clock, struct cementoad_request request, int64_t now)
{
    struct cementoad_updated updated = cementoad_update(clock, request, now);
    taken("update", updated.refusal);
    return updated.clock;
}

static void print_started(struct cementoad_clock clock)
{
    printf(cementoad_is_started(clock) ? "it is started\n" : "it is not started\n");
}

static void print_reading(struct cementoad_clock clock, int64_t now)
{
    struct cementoad_reading reading = cementoad_read(clock, now);
    taken("read", reading.refusal);
    printf("at %" PRId64 " it reads %" PRId64 "\n", now, reading.value);
}

static void print_details(struct cementoad_clock clock, int64_t now)
{
    struct cementoad_detailed detailed = cementoad_get_details(clock, now);
    struct cementoad_line line = detailed.details.line;
    taken("details", detailed.refusal);
    printf("its line goes from %" PRId64 " at %" PRId64 " with %" PRId32 " ppm, generation %" PRIu32 "\n",
           line.synthetic, line.reference, line.rate, detailed.details.generation);
}

/* Writes the request as a slip to the front of the buffer. The answer is its length. */
static size_t write_slip(struct cementoad_request request, uint8_t *buffer, size_t size)
{
    struct cementoad_written written = cementoad_write_slip(request, buffer, size);
    taken("write slip", written.refusal);
    return written.length;
}

/* The request, written as a slip and read back from its bytes. */
static struct cementoad_request by_slip(struct cementoad_request request)
{
    uint8_t slip[CEMENTOAD_LONGEST_SLIP] = {0};
    size_t length = write_slip(request, slip, sizeof slip);
    printf("slip of %zu bytes:", cementoad_slip_length(request));
    for (size_t i = 0; i < length; i++)
        printf(" %02X", slip[i]);
    printf("\n");
    struct cementoad_received received = cementoad_read_single_slip(slip, length);
    taken("read single slip", received.refusal);
    return received.request;
}

/* Reads slips one after another, to the end of their bytes or to one that is refused. */
static void print_row(const uint8_t *bytes, size_t size)
{
    while (size > 0) {
        struct cementoad_received received = cementoad_read_slip(bytes, size);
        if (received.refusal != CEMENTOAD_NO_REFUSAL) {
            printf("the next slip gets refusal %d, and %zu bytes are left\n", received.refusal, size);
            return;
        }
        uint64_t word = received.request.word;
        printf("the next slip, of word %016" PRIX64 ", uses %zu of %zu bytes\n", word, received.length, size);
        bytes += received.length;
        size -= received.length;
    }
}

int main(void)
{
    uint32_t abi = cementoad_abi();
    if (abi != CEMENTOAD_ABI) {
        fprintf(stderr, "the header is of version %d, but the archive of version %" PRIu32 "\n", CEMENTOAD_ABI, abi);
        return EXIT_FAILURE;
    }

    printf("a plain clock is created at 0, with backstop 0\n");
    struct cementoad_created created = cementoad_create(0, 0, 0);
    taken("create", created.refusal);
    struct cementoad_clock clock = created.clock;
    print_started(clock);
    print_reading(clock, 0);

    printf("it is set to 1500 at 100\n");
    struct cementoad_request set = {.word = CEMENTOAD_VERSION_2 | CEMENTOAD_SYNTHETIC, .synthetic = 1500};
    clock = update(clock, by_slip(set), 100);
    print_started(clock);
    print_reading(clock, 350);

    printf("it is trimmed by -23 ppm at 1000100\n");
    struct cementoad_request trim = {.word = CEMENTOAD_VERSION_2 | CEMENTOAD_RATE, .rate = -23};
    clock = update(clock, by_slip(trim), 1000100);
    print_reading(clock, 1000100);
    print_reading(clock, 2000100);
    print_details(clock, 2000100);

    printf("both slips are written in a row, and the first bytes of a third\n");
    uint8_t row[3 * CEMENTOAD_LONGEST_SLIP] = {0};
    size_t size = write_slip(set, row, sizeof row);
    size += write_slip(trim, row + size, sizeof row - size);
    size += write_slip(set, row + size, sizeof row - size);
    print_row(row, size - 7);

    printf("a value past the end of version 2 is set at 2000100\n");
    set.word = CEMENTOAD_VERSION_3 | CEMENTOAD_SYNTHETIC;
    set.synthetic = CEMENTOAD_VERSION_2_END + 1;
    clock = update(clock, by_slip(set), 2000100);
    print_reading(clock, 2000100);

    /* A refused update hands the clock back unaltered. */
    trim.rate = 1001;
    struct cementoad_updated refused = cementoad_update(clock, trim, 2000100);
    printf("a trim by 1001 ppm at 2000100 gets refusal %d\n", refused.refusal);
    print_reading(refused.clock, 2000100);

    struct cementoad_clock zeros = {0};
    struct cementoad_reading reading = cementoad_read(zeros, 0);
    printf("zeros are no clock: a reading of them gets refusal %d\n", reading.refusal);

    bool as_expected = refused.refusal == CEMENTOAD_RATE_OUTSIDE && reading.refusal == CEMENTOAD_NOT_A_CLOCK;
    return as_expected ? EXIT_SUCCESS : EXIT_FAILURE;
}
