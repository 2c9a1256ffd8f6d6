/* Four meters in a square, two radio channels: the table's head, a plan's code, a damaged bit, the plan repaired, and a margin on the penalty. */
#include <inttypes.h>
#include <stdio.h>
#include <stdlib.h>

#include "meterplan.h"

enum { METERS = 4, CHANNELS = 2, BITS = METERS * CHANNELS };

/* A refusal here would be a mistake of this program: say which, and stop. */
static void expect(const char *call, uint64_t refusal)
{
    if (refusal != 0) {
        fprintf(stderr, "%s: refused %" PRIu64 "\n", call, refusal);
        exit(1);
    }
}

static int64_t number(const char *call, meterplan_number n)
{
    expect(call, n.refusal);
    return n.value;
}

static void print_bytes(const char *name, const uint8_t *bytes, size_t len)
{
    printf("%s", name);
    for (size_t i = 0; i < len; i++)
        printf(" %d", bytes[i]);
    printf("\n");
}

int main(void)
{
    uint8_t image[METERPLAN_IMAGE], bits[BITS], plan[METERS] = {1, 2, 1, 2};
    int64_t row[BITS];
    meterplan_ask ask = {.kind = METERPLAN_CHANNELS, .parameter = CHANNELS};

    expect("begin", meterplan_begin(image, sizeof image, METERS));
    for (unsigned v = 1; v <= METERS; v++)
        expect("add", meterplan_add(image, sizeof image, v, v % METERS + 1, 3));

    printf("Q %" PRId64, number("bits", meterplan_bits(image, sizeof image, ask)));
    printf(" %" PRId64 "\n", number("constant", meterplan_constant(image, sizeof image, ask)));
    expect("row", meterplan_row(image, sizeof image, ask, 0, row, BITS));
    for (int j = 0; j < BITS; j++)
        if (row[j] != 0)
            printf("0 %d %" PRId64 "\n", j, row[j]);

    expect("code", meterplan_code(image, sizeof image, ask, plan, sizeof plan, bits, sizeof bits));
    print_bytes("code", bits, sizeof bits);

    bits[4] = 0; /* meter 3 falls silent */
    printf("damaged: energy %" PRId64 "\n", number("energy", meterplan_energy(image, sizeof image, ask, bits, sizeof bits)));
    meterplan_decoded decoded = meterplan_decode(image, sizeof image, ask, bits, sizeof bits, plan, sizeof plan);
    expect("decode", decoded.refusal);
    print_bytes("plan", plan, sizeof plan);
    printf("weight %" PRIu64 ", repaired %" PRIu64 "\n", decoded.weight, decoded.repaired);

    ask.margin = 10; /* above the annealer's noise */
    printf("margin 10: penalty %" PRId64, number("penalty", meterplan_penalty(image, sizeof image, ask)));
    printf(", damaged: energy %" PRId64 "\n", number("energy", meterplan_energy(image, sizeof image, ask, bits, sizeof bits)));
    return 0;
}
