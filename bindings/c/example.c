/* Packs a battery report, pushes the frame in two pieces, and prints the log line. */
#include "mdr.h"

#include <stdio.h>

enum { LIMIT = 8192, STORE = 12288, OUTPUT = 4 * STORE };

static uint8_t store[STORE], work[STORE], out[OUTPUT], plan[MDR_PLAN_LEN];

static int refused(const char *call, uint8_t status) {
    fprintf(stderr, "%s: refused, %u\n", call, status);
    return 1;
}

int main(void) {
    const uint8_t payload[] = {0x23, 0x00, 0x50, 0x01};
    uint8_t frame[64];
    uint64_t values[1];

    uint8_t status = mdr_pack(0x0C, 0, payload, sizeof payload, frame, sizeof frame, values, 1);
    if (status != 0) return refused("mdr_pack", status);
    const size_t len = values[0];

    struct mdr_scanner scanner;
    status = mdr_open(&scanner, LIMIT, store, sizeof store);
    if (status != 0) return refused("mdr_open", status);

    const size_t cut = 5;
    status = mdr_push(&scanner, store, sizeof store, frame, cut);
    if (status != 0) return refused("mdr_push", status);
    status = mdr_push(&scanner, store, sizeof store, frame + cut, len - cut);
    if (status != 0) return refused("mdr_push", status);

    mdr_house_plan(plan);
    for (;;) {
        status = mdr_line(&scanner, store, sizeof store, plan, sizeof plan, work, sizeof work, out, sizeof out, values, 1);
        if (status != 0) return refused("mdr_line", status);
        if (values[0] == 0) return 0;
        fwrite(out, 1, values[0], stdout);
    }
}
