/* The verifier in C in sessions of 4096 channels. Usage: session ROUNDS reads|all. Prints the last answer, a refusal as its number. */
#include <stdio.h>
#include <stdlib.h>

/* Each step is a call, and is not compiled for the arguments that it has here. */
#define STEP __attribute__((noipa)) static
#include "verifier.h"

static uint32_t tail(uint32_t i) { return i % 254; }
static uint32_t head(uint32_t i) { return 254 - i % 128; }
static uint32_t weight(uint32_t i) { return i % 4681 * 7; }

static uint64_t one(struct session *x, int all) {
    open_session(x, 2, 255, 0, 254, (struct pair){5, 6});
    for (uint32_t i = 0; i < 4096; i++) read_channel(x, tail(i), head(i), weight(i));
    end_reading(x);
    if (!all) return finish(x);
    make_claim(x, 1);
    for (int v = 0; v < 255; v++) node_number(x, v == 0);
    for (uint32_t i = 0; i < 4096; i++) repeat_channel(x, tail(i), head(i), weight(i), 0);
    return finish(x);
}

int main(int argc, char **argv) {
    int rounds = argc > 1 ? atoi(argv[1]) : 1, all = argc > 2 && !strcmp(argv[2], "all");
    uint64_t last = 0;
    struct session x;
    for (int round = 0; round < rounds; round++) last = one(&x, all);
    printf("%u\n", (uint32_t)last);
    return 0;
}
