// The queue tree alone: opening, pushes by path, pops, counts, and refusals by number.
//
// A state has 37,080 bytes, so states and answers are static here and not on the stack. A call needs stack all the same: a thread that calls should
// have LINDUVAR_STACK_BYTES, as in fit.c.
#include <inttypes.h>
#include <linduvar.h>
#include <stdio.h>

static linduvar_state state;

static void push(linduvar_path path, uint32_t packet) {
    static linduvar_answer answer;
    answer = linduvar_push(state, path, packet);
    state = answer.state;
    if (answer.refusal == 15) {
        printf("no 15, refused so far: %" PRIu32 "\n", answer.value);
    } else if (answer.refusal != 0) {
        printf("no %d\n", answer.refusal);
    } else {
        printf("in %" PRIu32 "\n", answer.value);
    }
}

// Prints the packet that leaves, and at each node of its way the child and the rank that were at the head.
static void pop(void) {
    static linduvar_popped popped;
    popped = linduvar_pop(state);
    state = popped.answer.state;
    if (popped.answer.refusal != 0) {
        printf("no %d\n", popped.answer.refusal);
        return;
    }
    printf("out %" PRIX32 ", by", popped.answer.value);
    for (size_t i = 0; i < popped.way.count; i++) {
        const linduvar_taken *taken = &popped.way.taken[i];
        printf(" node %d child %d rank %" PRIu64 "%s", taken->node, taken->child, taken->rank, i + 1 < popped.way.count ? "," : "\n");
    }
}

int main(void) {
    if (linduvar_layout() != LINDUVAR_LAYOUT) {
        fprintf(stderr, "the library has layout %zu, the header %d\n", linduvar_layout(), LINDUVAR_LAYOUT);
        return 1;
    }
    // The root has three children: the roses, the glasshouses with two children of their own (palms and orchids), and the gate.
    static const uint8_t garden[] = {3, 0, 2, 0, 0, 0};
    static linduvar_opened opened;
    opened = linduvar_open(garden, sizeof garden, 300);
    printf("with a limit of 300: no %d\n", opened.refusal);
    opened = linduvar_open(garden, sizeof garden, 3);
    if (opened.refusal != 0) {
        return 1;
    }
    state = opened.state;

    linduvar_path roses = {.steps = {{.child = 1, .rank = 2}}, .count = 1, .leaf_rank = 0};
    linduvar_path palms = {.steps = {{.child = 2, .rank = 1}, {.child = 1, .rank = 7}}, .count = 2, .leaf_rank = 0};
    linduvar_path gate = {.steps = {{.child = 3, .rank = 2}}, .count = 1, .leaf_rank = 0};
    linduvar_path astray = {.steps = {{.child = 4, .rank = 0}}, .count = 1, .leaf_rank = 0};
    push(roses, 0xA1);
    push(palms, 0xB1);
    push(gate, 0xC1);
    push(roses, 0xA2);
    push(astray, 0xD1);
    pop();
    printf("held %" PRIu32 ", refused %" PRIu32 "\n", linduvar_held(state).value, linduvar_refusals(state).value);
    pop();
    pop();
    pop();
    return 0;
}
