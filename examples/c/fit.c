// A drawing fitted to a chip: the least map or why there is none, a path carried over, and packets sent through both trees by their disciplines.
//
// A tree has 38,232 bytes and both trees with their map 76,504, so they are static here and not on the stack. A call needs stack all the same
// (docs/C.md), so the calls are made in a thread with LINDUVAR_STACK_BYTES of it.
#include <inttypes.h>
#include <linduvar.h>
#include <pthread.h>
#include <stdio.h>

// The root has three children: the roses, the glasshouses with two children of their own (palms and orchids), and the gate.
static const uint8_t garden[] = {3, 0, 2, 0, 0, 0};
enum { ROSES = 1, GLASSHOUSES = 2, PALMS = 3, ORCHIDS = 4, GATE = 5 };
// A hut with one course: two nodes with one child each, which the map passes over.
static const uint8_t hut[] = {1, 1, 0};
static const uint8_t five_courses[] = {5, 0, 0, 0, 0, 0};
// Four leaves, and never more than two children.
static const uint8_t chip[] = {2, 2, 0, 0, 2, 0, 0};

// Why there is no map.
static void explain(const uint8_t *source, size_t length) {
    linduvar_diagnosis why = linduvar_why(source, length, chip, sizeof chip);
    const char *lack = why.lack == LINDUVAR_LACKS_DEPTH ? "depth" : why.lack == LINDUVAR_LACKS_LEAVES ? "leaves" : "room";
    printf("  the branch under node %zu lacks %s: %zu needed, %zu there\n", why.node, lack, why.needed, why.there);
}

static void search(const char *name, const uint8_t *source, size_t length) {
    uint8_t map[LINDUVAR_MAX_SOURCE_NODES];
    uint8_t refusal = linduvar_search(source, length, chip, sizeof chip, map, sizeof map);
    if (refusal != 0) {
        printf("%s: no %d\n", name, refusal);
        if (refusal == 12) {
            explain(source, length);
        }
        return;
    }
    printf("%s: map", name);
    for (size_t node = 0; node < length; node++) {
        printf(" %d", map[node]);
    }
    printf("\n");
}

static void carry(const uint8_t *map, linduvar_path path) {
    linduvar_carried carried = linduvar_carry(garden, sizeof garden, chip, sizeof chip, map, sizeof garden, path);
    if (carried.refusal != 0) {
        printf("no %d\n", carried.refusal);
        return;
    }
    printf("steps on the chip:");
    for (size_t i = 0; i < carried.path.count; i++) {
        printf(" child %d rank %" PRIu64 "%s", carried.path.steps[i].child, carried.path.steps[i].rank, i + 1 < carried.path.count ? "," : "\n");
    }
}

// Pushes a packet of length 300 to a leaf of both trees.
static void push(linduvar_pair_opened *pair, size_t leaf, uint32_t packet) {
    static linduvar_tree_answer drawn, fitted;
    drawn = linduvar_tree_push_to_leaf(pair->source, leaf, 0, 300, packet);
    fitted = linduvar_chip_push_to_leaf(garden, sizeof garden, pair->map, sizeof garden, pair->chip, leaf, 0, 300, packet);
    pair->source = drawn.tree;
    pair->chip = fitted.tree;
    printf("push %" PRIu32 " to node %zu: drawing %d %" PRIu32 ", chip %d %" PRIu32 "\n", packet, leaf, drawn.refusal, drawn.value, fitted.refusal,
           fitted.value);
}

static void pop(linduvar_pair_opened *pair) {
    static linduvar_tree_answer drawn, fitted;
    drawn = linduvar_tree_pop(pair->source);
    fitted = linduvar_chip_pop(garden, sizeof garden, pair->map, sizeof garden, pair->chip);
    pair->source = drawn.tree;
    pair->chip = fitted.tree;
    printf("pop: drawing %d %" PRIu32 ", chip %d %" PRIu32 "\n", drawn.refusal, drawn.value, fitted.refusal, fitted.value);
}

static void *fit(void *unused) {
    (void)unused;
    search("garden", garden, sizeof garden);
    search("hut", hut, sizeof hut);
    search("five courses", five_courses, sizeof five_courses);

    // The root shares its turns by weight: the glasshouses get three of them for each one of the roses and of the gate.
    linduvar_rules rules = {{{0}}};
    rules.rules[0].discipline = LINDUVAR_WEIGHTED;
    rules.rules[ROSES].weight = 1;
    rules.rules[GLASSHOUSES].weight = 3;
    rules.rules[GATE].weight = 1;
    static linduvar_pair_opened pair;
    pair = linduvar_pair_open(garden, sizeof garden, chip, sizeof chip, 6, rules);
    if (pair.refusal != 0) {
        printf("no %d\n", pair.refusal);
        return NULL;
    }

    linduvar_path roses = {.steps = {{.child = 1, .rank = 2}}, .count = 1, .leaf_rank = 0};
    carry(pair.map, roses);
    push(&pair, ROSES, 1);
    push(&pair, ROSES, 2);
    push(&pair, PALMS, 3);
    push(&pair, ORCHIDS, 4);
    push(&pair, PALMS, 5);
    push(&pair, GLASSHOUSES, 6);
    push(&pair, GATE, 7);
    push(&pair, GATE, 8);
    for (int i = 0; i < 7; i++) {
        pop(&pair);
    }
    printf("held %" PRIu32 ", refused %" PRIu32 "\n", linduvar_chip_held(garden, sizeof garden, pair.chip).value,
           linduvar_chip_refusals(garden, sizeof garden, pair.chip).value);
    return NULL;
}

int main(void) {
    if (linduvar_layout() != LINDUVAR_LAYOUT) {
        fprintf(stderr, "the library has layout %zu, the header %d\n", linduvar_layout(), LINDUVAR_LAYOUT);
        return 1;
    }
    pthread_attr_t attributes;
    pthread_t thread;
    if (pthread_attr_init(&attributes) != 0 || pthread_attr_setstacksize(&attributes, LINDUVAR_STACK_BYTES) != 0 ||
        pthread_create(&thread, &attributes, fit, NULL) != 0) {
        return 1;
    }
    return pthread_join(thread, NULL);
}
