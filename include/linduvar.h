// The calls of Linduvar for C and C++. docs/C.md says how to build and link, docs/REFUSALS.md what each refusal means and what to do about it.
//
// Refusals. A call that cannot do what it is asked answers with a number, its refusal; 0 means that nothing is refused. A refusal changes nothing,
// except that 15 raises the tree's count of refusals, and that entries are rewritten (see linduvar_entry). The comment of a call lists its refusals in
// the order in which they are tested: "S" is 1 to 5 of the source, "T" is 1 to 5 of the target or of a tree by itself, and "M" is 6, 26, 7, 8, 9, 10,
// 11, the test of a map.
//
// Pointers. No pointer is NULL, even where the number of bytes behind it, which follows it, is 0. What a call writes to (`out`, `depth`, `refusal`)
// overlaps nothing else that is handed to the same call.
//
// States and trees go in and come out by value: a call keeps nothing, and alters nothing but what its comment says that it writes to. Go on with the
// state or tree of the answer: from an old one a packet leaves twice. They are large, so keep them in static or allocated memory rather than in local
// variables, and give a thread that calls LINDUVAR_STACK_BYTES of stack.
#ifndef LINDUVAR_H
#define LINDUVAR_H

#include <stddef.h>
#include <stdint.h>

#ifdef __cplusplus
extern "C" {
#endif

// The version of the library, and the number of its layout. This number rises whenever a struct of this header changes its layout, so that a program
// can see whether header and library fit (linduvar_layout), and a stored state can say which layout it has. Layout 1 had ranks of 32 bits.
#define LINDUVAR_VERSION "0.2.0"
#define LINDUVAR_LAYOUT 2

// A tree is drawn as one byte for each node in preorder: its number of children, 0 for a leaf. Nodes are numbered from 0 in this order, and the
// children of a node from 1.
#define LINDUVAR_MAX_SOURCE_NODES 32
#define LINDUVAR_MAX_TARGET_NODES 64 // also of a tree by itself
#define LINDUVAR_MAX_CHILDREN 8
#define LINDUVAR_MAX_DEPTH 8 // steps from the root down to a node
#define LINDUVAR_MAX_PACKETS 256 // the largest packet limit
#define LINDUVAR_MAX_STEPS 9 // places of a path or a way; a ninth step is refused by 13
#define LINDUVAR_MAX_ENTRIES 2304

// The stack of a thread that calls, in bytes. Measured and rounded up, and no bound that is proved (docs/C.md): a call touches up to 406,055 bytes, and
// the answer and the caller's own variables come on top.
#define LINDUVAR_STACK_BYTES 851968

// Answers of 255 that are no refusals.
#define LINDUVAR_PASSED_OVER 255 // in a map: an inner node with one child, which has no image
#define LINDUVAR_NO_ROOM 255 // from linduvar_search
#define LINDUVAR_NO_BYTE 255 // from linduvar_branch_byte

// The disciplines of a node (docs/DISCIPLINES.md).
#define LINDUVAR_ARRIVAL 0
#define LINDUVAR_STRICT 1
#define LINDUVAR_WEIGHTED 2

// What a branch that fits nowhere lacks, from linduvar_why.
#define LINDUVAR_LACKS_DEPTH 1
#define LINDUVAR_LACKS_LEAVES 2
#define LINDUVAR_LACKS_ROOM 3

// ---- Paths and ways ----

// One step of a path: to a child, by its number from 1, with the rank that it enters the node's queue with.
typedef struct linduvar_step {
    uint8_t child;
    uint64_t rank;
} linduvar_step;

// A path from the root to a leaf: its first `count` steps, and the rank at the leaf. What stands behind them is ignored.
typedef struct linduvar_path {
    linduvar_step steps[LINDUVAR_MAX_STEPS];
    size_t count;
    uint64_t leaf_rank;
} linduvar_path;

// A path that was carried over, with zeros behind its last step; or the refusal and the path as it was given.
typedef struct linduvar_carried {
    linduvar_path path;
    uint8_t refusal;
} linduvar_carried;

// What a pop takes at a node: the rank at the head of its queue and the child that is named there, 0 at a leaf.
typedef struct linduvar_taken {
    uint8_t node;
    uint8_t child;
    uint64_t rank;
} linduvar_taken;

// The way of a pop from the root down: its first `count` places. The others are 0.
typedef struct linduvar_way {
    linduvar_taken taken[LINDUVAR_MAX_STEPS];
    size_t count;
} linduvar_way;

// ---- Why there is no map ----

// The refusal of the search, or 0. If it is 12, the branch under `node` of the source fits nowhere on the target, and `lack` says what it lacks.
// LINDUVAR_LACKS_DEPTH: the node is a leaf with `needed` kept nodes above it, and no target node has more than `there` nodes above it.
// LINDUVAR_LACKS_LEAVES: the branch has `needed` leaves, and a branch of the target where it may go has at most `there`.
// LINDUVAR_LACKS_ROOM: each branch below the node fits somewhere, but not all of them together; `needed` and `there` are 0.
// If the refusal is not 12, all else is 0.
typedef struct linduvar_diagnosis {
    uint8_t refusal;
    uint8_t lack;
    size_t node;
    size_t needed;
    size_t there;
} linduvar_diagnosis;

// ---- The queue tree ----

// An entry of a queue: the child `child` if `tag` is 0, else the packet `packet`. In every answer, even in a refusal, `tag` is 0 or 1 and the number
// that is not used is 0, whatever was handed in. The bytes between the fields may be any: compare entries field by field.
typedef struct linduvar_entry {
    uint64_t rank;
    uint8_t tag;
    uint8_t child;
    uint32_t packet;
} linduvar_entry;

// What no call alters: the bytes of the tree, their number, and the packet limit.
typedef struct linduvar_frame {
    uint8_t topology[LINDUVAR_MAX_TARGET_NODES];
    size_t nodes;
    size_t limit;
} linduvar_frame;

// The state of a queue tree. The queues stand one behind the other in the order of their nodes, each from its head on, and `lengths` has their
// lengths. `refused` counts the pushes that were refused by 15.
//
// A call answers 18 unless all of this holds: `nodes` is at most 64; the first `nodes` bytes of `topology` are a tree, without fault T; `limit` is 1 to
// 256; the first `nodes` lengths add up to at most 2304; in no queue is a rank lower than the one before it; a leaf has packets only, and an inner node
// only numbers of its own children, each as often as there are packets under that child; and there are at most `limit` packets. Nothing else is
// tested: `refused`, the packets, what stands past the last node or the last entry, and whether calls have led to this state. So a damaged state may
// be served.
typedef struct linduvar_state {
    linduvar_frame frame;
    uint16_t lengths[LINDUVAR_MAX_TARGET_NODES];
    linduvar_entry entries[LINDUVAR_MAX_ENTRIES];
    uint32_t refused;
} linduvar_state;

// The empty tree; or the refusal and a state of zeros, which every call refuses by 18.
typedef struct linduvar_opened {
    linduvar_state state;
    uint8_t refusal;
} linduvar_opened;

// The state after a call, the refusal or 0, and a value: the packets held after a push, the packet that departs, or the new count of refusals after
// a push that is refused by 15; else 0.
typedef struct linduvar_answer {
    linduvar_state state;
    uint8_t refusal;
    uint32_t value;
} linduvar_answer;

// The answer to a pop, and the way of the packet that departs; no way if it is refused.
typedef struct linduvar_popped {
    linduvar_answer answer;
    linduvar_way way;
} linduvar_popped;

// A count; or the refusal and 0.
typedef struct linduvar_amount {
    uint8_t refusal;
    uint32_t value;
} linduvar_amount;

// ---- Trees with disciplines ----

// The rule of a node: its discipline, and its weight as a child of a weighted node.
typedef struct linduvar_rule {
    uint8_t discipline;
    uint8_t weight;
} linduvar_rule;

// The rules by node of the drawing. Those past its last node are ignored.
typedef struct linduvar_rules {
    linduvar_rule rules[LINDUVAR_MAX_TARGET_NODES];
} linduvar_rules;

// All by node of the drawing: the rules, the virtual time of each node, and the last finish of each node as a child of its parent. Only a weighted node
// with more than one child keeps a virtual time and the finishes of its children; the other numbers mean nothing and stay as they came.
typedef struct linduvar_disciplines {
    linduvar_rule rules[LINDUVAR_MAX_TARGET_NODES];
    uint64_t virtual_time[LINDUVAR_MAX_TARGET_NODES];
    uint64_t finish[LINDUVAR_MAX_TARGET_NODES];
} linduvar_disciplines;

// A queue tree with disciplines: a tree by itself, or a chip's tree. Of the disciplines 18 tests what 24 tests at an opening, the rules of the nodes of
// the drawing, and nothing else: virtual times and finishes may be any numbers.
typedef struct linduvar_tree {
    linduvar_state state;
    linduvar_disciplines disciplines;
} linduvar_tree;

// The empty tree; or the refusal and a tree of zeros, which every call refuses by 18.
typedef struct linduvar_tree_opened {
    linduvar_tree tree;
    uint8_t refusal;
} linduvar_tree_opened;

// The tree after a call, the refusal or 0, and a value as in linduvar_answer.
typedef struct linduvar_tree_answer {
    linduvar_tree tree;
    uint8_t refusal;
    uint32_t value;
} linduvar_tree_answer;

// Both empty trees and the least map between them; or the refusal and zeros throughout.
typedef struct linduvar_pair_opened {
    linduvar_tree source;
    linduvar_tree chip;
    uint8_t map[LINDUVAR_MAX_SOURCE_NODES];
    uint8_t refusal;
} linduvar_pair_opened;

// ---- Calls: the library itself ----

// The number of the layout that the library has. If it is not LINDUVAR_LAYOUT, make no other call: header and library do not fit.
size_t linduvar_layout(void);

// ---- Calls: reading a tree ----

// The refusal of the bytes as a tree of at most `limit` nodes, or 0. Refusals: 1 to 5.
uint8_t linduvar_read(const uint8_t *bytes, size_t length, size_t limit);

// The number of bytes of the branch under `node`, which begins at bytes[node]; 0 if it is refused. Writes the refusal, or 0, to `refusal`.
// Refusals: T, 19.
size_t linduvar_branch(const uint8_t *bytes, size_t length, size_t node, uint8_t *refusal);

// Byte `at` of the branch under `node`, or LINDUVAR_NO_BYTE if there is none or linduvar_branch refuses.
uint8_t linduvar_branch_byte(const uint8_t *bytes, size_t length, size_t node, size_t at);

// ---- Calls: the queue tree ----

// Opens an empty tree with a packet limit. Refusals: T, 17.
linduvar_opened linduvar_open(const uint8_t *bytes, size_t length, size_t limit);

// Pushes a packet along a path. Refusals: 18, 13, 14, 15.
linduvar_answer linduvar_push(linduvar_state state, linduvar_path path, uint32_t packet);

// Pops the packet at the head. Refusals: 18, 16.
linduvar_popped linduvar_pop(linduvar_state state);

// How many packets the tree holds. Refusal: 18.
linduvar_amount linduvar_held(linduvar_state state);

// How many pushes the tree has refused by 15, at most 4294967295. Refusal: 18.
linduvar_amount linduvar_refusals(linduvar_state state);

// All calls above are in liblinduvar_queue.a and in liblinduvar.a, all calls below in liblinduvar.a alone.

// ---- Calls: maps ----
// A map has one number for each node of the source: its image, or LINDUVAR_PASSED_OVER. Maps come back as 32 numbers, but a call wants as many as the
// source has nodes and refuses any other `map_length` by 6.

// The refusal of a list of numbers as a map of the source into the target, or 0. Refusals: S, T, M.
uint8_t linduvar_check(const uint8_t *source, size_t source_length, const uint8_t *target, size_t target_length, const uint8_t *map,
                       size_t map_length);

// Writes the least map to the first 32 bytes of `out`, with zeros past the last source node, and answers 0; or answers the refusal; or
// LINDUVAR_NO_ROOM if there is a map but `out` has fewer than 32 bytes. Unless the answer is 0, nothing is written. Refusals: S, T, 12.
uint8_t linduvar_search(const uint8_t *source, size_t source_length, const uint8_t *target, size_t target_length, uint8_t *out, size_t out_length);

// Why the source has no map into the target. Refusals: S, T, 12.
linduvar_diagnosis linduvar_why(const uint8_t *source, size_t source_length, const uint8_t *target, size_t target_length);

// Writes to `depth`, which is aligned as a size_t, the least depth of a complete tree, with d children at each inner node, into which the source has a
// map, and answers 0; or answers the refusal and writes nothing. Refusals: S, 27.
uint8_t linduvar_least_depth(const uint8_t *source, size_t source_length, size_t d, size_t *depth);

// Carries a path of the source over to the target. Refusals: S, T, M, 13, 14.
linduvar_carried linduvar_carry(const uint8_t *source, size_t source_length, const uint8_t *target, size_t target_length, const uint8_t *map,
                                size_t map_length, linduvar_path path);

// ---- Calls: a tree with disciplines by itself ----

// Opens an empty tree with a packet limit and a rule for each of its nodes. Refusals: T, 17, 24.
linduvar_tree_opened linduvar_tree_open(const uint8_t *bytes, size_t length, size_t limit, linduvar_rules rules);

// Pushes a packet along a path, with the ranks of the path. Refusals: 18, 13, 14, 15.
linduvar_tree_answer linduvar_tree_push(linduvar_tree tree, linduvar_path path, uint32_t packet);

// Pushes a packet to a leaf, by its node number; the disciplines give the ranks. `packet_class` is the rank of the packet at strict nodes, and
// `packet_length` counts at weighted ones. Refusals: 18, 25, 15, 23.
linduvar_tree_answer linduvar_tree_push_to_leaf(linduvar_tree tree, size_t leaf, uint8_t packet_class, uint16_t packet_length, uint32_t packet);

// Pops the packet at the head. Refusals: 18, 16.
linduvar_tree_answer linduvar_tree_pop(linduvar_tree tree);

// How many packets the tree holds. Refusal: 18.
linduvar_amount linduvar_tree_held(linduvar_tree tree);

// How many pushes the tree has refused by 15. Refusal: 18.
linduvar_amount linduvar_tree_refusals(linduvar_tree tree);

// ---- Calls: a chip's tree with disciplines, behind a map ----
// Paths, leaves and rules are those of the source. Hand over the source with which the tree was opened, and the same map at every push and pop. No call
// notices another source or another map if it passes the tests, and packets may then leave in another order than in the drawing.

// Opens the source's own tree and the chip's tree with one packet limit, a rule for each node of the source, and the least map.
// Refusals: S, T, 12, 17, 24.
linduvar_pair_opened linduvar_pair_open(const uint8_t *source, size_t source_length, const uint8_t *target, size_t target_length, size_t limit,
                                        linduvar_rules rules);

// Opens the chip's tree alone. Refusals: S, T, 17, 24.
linduvar_tree_opened linduvar_chip_open(const uint8_t *source, size_t source_length, const uint8_t *target, size_t target_length, size_t limit,
                                        linduvar_rules rules);

// Pushes a packet along a path of the source. Refusals: S, 18, M, 13, 14, 15.
linduvar_tree_answer linduvar_chip_push(const uint8_t *source, size_t source_length, const uint8_t *map, size_t map_length, linduvar_tree tree,
                                        linduvar_path path, uint32_t packet);

// Pushes a packet to a leaf of the source, as linduvar_tree_push_to_leaf does. Refusals: S, 18, M, 25, 15, 23.
linduvar_tree_answer linduvar_chip_push_to_leaf(const uint8_t *source, size_t source_length, const uint8_t *map, size_t map_length,
                                                linduvar_tree tree, size_t leaf, uint8_t packet_class, uint16_t packet_length,
                                                uint32_t packet);

// Pops the packet at the head. Refusals: S, 18, M, 16.
linduvar_tree_answer linduvar_chip_pop(const uint8_t *source, size_t source_length, const uint8_t *map, size_t map_length, linduvar_tree tree);

// How many packets the tree holds. Refusals: S, 18.
linduvar_amount linduvar_chip_held(const uint8_t *source, size_t source_length, linduvar_tree tree);

// How many pushes the tree has refused by 15. Refusals: S, 18.
linduvar_amount linduvar_chip_refusals(const uint8_t *source, size_t source_length, linduvar_tree tree);

// ---- The layouts that the library has ----

#if defined(__cplusplus)
#define LINDUVAR_HOLDS(condition) static_assert(condition, #condition)
#elif defined(__STDC_VERSION__) && __STDC_VERSION__ >= 201112L
#define LINDUVAR_HOLDS(condition) _Static_assert(condition, #condition)
#else
#define LINDUVAR_HOLDS(condition) extern const char linduvar_layout_differs[(condition) ? 1 : -1]
#endif
#define LINDUVAR_SIZE(type, bytes) LINDUVAR_HOLDS(sizeof(type) == (bytes))
#define LINDUVAR_FIELD(type, field, offset) LINDUVAR_HOLDS(offsetof(type, field) == (offset))

LINDUVAR_SIZE(size_t, 8);

LINDUVAR_SIZE(linduvar_step, 16);
LINDUVAR_FIELD(linduvar_step, child, 0);
LINDUVAR_FIELD(linduvar_step, rank, 8);

LINDUVAR_SIZE(linduvar_path, 160);
LINDUVAR_FIELD(linduvar_path, steps, 0);
LINDUVAR_FIELD(linduvar_path, count, 144);
LINDUVAR_FIELD(linduvar_path, leaf_rank, 152);

LINDUVAR_SIZE(linduvar_carried, 168);
LINDUVAR_FIELD(linduvar_carried, path, 0);
LINDUVAR_FIELD(linduvar_carried, refusal, 160);

LINDUVAR_SIZE(linduvar_taken, 16);
LINDUVAR_FIELD(linduvar_taken, node, 0);
LINDUVAR_FIELD(linduvar_taken, child, 1);
LINDUVAR_FIELD(linduvar_taken, rank, 8);

LINDUVAR_SIZE(linduvar_way, 152);
LINDUVAR_FIELD(linduvar_way, taken, 0);
LINDUVAR_FIELD(linduvar_way, count, 144);

LINDUVAR_SIZE(linduvar_diagnosis, 32);
LINDUVAR_FIELD(linduvar_diagnosis, refusal, 0);
LINDUVAR_FIELD(linduvar_diagnosis, lack, 1);
LINDUVAR_FIELD(linduvar_diagnosis, node, 8);
LINDUVAR_FIELD(linduvar_diagnosis, needed, 16);
LINDUVAR_FIELD(linduvar_diagnosis, there, 24);

LINDUVAR_SIZE(linduvar_entry, 16);
LINDUVAR_FIELD(linduvar_entry, rank, 0);
LINDUVAR_FIELD(linduvar_entry, tag, 8);
LINDUVAR_FIELD(linduvar_entry, child, 9);
LINDUVAR_FIELD(linduvar_entry, packet, 12);

LINDUVAR_SIZE(linduvar_frame, 80);
LINDUVAR_FIELD(linduvar_frame, topology, 0);
LINDUVAR_FIELD(linduvar_frame, nodes, 64);
LINDUVAR_FIELD(linduvar_frame, limit, 72);

LINDUVAR_SIZE(linduvar_state, 37080);
LINDUVAR_FIELD(linduvar_state, frame, 0);
LINDUVAR_FIELD(linduvar_state, lengths, 80);
LINDUVAR_FIELD(linduvar_state, entries, 208);
LINDUVAR_FIELD(linduvar_state, refused, 37072);

LINDUVAR_SIZE(linduvar_opened, 37088);
LINDUVAR_FIELD(linduvar_opened, state, 0);
LINDUVAR_FIELD(linduvar_opened, refusal, 37080);

LINDUVAR_SIZE(linduvar_answer, 37088);
LINDUVAR_FIELD(linduvar_answer, state, 0);
LINDUVAR_FIELD(linduvar_answer, refusal, 37080);
LINDUVAR_FIELD(linduvar_answer, value, 37084);

LINDUVAR_SIZE(linduvar_popped, 37240);
LINDUVAR_FIELD(linduvar_popped, answer, 0);
LINDUVAR_FIELD(linduvar_popped, way, 37088);

LINDUVAR_SIZE(linduvar_amount, 8);
LINDUVAR_FIELD(linduvar_amount, refusal, 0);
LINDUVAR_FIELD(linduvar_amount, value, 4);

LINDUVAR_SIZE(linduvar_rule, 2);
LINDUVAR_FIELD(linduvar_rule, discipline, 0);
LINDUVAR_FIELD(linduvar_rule, weight, 1);

LINDUVAR_SIZE(linduvar_rules, 128);
LINDUVAR_FIELD(linduvar_rules, rules, 0);

LINDUVAR_SIZE(linduvar_disciplines, 1152);
LINDUVAR_FIELD(linduvar_disciplines, rules, 0);
LINDUVAR_FIELD(linduvar_disciplines, virtual_time, 128);
LINDUVAR_FIELD(linduvar_disciplines, finish, 640);

LINDUVAR_SIZE(linduvar_tree, 38232);
LINDUVAR_FIELD(linduvar_tree, state, 0);
LINDUVAR_FIELD(linduvar_tree, disciplines, 37080);

LINDUVAR_SIZE(linduvar_tree_opened, 38240);
LINDUVAR_FIELD(linduvar_tree_opened, tree, 0);
LINDUVAR_FIELD(linduvar_tree_opened, refusal, 38232);

LINDUVAR_SIZE(linduvar_tree_answer, 38240);
LINDUVAR_FIELD(linduvar_tree_answer, tree, 0);
LINDUVAR_FIELD(linduvar_tree_answer, refusal, 38232);
LINDUVAR_FIELD(linduvar_tree_answer, value, 38236);

LINDUVAR_SIZE(linduvar_pair_opened, 76504);
LINDUVAR_FIELD(linduvar_pair_opened, source, 0);
LINDUVAR_FIELD(linduvar_pair_opened, chip, 38232);
LINDUVAR_FIELD(linduvar_pair_opened, map, 76464);
LINDUVAR_FIELD(linduvar_pair_opened, refusal, 76496);

#undef LINDUVAR_FIELD
#undef LINDUVAR_SIZE
#undef LINDUVAR_HOLDS

#ifdef __cplusplus
}
#endif

#endif
