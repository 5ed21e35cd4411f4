/* diverter.h: the calls of a baggage hall's diverter package, for a controller programmer in C or C++.
 *
 * The package works on one record of a hall's net, `struct diverter_net`. The caller owns it, for instance as a
 * static variable, and lends it to each call: set_up makes a fresh net, launch starts a bag's program at a controller,
 * step lets one thread go on by one node. The words are document 01's, the build scope.
 *
 * Link with target/staticlib/libdiverter.a, which the repository's tools/staticlib proves and builds for x86-64 Linux:
 *
 *     cc -I include -o hall hall.c target/staticlib/libdiverter.a
 *
 * It needs the C library's memcpy and memset alone, and uses no heap.
 *
 * What is promised of every call:
 * - Any bytes of any length, any slot, any controller number and any record may be given, damaged or never set up: no
 *   call traps, and every call ends. Launch and step refuse a record that is not sound with 99; set_up takes any.
 * - The answer and every field of the record afterwards are exactly what the rules say. This is proved
 *   (docs/PROVED.md).
 * - A refused call leaves every field of the record as found. The lent bytes are only read.
 * - Nothing is kept between calls, not even a pointer: the record is all there is. So it may be copied, stored and
 *   lent later, and calls on different records may run at the same time. Calls on one record come one after the other.
 *
 * What a caller sees to is what C asks of any pointer: `net` points to a whole record, `bytes` to `length` bytes that
 * may be read and lie outside the record; neither is null, also where `length` is 0. And the stack needs room: a call
 * descends into a tree level by level, of which the proofs say nothing (docs/DECISIONS.md, D16). 256 KiB are enough;
 * the most that we measured is 200 KiB, at 383 repeats in each other.
 */
#ifndef DIVERTER_H
#define DIVERTER_H

#include <stddef.h>
#include <stdint.h>

#ifdef __cplusplus
extern "C" {
#endif

/* Names: 0 to 15 are actions, 16 to 31 are controllers. A net of n controllers has 16 to 15 + n. */
#define DIVERTER_NAMES 32
#define DIVERTER_FIRST_CONTROLLER 16
#define DIVERTER_MOST_CONTROLLERS 16

#define DIVERTER_SLOTS 64
#define DIVERTER_PLACES 8
#define DIVERTER_PLACE_BYTES 384

/* The longest envelopes, a program's and a set-up's, with their two length bytes. */
#define DIVERTER_LONGEST_PROGRAM 387
#define DIVERTER_LONGEST_SET_UP 772

/* The count in a policy or a slip that is no number. */
#define DIVERTER_UNLIMITED 255

/* How one controller trusts another. A controller whose trust in itself is good is trustworthy. */
enum diverter_trust {
    DIVERTER_UNKNOWN = 0,
    DIVERTER_GOOD = 1,
    DIVERTER_BAD = 2
};

/* An answer's number, and who gives it when. Where several hold, document 01, "Replies", says which comes first. */
enum diverter_reply {
    /* all: done */
    DIVERTER_DONE = 0,
    /* launch, set_up: fewer than 2 bytes, or fewer than 2 + the length that those two announce */
    DIVERTER_TOO_FEW_BYTES = 1,
    /* launch, set_up: a length outside 2..385 (set_up: 2..770), or bytes beyond 2 + length */
    DIVERTER_BAD_LENGTH = 2,
    /* launch, set_up: the version is not 1 */
    DIVERTER_BAD_VERSION = 3,
    /* launch: the bytes end before the tree is whole */
    DIVERTER_TREE_CUT = 4,
    /* launch: a byte with no meaning at its place */
    DIVERTER_NO_MEANING = 5,
    /* launch: tree bytes left over */
    DIVERTER_TREE_LEFT_OVER = 6,
    /* launch, step: code tested: honest, but a need doesn't fit the policy */
    DIVERTER_NEED_DOES_NOT_FIT = 7,
    /* launch, step: code tested: not honest, since something carried needs more than its slip says */
    DIVERTER_NOT_HONEST = 8,
    /* launch, step: no free slot where one is needed */
    DIVERTER_NO_FREE_SLOT = 9,
    /* launch: no free place */
    DIVERTER_NO_FREE_PLACE = 10,
    /* step: a slot above 63, or a free one */
    DIVERTER_NO_THREAD = 11,
    /* step: slip compared: a count doesn't fit the target's policy */
    DIVERTER_SLIP_DOES_NOT_FIT = 12,
    /* step: a departure to the controller that the thread is at */
    DIVERTER_ALREADY_THERE = 13,
    /* set_up: n outside 1..16, a length that doesn't fit n, or a trust byte above 2 */
    DIVERTER_BAD_SET_UP = 14,
    /* set_up: not coherent: a trustworthy controller's trust in another is neither unknown nor that one's in itself */
    DIVERTER_NOT_COHERENT = 15,
    /* launch, step: no such controller in this net */
    DIVERTER_NO_SUCH_CONTROLLER = 16,
    /* launch, step: the record is not sound; this comes before all else */
    DIVERTER_NOT_SOUND = 99
};

/* A slot for a thread. Where controller is 0 the slot is free, and all of it is 0. */
struct diverter_thread {
    /* the place of its program, 0 to 7, and the position there, 0 to 383 */
    uint8_t place;
    uint16_t position;
    /* where it stands */
    uint8_t controller;
    /* its stay's pass: the threads of one stay have the same, those of different stays never */
    uint16_t pass;
};

/* The record, 4,356 bytes. Begin with all zeros or anything else: set_up makes a net of it. Fields may be read between
 * calls. The padding means nothing and may change in any call, so compare records field by field, and not by memcmp. */
struct diverter_net {
    /* how many controllers; 0 before a set-up of a record of zeros */
    uint8_t n;
    /* the trust of controller k in l, at 16 * (k - 16) + (l - 16): enum diverter_trust; zero beyond n */
    uint8_t trust[DIVERTER_MOST_CONTROLLERS * DIVERTER_MOST_CONTROLLERS];
    /* how often controller k allows a name, at 32 * (k - 16) + name; zero beyond n */
    uint8_t policies[DIVERTER_MOST_CONTROLLERS * DIVERTER_NAMES];
    struct diverter_thread threads[DIVERTER_SLOTS];
    /* the trees, place p's from 384 * p on, each followed by zeros; a place that no thread uses is free */
    uint8_t places[DIVERTER_PLACES * DIVERTER_PLACE_BYTES];
    /* the last pass issued: 65,535 after a set-up, so that the first is 0 */
    uint16_t last;
};

/* A field of an answer: present is 1 where it is there; where it is absent both are 0. */
struct diverter_field {
    uint8_t present;
    uint16_t value;
};

/* What a call answers. Beyond its number a refusal is all zero. */
struct diverter_answer {
    /* enum diverter_reply */
    uint8_t number;
    /* how many passes were passed over, since running threads carry them; 0 where no pass is issued */
    uint8_t over;
    /* done steps: the pass of the stay that acted, and its controller, both as before a move; done launches have the
     * controller too */
    struct diverter_field pass;
    struct diverter_field controller;
    /* the name that was used, by an act its action, by a departure its target */
    struct diverter_field name;
    /* the new pass, of a launch or a departure */
    struct diverter_field fresh;
};

/* Makes a fresh net of any record. The bytes: two for the length of what follows, big-endian; version 1; n; n * n
 * trust bytes row by row (row: who trusts); n * 32 counts. Answers 0, 1, 2, 3, 14 or 15. */
struct diverter_answer diverter_set_up(struct diverter_net *net, const uint8_t *bytes, size_t length);

/* Starts a program at controller `at`. The bytes: two for the length of what follows, big-endian; version 1; the tree.
 * A trustworthy controller tests the code against its policy, another lets it in. Where done, the lowest free slot has
 * a thread at the tree's root, the tree stands in the lowest free place, and `fresh` is its pass. Answers 0 to 10, 16
 * or 99. */
struct diverter_answer diverter_launch(struct diverter_net *net, uint8_t at, const uint8_t *bytes, size_t length);

/* Lets the thread in a slot go on by one node: an end frees the slot, an act uses its action, a split or a repeat
 * starts a thread in the lowest free slot, a departure moves to its target if that lets it in. Refused, the thread
 * waits where it is and may be stepped again. Answers 0, 7, 8, 9, 11, 12, 13, 16 or 99. */
struct diverter_answer diverter_step(struct diverter_net *net, size_t slot);

#ifdef __cplusplus
}
#endif

#endif
