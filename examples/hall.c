/* A hall of three controllers, its bags, and what happens: the calls as a controller programmer writes them in C.
 * tools/staticlib, then: cc -I include -o hall examples/hall.c target/staticlib/libdiverter.a */
#include <diverter.h>
#include <stdio.h>
#include <string.h>

/* The names of this hall. */
enum { START_BELT = 0, PUSH = 1, OPEN_GATE = 2, ENTRANCE = 16, SORTER = 17, PIER = 18 };

enum { CONTROLLERS = 3, TRUST = CONTROLLERS * CONTROLLERS, BODY = 2 + TRUST + 32 * CONTROLLERS };

/* Static: the record is the hall, and outlives every call. */
static struct diverter_net net;
static uint8_t hall[2 + BODY];

static void allow(int controller, int name, uint8_t times)
{
    hall[4 + TRUST + 32 * (controller - ENTRANCE) + name] = times;
}

static void show(const char *what, struct diverter_answer answer)
{
    printf("%s: %u", what, answer.number);
    if (answer.controller.present) printf(", at %u", answer.controller.value);
    if (answer.name.present) printf(", used %u", answer.name.value);
    if (answer.fresh.present) printf(", new pass %u", answer.fresh.value);
    putchar('\n');
}

static void launch(const char *what, const uint8_t *program, size_t length)
{
    show(what, diverter_launch(&net, ENTRANCE, program, length));
}

int main(void)
{
    hall[1] = BODY;
    hall[2] = 1;
    hall[3] = CONTROLLERS;
    memset(hall + 4, DIVERTER_GOOD, TRUST);
    allow(ENTRANCE, START_BELT, 2);
    allow(ENTRANCE, SORTER, 1);
    allow(SORTER, PUSH, 1);
    allow(SORTER, PIER, 1);
    allow(PIER, OPEN_GATE, 1);
    show("set-up", diverter_set_up(&net, hall, sizeof hall));

    /* Starts the belt, goes to the sorter to push once and on to the pier to open the gate. Each slip says what the
     * carried program needs there. */
    static const uint8_t good[] = {
        0, 20, 1, 1, START_BELT, 4, SORTER, 2, PUSH, 1, PIER, 1, 1, PUSH, 4, PIER, 1, OPEN_GATE, 1, 1, OPEN_GATE, 0,
    };
    launch("a bag", good, sizeof good);

    /* Pushes twice at the sorter, though its slip says once. */
    static const uint8_t dishonest[] = {0, 11, 1, 4, SORTER, 1, PUSH, 1, 1, PUSH, 1, PUSH, 0};
    launch("a bag with a false slip", dishonest, sizeof dishonest);

    /* Starts the belt three times, where two are allowed. */
    static const uint8_t greedy[] = {0, 8, 1, 1, START_BELT, 1, START_BELT, 1, START_BELT, 0};
    launch("a bag that wants too much", greedy, sizeof greedy);

    struct diverter_answer answer;
    do {
        answer = diverter_step(&net, 0);
        show("step", answer);
    } while (answer.number == DIVERTER_DONE);
    return 0;
}
