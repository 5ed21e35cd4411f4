/* The layout and numbers of include/diverter.h as a C compiler sees them; the test program holds its own to them. */
#include "diverter.h"

#ifdef __cplusplus
extern "C" {
#endif

size_t diverter_layout(size_t which);

static const size_t sizes_and_offsets[] = {
    sizeof(struct diverter_net),
    offsetof(struct diverter_net, n),
    offsetof(struct diverter_net, trust),
    offsetof(struct diverter_net, policies),
    offsetof(struct diverter_net, threads),
    offsetof(struct diverter_net, places),
    offsetof(struct diverter_net, last),
    sizeof(struct diverter_thread),
    offsetof(struct diverter_thread, place),
    offsetof(struct diverter_thread, position),
    offsetof(struct diverter_thread, controller),
    offsetof(struct diverter_thread, pass),
    sizeof(struct diverter_answer),
    offsetof(struct diverter_answer, number),
    offsetof(struct diverter_answer, over),
    offsetof(struct diverter_answer, pass),
    offsetof(struct diverter_answer, controller),
    offsetof(struct diverter_answer, name),
    offsetof(struct diverter_answer, fresh),
    sizeof(struct diverter_field),
    offsetof(struct diverter_field, present),
    offsetof(struct diverter_field, value),
    DIVERTER_LONGEST_PROGRAM,
    DIVERTER_LONGEST_SET_UP,
    DIVERTER_TOO_FEW_BYTES,
    DIVERTER_BAD_LENGTH,
    DIVERTER_BAD_VERSION,
    DIVERTER_TREE_CUT,
    DIVERTER_NO_MEANING,
    DIVERTER_TREE_LEFT_OVER,
    DIVERTER_NEED_DOES_NOT_FIT,
    DIVERTER_NOT_HONEST,
    DIVERTER_NO_FREE_SLOT,
    DIVERTER_NO_FREE_PLACE,
    DIVERTER_NO_THREAD,
    DIVERTER_SLIP_DOES_NOT_FIT,
    DIVERTER_ALREADY_THERE,
    DIVERTER_BAD_SET_UP,
    DIVERTER_NOT_COHERENT,
    DIVERTER_NO_SUCH_CONTROLLER,
    DIVERTER_NOT_SOUND
};

/* Behind the last it gives a number that no layout has, so that neither side can have more than the other. */
size_t diverter_layout(size_t which)
{
    if (which >= sizeof sizes_and_offsets / sizeof sizes_and_offsets[0]) {
        return SIZE_MAX;
    }
    return sizes_and_offsets[which];
}

#ifdef __cplusplus
}
#endif
