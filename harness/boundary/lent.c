#include <string.h>

#include "parts.h"

void lend(const struct input *in) {
    memcpy(in->lent.state, in->state, sizeof in->state);
    memcpy(in->lent.set, in->set, sizeof in->set);
    for (int i = 0; i < 4; i++) in->lent.answer[i] = UNTOUCHED;
    for (int i = 0; i < 3; i++) *in->lent.numbers[i] = UNTOUCHED;
}

bool state_is_kept(const struct input *in) { return memcmp(in->lent.state, in->state, sizeof in->state) == 0; }

void check_kept(const struct input *in) {
    static const int kept[] = {PAWHETINO_STATE_LO, PAWHETINO_STATE_HI, PAWHETINO_STATE_KEPT, PAWHETINO_STATE_EDITION};
    promise(in, in->len == 0 || memcmp(in->s, in->s_copy, in->len) == 0, "the buffer stays as it is");
    promise(in, in->cells == 0 || memcmp(in->ends, in->ends_copy, in->cells * sizeof *in->ends) == 0,
            "the ends stay as they are");
    promise(in, memcmp(in->lent.set, in->set, sizeof in->set) == 0, "the set stays as it is");
    for (int i = 0; i < 4; i++)
        promise(in, in->lent.state[kept[i]] == in->state[kept[i]], "words 0, 1, 6 and 7 of the state stay as they are");
}
