/* same < ITEMS: holds the readers against each other on every item of a batch, with a table that has room for all, one that has
   just room, and one that is a word short. An item is `s` or `r`, its length in 4 bytes, low byte first, and its bytes. */
#include "equal.h"

static uint8_t room[INPUT_LIMIT + 1];

/* 0 at the end of the items. */
static int next(Input *in) {
    int reading = getchar();
    if (reading == EOF) return 0;
    size_t length = 0;
    for (int i = 0; i < 4; i++) length |= (size_t)(getchar() & 255) << (8 * i);
    if ((reading != 's' && reading != 'r') || length > sizeof room) fail("bad item", "standard input");
    if (fread(room, 1, length, stdin) != length) fail("short item", "standard input");
    *in = (Input){"an item", room, length, reading == 'r'};
    return 1;
}

int main(void) {
    Input in;
    size_t items = 0, accepted = 0;
    for (; next(&in); items++) {
        Answer answer = assert_equal(&in, ROW * in.length + ROW - 1);
        if (answer.number) continue;
        accepted++;
        if (answer.values[0] == 0) continue;
        if (assert_equal(&in, ROW * answer.values[0]).number != 0) fail("a table with just room is refused", in.name);
        if (assert_equal(&in, ROW * answer.values[0] - 1).number != 15) fail("a short table is taken", in.name);
    }
    printf("%zu items, %zu accepted: %d readers agree\n", items, accepted, READERS);
    return 0;
}
