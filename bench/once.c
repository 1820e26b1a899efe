/* once READER CALL FILE: one call on a file, as a run, for counters of instructions. READER is a name of readers.h,
   CALL pass, check or read; READER none makes no call, which gives what the program itself costs. */
#include "calls.h"

static uint8_t room[INPUT_LIMIT + 1];

int main(int count, char **words) {
    int call = 0;
    if (count != 4) fail("once", "READER CALL FILE");
    while (call < CALLS && strcmp(words[2], call_names[call])) call++;
    if (call == CALLS) fail("no such call", words[2]);
    Input in = {words[3], room, load(words[3], room), 1};
    if (call == PASS) in.length = spoil(room, in.length);
    for (int i = 0; i < READERS; i++)
        if (strcmp(words[1], readers[i].name) == 0) assert_answer(&readers[i], call, &in);
    return 0;
}
