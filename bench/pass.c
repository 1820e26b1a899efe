/* pass ROUNDS MILLISECONDS FILE..: how long a check and a read of each file take, as a run, by each reader; and the
   UTF-8 pass alone, by these and by Rust's library. */
#include "turns.h"

static void measure_pass(Input *in, uint8_t *bytes, Pace pace) {
    in->length = spoil(bytes, in->length);
    for (int i = 0; i < PASSES; i++) assert_answer(&readers[i], PASS, in);
    measure(PASSES, PASS, in, 0, pace);
}

int main(int count, char **words) {
    return measure_files(count, words, measure_pass);
}
