/* times ROUNDS MILLISECONDS FILE..: how long a check and a read of each file take, as a run, by each reader. */
#include "turns.h"

int main(int count, char **words) {
    return measure_files(count, words, NULL);
}
