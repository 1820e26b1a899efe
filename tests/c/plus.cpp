// The header from C++: every function is called, under its C name. Returns how many answers were wrong.
#include <lorikvar.h>

extern "C" int test_from_cplusplus();

int test_from_cplusplus()
{
    const uint8_t input[] = {'<', 'a', '/', '>'};
    const size_t words = 3 * LORIKVAR_ROW_WORDS;
    uint32_t table[words] = {};
    size_t values[LORIKVAR_VALUES] = {};
    size_t part[LORIKVAR_PART] = {};
    int wrong = 0;
    wrong += lorikvar_check_stage(input, 4, values) != LORIKVAR_ACCEPTED || values[0] != 3;
    wrong += lorikvar_check_run(input, 2, values) != LORIKVAR_REFUSAL_END_OF_INPUT || values[0] != 2;
    wrong += lorikvar_read_run(input, 4, table, words - 1, values) != LORIKVAR_REFUSAL_TABLE_TOO_SMALL || table[0] != 0;
    wrong += lorikvar_read_stage(input, 4, table, words, values) != LORIKVAR_ACCEPTED;
    wrong += table[LORIKVAR_WORD_KIND] != LORIKVAR_KIND_ELEMENT || table[LORIKVAR_WORD_PARENT] != LORIKVAR_NO_PARENT;
    wrong += table[2 * LORIKVAR_ROW_WORDS + LORIKVAR_WORD_DEPTH] != 2;
    wrong += !lorikvar_record_bytes(input, 4, table, words, 3, 2, part) || part[0] != 1 || part[1] != 2;
    wrong += lorikvar_span_bytes(input, 4, 3, 2, part) || part[0] != 0 || part[1] != 0;
    return wrong;
}
