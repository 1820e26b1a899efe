/* Calls every function of the library and checks what it says; the last line counts the checks. */
#include "check.h"

int test_from_cplusplus(void);

int main(void)
{
    test_accepted();
    test_refused();
    test_tables();
    test_parts();
    test_lent();
    test_threads();
    test_stack();
    about("calls from C++");
    CHECK(test_from_cplusplus() == 0);
    return verdict();
}
