/* Tests every call of the library, and every code, with expected values that were written by hand.
 *
 *     cd library/tests
 *     cc -std=c99 test.c packets.c listener.c repairer.c sessions.c journal.c ample.c handles.c
 *        ../out/libmold.a -o test
 *     ./test */
#define CHECK_MAIN
#include "check.h"
#include "test.h"

int main(void) {
    test_packets();
    test_listener();
    test_repairer();
    test_sessions();
    test_journal();
    test_ample();
    test_handles();
    return report_checks();
}
