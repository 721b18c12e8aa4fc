/* Uses the names of version 0.1, as a program does that was written for it.
 *
 *     cd library/tests && cc -std=c99 old_names.c ../out/libmold.a -o old_names && ./old_names */
#define CHECK_MAIN
#include "check.h"

static void codes(void) {
    CHECK(MOLD_SHORT == MOLD_E_SHORT);
    CHECK(MOLD_BLOCK_CUT == MOLD_E_BLOCK_CUT);
    CHECK(MOLD_TRAILING == MOLD_E_TRAILING);
    CHECK(MOLD_LIMIT == MOLD_E_LIMIT);
    CHECK(MOLD_FULL == MOLD_E_FULL);
    CHECK(MOLD_BROKEN == MOLD_E_BROKEN);
    CHECK(MOLD_MEMORY == MOLD_E_MEMORY);
    CHECK(MOLD_WRONG_SESSION == MOLD_E_WRONG_SESSION);
    CHECK(MOLD_SEQUENCE_ZERO == MOLD_E_SEQUENCE_ZERO);
    CHECK(MOLD_PAST_LAST == MOLD_E_PAST_LAST);
    CHECK(MOLD_END_CONFLICT == MOLD_E_END_CONFLICT);
    CHECK(MOLD_END_BELOW == MOLD_E_END_BELOW);
    CHECK(MOLD_PAST_END == MOLD_E_PAST_END);
    CHECK(MOLD_CONFLICT == MOLD_E_CONFLICT);
    CHECK(MOLD_LINE == MOLD_E_LINE);
    CHECK(MOLD_NEXT_ZERO == MOLD_E_NEXT_ZERO);
    CHECK(MOLD_WINDOW == MOLD_E_WINDOW);
    CHECK(MOLD_ABSENT == MOLD_E_ABSENT);
    CHECK(MOLD_CLOSED == MOLD_E_CLOSED);
    CHECK(MOLD_TOO_LONG == MOLD_E_TOO_LONG);
    CHECK(MOLD_NUMBERS == MOLD_E_NUMBERS);
    CHECK(MOLD_UNSENT == MOLD_E_UNSENT);
    CHECK(MOLD_ROOM == MOLD_E_ROOM);
    CHECK(MOLD_REQUEST_LENGTH == MOLD_E_REQUEST_LENGTH);
    CHECK(MOLD_EMPTY_REQUEST == MOLD_E_EMPTY_REQUEST);
    CHECK(MOLD_AHEAD == MOLD_E_AHEAD);
    CHECK(MOLD_BURST == MOLD_E_BURST);
    CHECK(MOLD_FILE_SHORT == MOLD_E_FILE_SHORT);
    CHECK(MOLD_BAD_MAGIC == MOLD_E_BAD_MAGIC);
    CHECK(MOLD_BAD_FLAG == MOLD_E_BAD_FLAG);
    CHECK(MOLD_FILE_CUT == MOLD_E_FILE_CUT);
    CHECK(MOLD_COUNT_DIFFERS == MOLD_E_COUNT_DIFFERS);
    CHECK(MOLD_DAMAGED == MOLD_E_DAMAGED);
}

static void texts(void) {
    for (uint32_t code = 0; code < 100; code++) {
        mold_bytes text = MOLD_NO_BYTES;
        mold_text(code, &text);
        CHECK(text.length == strlen(mold_code_text(code)) && memcmp(text.at, mold_code_text(code), text.length) == 0);
    }
}

/* The initial values of the structs are those of 0.1. */
static void listeners(void) {
    mold_listener listener = listener_at(1, 4);
    mold_told told = {0, 0, 0, 0, 0};
    mold_heard heard = {0, 0, 0, 0, 0, 0};
    datagram given[] = {packet_of(3, 9, 2), packet_of(1, 1, 2), packet_of(2, 1, 2)};
    CODE(mold_listener_take(&listener, MOLD_LINE_A, given[0].at, given[0].length, &told), MOLD_DONE);
    CHECK(told.detail == 0 && told.handed == 0 && told.kept == 2 && told.beyond == 7);
    CODE(mold_listener_take(&listener, MOLD_LINE_A, given[0].at, 19, &told), MOLD_SHORT);
    CHECK(told.detail == 19 && told.kept == 0 && told.beyond == 0);
    CODE(mold_listener_hear(&listener, MOLD_LINE_B, given[1].at, given[1].length, &heard), MOLD_DONE);
    CHECK(heard.detail == 0 && heard.offset == 20 && heard.own == 1 && heard.stored == 0);
    CODE(mold_listener_hear(&listener, MOLD_LINE_B, given[0].at, given[0].length, &heard), MOLD_DONE);
    CHECK(heard.own == 0 && heard.kept == 1 && heard.beyond == 6);
    CODE(mold_listener_take(&listener, MOLD_ANSWER, given[2].at, given[2].length, &told), MOLD_DONE);
    CHECK(told.handed == 4 && told.beyond == 0);
    for (size_t i = 0; i < 3; i++)
        free(given[i].at);
    mold_free(&listener);
}

int main(void) {
    codes();
    texts();
    listeners();
    return report_checks();
}
