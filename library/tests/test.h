/* The parts of the test of all calls. */
#ifndef TEST_H
#define TEST_H

void test_packets(void);
void test_listener(void);
void test_repairer(void);
void test_sessions(void);
void test_journal(void);
void test_ample(void);

/* Runs last: it also checks that each code was returned. */
void test_handles(void);

#endif
