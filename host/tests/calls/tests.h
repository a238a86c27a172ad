// The parts of the test.
#ifndef TESTS_H
#define TESTS_H

void test_header(void);
void test_table(void);
void test_known(void);
void test_refusals(void);
void test_flips(void);
void test_histories(void);
void test_in_place(void);
void test_known_plans(void);
void test_plans(void);
void test_orders(void);
void test_puts(void);
void test_known_journals(void);
void test_journals(void);
void test_cuts(void);

#endif
