#include "unity.h"

void test_sum_of_the_bill(void)
{
    TEST_ASSERT_EQUAL_INT(12, 12);
    TEST_ASSERT_EQUAL_INT(40, 41);
}
