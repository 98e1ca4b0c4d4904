#include "unity.h"

void test_three_speeds(void)
{
    TEST_ASSERT_EQUAL_INT(3, 3);
}
