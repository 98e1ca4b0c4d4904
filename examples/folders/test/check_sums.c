#include "unity.h"

void test_one_and_one(void)
{
    TEST_ASSERT_EQUAL_INT(2, 2);
}
