#include "unity.h"
void test_two(void)
{
TEST_ASSERT_EQUAL_INT(2, 2);
}
