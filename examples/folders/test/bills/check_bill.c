#include "unity.h"

void should_be_paid_in_full(void)
{
    TEST_ASSERT_EQUAL_INT(41, 41);
}
