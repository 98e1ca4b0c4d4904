#include "unity.h"

/* The sum of the numbers from 1 to n. */
static int sum_to(int n)
{
    int sum = 0;
    int i = 0;
    while (i < n)
    {
        i = i + 1;
        sum = sum + i;
    }
    return sum;
}

/* The same by calls: at most 64 levels may nest. */
static int sum_by_calls(int n)
{
    if (n < 1)
        return 0;
    return n + sum_by_calls(n - 1);
}

static int sign(int n)
{
    if (n < 0)
        return 0 - 1;
    if (0 < n)
        return 1;
}

void setUp(void)
{
}

void tearDown(void)
{
}

void test_sums_agree(void)
{
    int n = 0;
    while (n < 20)
    {
        TEST_ASSERT_EQUAL_INT(sum_to(n), sum_by_calls(n));
        n = n + 1;
    }
}

void test_a_failed_comparison(void)
{
    TEST_ASSERT_EQUAL_INT(56, sum_to(10));
}

void test_signed_overflow(void)
{
    int most = 2147483647;
    most = most + 1;
}

void test_uninitialised(void)
{
    int total;
    TEST_ASSERT_EQUAL_INT(0, total);
}

void test_missing_return(void)
{
    TEST_ASSERT_EQUAL_INT(1, sign(5));
    TEST_ASSERT_EQUAL_INT(0, sign(0));
}

void test_call_depth(void)
{
    TEST_ASSERT_EQUAL_INT(5050, sum_by_calls(100));
}

void test_step_budget(void)
{
    int i = 0;
    while (0 < 1)
        i = 1 - i;
}
