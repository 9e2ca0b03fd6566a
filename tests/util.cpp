// The helpers from C++: their offsets are constant expressions there.
#include "solfadrus_util.h"

static_assert(MQ_OFFSET_QS1(2, 1, 1, 1, 8) == 28, "the toy's QS1 is the last of its 29 bytes");

int main()
{
    uint8_t key[MQ_KEY_SIZE(2, 1, 1, 1, 8)] = { 2, 0, 1, 0, 1, 0, 1, 0, 2, 0, 0, 0, 2, 0, 1, 0, 0, 0, 1, 1, 0, 0, 0, 0 };
    const uint8_t witness[] = { 1 };
    mq_sizes sizes;
    const uint32_t degree = 4;
    if (!mq_key_sizes(key, sizeof key, &sizes) || sizes.n != 2)
        return 1;
    if (MQ_NUMBER(mq_test(key, sizeof key, degree, witness, sizeof witness)) != MQ_REFUSED_EQUATION_FAILS)
        return 1;
    if (!mq_make_y(key, sizeof key, witness, sizeof witness))
        return 1;
    mq_burn_stack();
    return mq_test(key, sizeof key, degree, witness, sizeof witness) == MQ_ACCEPTED ? 0 : 1;
}
