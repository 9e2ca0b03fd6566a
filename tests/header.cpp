// The header compiles as C++, its macros are constant expressions there, and its functions link by their C names.
#include "solfadrus.h"

static_assert(MQ_PROOF_SIZE(2, 1, 1, 1, 8) == 29, "the toy's proof has 29 bytes");
static_assert(MQ_NUMBER(MQ_ACCEPTED) == 0 && MQ_PLACE(MQ_ACCEPTED) == 0, "accepted is 0");

int main()
{
    uint32_t (*const calls_with_output[])(const uint8_t *, size_t, uint32_t, const uint8_t *, size_t,
                                          const uint8_t *, size_t, uint8_t *, size_t) = { mq_commit, mq_hash };
    const uint32_t degrees[] = { 8, 4, 5 };
    for (uint32_t degree : degrees) {
        const uint32_t number = degree == 5 ? MQ_REFUSED_DEGREE_UNSERVED : MQ_REFUSED_SHORT_HEADER;
        for (auto call : calls_with_output)
            if (MQ_NUMBER(call(nullptr, 0, degree, nullptr, 0, nullptr, 0, nullptr, 0)) != number)
                return 1;
        if (MQ_NUMBER(mq_verify(nullptr, 0, degree, nullptr, 0, nullptr, 0, nullptr, 0, nullptr, 0, nullptr, 0))
            != number)
            return 1;
    }
    return mq_version() == MQ_VERSION ? 0 : 1;
}
