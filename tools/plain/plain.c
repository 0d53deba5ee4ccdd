/* The SmallWood commitment over the field of 2^32 - 5 elements in plain C: what the library is measured
 * against. One translation unit, so that copies under several prefixes can be linked into one program. The
 * hash is OpenSSL's with -DPLAIN_OPENSSL, otherwise keccak.c's; plain.h has the other choices. */
#include "plain.h"

#include "any_points.h"
#include "check.h"
#include "commit.h"
#include "open.h"
#include "proof.h"
#include "question.h"

uint32_t PLAIN(reply_length)(const uint8_t *question, size_t question_bytes, uint64_t *length)
{
    struct question q;
    uint32_t number = read_question(question, question_bytes, &q);

    if (number != 0)
        return number;
    *length = exact_size(&q);
    return 0;
}

uint32_t PLAIN(permutations)(const uint8_t *question, size_t question_bytes, uint64_t *count)
{
    struct question q;
    uint32_t number = read_question(question, question_bytes, &q);

    if (number != 0)
        return number;
    *count = hashing_work(&q);
    return 0;
}
