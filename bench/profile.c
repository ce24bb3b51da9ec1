/* profile SOURCE LABEL: one call of mpt_match, for bench/profile to count. */
#include <string.h>
#include "mpt.h"

static uint8_t scratch[MPT_SCRATCH_MAX];

int main(int argc, char **argv) {
    uint8_t table[MPT_TABLE_MAX], parts[MPT_PARTS_MAX], answer[MPT_ANSWER_SIZE];
    if (argc != 3 || mpt_compile((const uint8_t *)argv[1], strlen(argv[1]), table, sizeof table, answer, sizeof answer) != 0) {
        return 2;
    }
    size_t length = (size_t)mpt_answer_value(answer);
    return (int)mpt_match(table, length, (const uint8_t *)argv[2], strlen(argv[2]), scratch, sizeof scratch,
                          parts, sizeof parts, UINT64_MAX, answer, sizeof answer);
}
