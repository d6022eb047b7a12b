/* The version and Read through the C header: block S of document 01, two refused blocks and the empty file. */
#include "check.h"

/* Reads a file. Returns how many of the eight numbers are not as expected. */
static int check(const char *name, const uint8_t *file, size_t length, const uint64_t expected[NUMBERS])
{
    uint64_t answer[NUMBERS];

    memset(answer, 0xEE, sizeof answer);
    zimgurav_read(file, length, answer);
    return check_numbers(name, answer, expected);
}

int main(void)
{
    const uint64_t counts[NUMBERS] = {0, 3, 1};
    const uint64_t out_of_range[NUMBERS] = {ZIMGURAV_REFUSED_RANGE, 2};
    const uint64_t ragged[NUMBERS] = {ZIMGURAV_REFUSED_LENGTH};
    const uint64_t no_record[NUMBERS] = {ZIMGURAV_REFUSED_FIRST};
    uint8_t without_delay[sizeof block_s];
    int wrong = 0;

    if (zimgurav_version() != ZIMGURAV_VERSION) {
        fprintf(stderr, "version %" PRIu64 " of the library, %d of the header\n", zimgurav_version(), ZIMGURAV_VERSION);
        wrong++;
    }
    memcpy(without_delay, block_s, sizeof block_s);
    without_delay[2 * RECORD + 2] = 0;

    wrong += check("block S", block_s, sizeof block_s, counts);
    wrong += check("block S, net 2 without a delay", without_delay, sizeof without_delay, out_of_range);
    wrong += check("block S, one byte short", block_s, sizeof block_s - 1, ragged);
    wrong += check("empty file", block_s, 0, no_record);
    return wrong != 0;
}
