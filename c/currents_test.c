/* Envelope and Simulate through the C header: block F of document 01, a refusal of each, and a word above 32 bits. */
#include "check.h"

enum { NETS = 4 };

/* Net 2 is NOT of net 0 at contact 0, net 3 NAND of nets 1 and 2 at contact 1. */
static const uint8_t block_f[NETS * RECORD] = {
    1, 0, 0, 0, 0, 0, 0, 0, 0, 0, 0, 0, 0, 0, 0,  0, 0,  0, 15, 0,
    1, 0, 0, 0, 0, 0, 0, 0, 0, 0, 0, 0, 0, 0, 0,  0, 0,  0, 15, 0,
    8, 0, 1, 1, 0, 0, 0, 0, 0, 0, 0, 0, 1, 2, 10, 0, 20, 0, 0,  0,
    3, 1, 2, 2, 1, 0, 2, 0, 0, 0, 0, 0, 2, 2, 30, 0, 31, 0, 0,  0,
};

/* One bus node, with resistances to contacts 0 and 1. */
static const uint16_t table[CONTACTS] = {2, 1};

/* What a call is lent to write, and the answer. */
struct lent {
    zimgurav_word sheet[WORDS];
    uint8_t work[ZIMGURAV_WORK_BYTES(NETS)];
    uint64_t answer[NUMBERS];
};

static struct lent lent, untouched;

/* Fills everything that a call may write. */
static void prepare(void)
{
    memset(&untouched, 0xEE, sizeof untouched);
    lent = untouched;
}

/* Returns how many words of the sheet are not as expected: the first 8 ticks of contacts 0 and 1, and 0 elsewhere. */
static int check_sheet(const char *name, const zimgurav_word first[2][8])
{
    int wrong = 0;

    for (int contact = 0; contact < CONTACTS; contact++) {
        for (int tick = 0; tick < TICKS; tick++) {
            const uint64_t expected = contact < 2 && tick < 8 ? first[contact][tick] : 0;
            const uint64_t current = lent.sheet[TICKS * contact + tick];

            if (current != expected) {
                fprintf(stderr, "%s: %" PRIu64 " at contact %d, tick %d, not %" PRIu64 "\n", name, current, contact,
                        tick, expected);
                wrong++;
            }
        }
    }
    return wrong;
}

/* Returns 1 if a refused call has changed the sheet or the work buffer. */
static int check_untouched(const char *name)
{
    if (memcmp(lent.sheet, untouched.sheet, sizeof lent.sheet) != 0 ||
        memcmp(lent.work, untouched.work, sizeof lent.work) != 0) {
        fprintf(stderr, "%s: a buffer was changed\n", name);
        return 1;
    }
    return 0;
}

static void envelope(uint64_t hop_limit)
{
    prepare();
    zimgurav_envelope(block_f, sizeof block_f, hop_limit, table, CONTACTS, lent.sheet, WORDS, lent.work,
                      sizeof lent.work, lent.answer);
}

static void simulate(const uint8_t pattern[PATTERN])
{
    prepare();
    zimgurav_simulate(block_f, sizeof block_f, table, CONTACTS, lent.sheet, WORDS, pattern, PATTERN, lent.work,
                      sizeof lent.work, lent.answer);
}

/* The records of a full block. Net 5 has what net 0 had 254 ticks before, and nets 6 on are XOR of both: with one hop
 * they may switch at every tick from 1 to 255. They have the greatest slopes and peaks. */
static void make_full_block(uint8_t block[ZIMGURAV_BLOCK_BYTES])
{
    static const uint8_t input[RECORD] = {1, [18] = 15};
    static const uint8_t delays[] = {63, 63, 63, 63, 2};
    static const uint8_t joined[RECORD] = {6, 0, 1, 2, 0, 0, 5, 0, [12] = 127, 127, 255, 255, 255, 255};

    memcpy(block, input, RECORD);
    for (int net = 1; net <= 5; net++) {
        const uint8_t buf[RECORD] = {9, 0, delays[net - 1], 1, (uint8_t)(net - 1), [12] = 1, 1};

        memcpy(block + RECORD * net, buf, RECORD);
    }
    for (int net = 6; net < ZIMGURAV_MOST_NETS; net++) {
        memcpy(block + RECORD * net, joined, RECORD);
    }
}

/* At tick 253 each of the gates has pulses of all ages. The values of a pulse add up to 127 times its peak. */
static int check_above_32_bits(void)
{
    static uint8_t block[ZIMGURAV_BLOCK_BYTES];
    static uint8_t work[ZIMGURAV_WORK_BYTES(ZIMGURAV_MOST_NETS)];
    const uint64_t most = (uint64_t)(ZIMGURAV_MOST_NETS - 6) * 127 * 65535;
    const uint64_t expected[NUMBERS] = {0, 2 * most, 507};
    int wrong;

    prepare();
    make_full_block(block);
    zimgurav_envelope(block, sizeof block, 1, table, CONTACTS, lent.sheet, WORDS, work, sizeof work, lent.answer);
    wrong = check_numbers("envelope of a full block", lent.answer, expected);
    if (lent.sheet[253] != most || most <= UINT32_MAX) {
        fprintf(stderr, "envelope of a full block: %" PRIu64 " at tick 253, not %" PRIu64 "\n", lent.sheet[253], most);
        wrong++;
    }
    return wrong;
}

int main(void)
{
    const uint64_t of_envelope[NUMBERS] = {0, 67, 4};
    const uint64_t of_both_rise[NUMBERS] = {0, 66, 4};
    const uint64_t none[NUMBERS] = {0, 0, 0};
    const uint64_t hop_limit[NUMBERS] = {ZIMGURAV_REFUSED_HOP_LIMIT};
    const uint64_t pattern_byte[NUMBERS] = {ZIMGURAV_REFUSED_PATTERN, 1};
    const zimgurav_word ceiling[2][8] = {{0, 20, 10, 0}, {0, 16, 47, 47, 16, 0}};
    const zimgurav_word both_rise[2][8] = {{0, 20, 10, 0}, {0, 16, 46, 46, 15}};
    const zimgurav_word nothing[2][8] = {{0}, {0}};
    uint8_t pattern[PATTERN] = {3, 3};
    int wrong = 0;

    envelope(10);
    wrong += check_numbers("envelope", lent.answer, of_envelope);
    wrong += check_sheet("envelope", ceiling);

    envelope(ZIMGURAV_MOST_HOPS + 1);
    wrong += check_numbers("envelope, 17 hops", lent.answer, hop_limit);
    wrong += check_untouched("envelope, 17 hops");

    simulate(pattern);
    wrong += check_numbers("simulate, both lh", lent.answer, of_both_rise);
    wrong += check_sheet("simulate, both lh", both_rise);

    pattern[0] = pattern[1] = ZIMGURAV_H;
    simulate(pattern);
    wrong += check_numbers("simulate, both h", lent.answer, none);
    wrong += check_sheet("simulate, both h", nothing);

    pattern[1] = 4;
    simulate(pattern);
    wrong += check_numbers("simulate, byte 4", lent.answer, pattern_byte);
    wrong += check_untouched("simulate, byte 4");

    wrong += check_above_32_bits();
    return wrong != 0;
}
