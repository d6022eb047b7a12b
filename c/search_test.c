/* Search through the C header: block S of document 01 with each outcome, and a refusal. */
#include "check.h"

/* The upper number of a case stands after its sets. */
enum { NETS = 3, BUDGET = 200, UPPER = 64 };

/* One bus node, with a resistance to contact 0. */
static const uint16_t table[CONTACTS] = {1};

/* The list of the one input. */
static const uint8_t order[] = {0};

/* What a call is lent to write, and the answer. */
struct lent {
    zimgurav_word sheet[WORDS];
    uint8_t pattern[PATTERN];
    uint8_t work[ZIMGURAV_WORK_BYTES(NETS)];
    uint8_t store[ZIMGURAV_STORE_BYTES(BUDGET)];
    uint64_t answer[NUMBERS];
};

static struct lent lent, untouched;

/* Searches block S, with everything that a call may write filled before. */
static void search(uint64_t ratio, uint64_t budget)
{
    memset(&untouched, 0xEE, sizeof untouched);
    lent = untouched;
    zimgurav_search(block_s, sizeof block_s, 10, table, CONTACTS, ratio, budget, order, sizeof order, lent.sheet, WORDS,
                    lent.pattern, PATTERN, lent.work, sizeof lent.work, lent.store, sizeof lent.store, lent.answer);
}

/* Returns how many words of the sheet are not as expected: `current` at contact 0, tick 1, and 0 elsewhere. */
static int check_sheet(const char *name, zimgurav_word current)
{
    int wrong = 0;

    for (int word = 0; word < WORDS; word++) {
        const uint64_t expected = word == 1 ? current : 0;
        const uint64_t found = lent.sheet[word];

        if (found != expected) {
            fprintf(stderr, "%s: word %d of the sheet is %" PRIu64 ", not %" PRIu64 "\n", name, word, found, expected);
            wrong++;
        }
    }
    return wrong;
}

/* Returns 1 if the bytes of a buffer are not as expected. */
static int check_bytes(const char *name, const char *buffer, const void *bytes, const void *expected, size_t length)
{
    if (memcmp(bytes, expected, length) != 0) {
        fprintf(stderr, "%s: the %s is not as expected\n", name, buffer);
        return 1;
    }
    return 0;
}

/* Checks that the pattern is lh at net 0 and unchanged past it. */
static int check_pattern(const char *name)
{
    uint8_t expected[PATTERN];

    memcpy(expected, untouched.pattern, PATTERN);
    expected[0] = 3;
    return check_bytes(name, "pattern", lent.pattern, expected, PATTERN);
}

/* Checks that the store has these cases, by the set of net 0 and the upper number, and is unchanged past them. */
static int check_store(const char *name, const uint8_t cases[][2], size_t count)
{
    uint8_t expected[sizeof lent.store];

    memcpy(expected, untouched.store, sizeof expected);
    memset(expected, 0, CASE * count);
    for (size_t i = 0; i < count; i++) {
        expected[CASE * i] = cases[i][0];
        expected[CASE * i + UPPER] = cases[i][1];
    }
    return check_bytes(name, "store", lent.store, expected, sizeof expected);
}

/* Returns how many buffers a refused call has changed. */
static int check_untouched(const char *name)
{
    return check_bytes(name, "sheet", lent.sheet, untouched.sheet, sizeof lent.sheet) +
           check_bytes(name, "pattern", lent.pattern, untouched.pattern, sizeof lent.pattern) +
           check_bytes(name, "work buffer", lent.work, untouched.work, sizeof lent.work) +
           check_bytes(name, "store", lent.store, untouched.store, sizeof lent.store);
}

/* Searches, and checks the answer, the current at tick 1, the pattern and the cases in the store. */
static int check_search(const char *name, uint64_t ratio, uint64_t budget, const uint64_t *numbers,
                        zimgurav_word current, const uint8_t cases[][2], size_t count)
{
    search(ratio, budget);
    return check_numbers(name, lent.answer, numbers) + check_sheet(name, current) + check_pattern(name) +
           check_store(name, cases, count);
}

int main(void)
{
    const uint64_t exact[NUMBERS] = {0, ZIMGURAV_EXACT, 10, 10, 1, 4, 1};
    const uint64_t within[NUMBERS] = {0, ZIMGURAV_WITHIN, 20, 10, 0, 1, 1};
    const uint64_t spent[NUMBERS] = {0, ZIMGURAV_SPENT, 20, 10, 0, 1, 1};
    const uint64_t budget[NUMBERS] = {ZIMGURAV_REFUSED_BUDGET};
    const uint8_t whole_frame[][2] = {{15, 20}};
    const uint8_t l_h_hl_lh[][2] = {{1, 0}, {2, 0}, {4, 10}, {8, 10}};
    int wrong = 0;

    wrong += check_search("budget 200", 1000, BUDGET, exact, 10, l_h_hl_lh, 4);
    wrong += check_search("ratio 2,000", 2000, 0, within, 20, whole_frame, 1);
    wrong += check_search("ratio 1,999", 1999, 0, spent, 20, whole_frame, 1);

    search(1000, ZIMGURAV_MOST_BUDGET + 1);
    wrong += check_numbers("budget 10,001", lent.answer, budget);
    wrong += check_untouched("budget 10,001");
    return wrong != 0;
}
