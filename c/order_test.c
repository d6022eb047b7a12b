/* The makers of a list of inputs through the C header, a search with each of their lists, and the refusals of a maker
 * and of a wrong list. */
#include "check.h"

enum { NETS = 7, BUDGET = 1, UNUSED = 0xEE };

/* Nets 2 and 3 are BUF and NOT of net 0, and each draws current where it rises. Nets 4 to 6 are BUF of net 1, and draw
 * none. So net 1 has more gates in its cone, and a split at net 0 lowers the bound more. */
static const uint8_t block[NETS * RECORD] = {
    1, 0, 0, 0, 0, 0, 0, 0, 0, 0, 0, 0, 0, 0, 0,  0, 0, 0, 15, 0,
    1, 0, 0, 0, 0, 0, 0, 0, 0, 0, 0, 0, 0, 0, 0,  0, 0, 0, 15, 0,
    9, 0, 1, 1, 0, 0, 0, 0, 0, 0, 0, 0, 1, 1, 10, 0, 0, 0, 0,  0,
    8, 0, 1, 1, 0, 0, 0, 0, 0, 0, 0, 0, 1, 1, 10, 0, 0, 0, 0,  0,
    9, 0, 1, 1, 1, 0, 0, 0, 0, 0, 0, 0, 1, 1, 0,  0, 0, 0, 0,  0,
    9, 0, 1, 1, 1, 0, 0, 0, 0, 0, 0, 0, 1, 1, 0,  0, 0, 0, 0,  0,
    9, 0, 1, 1, 1, 0, 0, 0, 0, 0, 0, 0, 1, 1, 0,  0, 0, 0, 0,  0,
};

/* One bus node, with a resistance to contact 0. */
static const uint16_t table[CONTACTS] = {1};

/* What a call is lent to write, beside the answer. */
struct lent {
    zimgurav_word sheet[WORDS];
    uint8_t pattern[PATTERN];
    uint8_t work[ZIMGURAV_WORK_BYTES(NETS)];
    uint8_t store[ZIMGURAV_STORE_BYTES(BUDGET)];
    uint8_t order[ORDER];
};

static struct lent lent, untouched;
static uint64_t answer[NUMBERS];

/* Fills everything that a call may write. */
static void fill(void)
{
    memset(&untouched, UNUSED, sizeof untouched);
    memset(&lent, UNUSED, sizeof lent);
    memset(answer, UNUSED, sizeof answer);
}

/* Lists the inputs by cones. */
static void cone_order(size_t length)
{
    fill();
    zimgurav_cone_order(block, length, lent.order, answer);
}

/* Lists the inputs by bounds. */
static void bound_order(uint64_t hop_limit, size_t table_length, size_t work_length)
{
    fill();
    zimgurav_bound_order(block, sizeof block, hop_limit, table, table_length, lent.work, work_length, lent.order,
                         answer);
}

/* Searches with a list. */
static void search(const uint8_t *order, size_t length, uint64_t budget, size_t words)
{
    fill();
    zimgurav_search(block, sizeof block, 10, table, CONTACTS, 1000, budget, order, length, lent.sheet, words,
                    lent.pattern, PATTERN, lent.work, sizeof lent.work, lent.store, sizeof lent.store, answer);
}

/* Returns how much is not as expected of an accepted maker: its answer, and its list, 0 past the two inputs. */
static int check_list(const char *name, const uint8_t inputs[2])
{
    const uint64_t two_inputs[NUMBERS] = {0, 2};
    uint8_t expected[ORDER] = {inputs[0], inputs[1]};
    int wrong = check_numbers(name, answer, two_inputs);

    if (memcmp(lent.order, expected, ORDER) != 0) {
        fprintf(stderr, "%s: the list begins with %d, %d, %d\n", name, lent.order[0], lent.order[1], lent.order[2]);
        wrong++;
    }
    return wrong;
}

/* Returns how much is not as expected of a refused call, which changes nothing but the answer. */
static int check_refused(const char *name, uint64_t number, uint64_t place)
{
    const uint64_t refusal[NUMBERS] = {number, place};
    int wrong = check_numbers(name, answer, refusal);

    if (memcmp(&lent, &untouched, sizeof lent) != 0) {
        fprintf(stderr, "%s: a buffer was changed\n", name);
        wrong++;
    }
    return wrong;
}

/* Both makers, and what they refuse. */
static int check_makers(void)
{
    const uint8_t net_1_first[] = {1, 0};
    const uint8_t net_0_first[] = {0, 1};
    int wrong = 0;

    cone_order(sizeof block);
    wrong += check_list("by cones", net_1_first);
    bound_order(10, CONTACTS, sizeof lent.work);
    wrong += check_list("by bounds", net_0_first);

    cone_order(sizeof block - 1);
    wrong += check_refused("by cones, length", ZIMGURAV_REFUSED_LENGTH, 0);
    bound_order(0, CONTACTS - 1, 0);
    wrong += check_refused("by bounds, hop limit", ZIMGURAV_REFUSED_HOP_LIMIT, 0);
    bound_order(10, CONTACTS - 1, 0);
    wrong += check_refused("by bounds, table", ZIMGURAV_REFUSED_TABLE, 0);
    bound_order(10, CONTACTS, sizeof lent.work - 1);
    wrong += check_refused("by bounds, work buffer", ZIMGURAV_REFUSED_BUFFER, 3);
    return wrong;
}

/* A split at net 0 makes the bounds meet, one at net 1 leaves them as they were. */
static int check_searches(void)
{
    const uint64_t exact[NUMBERS] = {0, ZIMGURAV_EXACT, 10, 10, 1, 4, 1};
    const uint64_t spent[NUMBERS] = {0, ZIMGURAV_SPENT, 20, 10, 1, 4, 1};
    const uint8_t net_0_first[] = {0, 1};
    const uint8_t net_1_first[] = {1, 0};
    int wrong = 0;

    search(net_0_first, 2, BUDGET, WORDS);
    wrong += check_numbers("net 0 first", answer, exact);
    search(net_1_first, 2, BUDGET, WORDS);
    wrong += check_numbers("net 1 first", answer, spent);
    return wrong;
}

/* Lists that do not name each input once; 14 comes before, 15 after. */
static int check_wrong_lists(void)
{
    const uint8_t doubled[] = {0, 0};
    const uint8_t past[] = {0, 2};
    const uint8_t long_list[] = {0, 1, 0};
    int wrong = 0;

    search(doubled, 2, BUDGET, WORDS);
    wrong += check_refused("an input twice", ZIMGURAV_REFUSED_ORDER, 0);
    search(past, 2, BUDGET, WORDS);
    wrong += check_refused("a gate", ZIMGURAV_REFUSED_ORDER, 0);
    search(long_list, 3, BUDGET, WORDS);
    wrong += check_refused("three bytes", ZIMGURAV_REFUSED_ORDER, 0);
    search(long_list, 1, BUDGET, WORDS - 1);
    wrong += check_refused("one byte, and a short sheet", ZIMGURAV_REFUSED_ORDER, 0);
    search(long_list, 2, BUDGET, WORDS - 1);
    wrong += check_refused("a short sheet", ZIMGURAV_REFUSED_BUFFER, 1);
    search(doubled, 2, ZIMGURAV_MOST_BUDGET + 1, WORDS);
    wrong += check_refused("an input twice, and a high budget", ZIMGURAV_REFUSED_BUDGET, 0);
    return wrong;
}

int main(void)
{
    return check_makers() + check_searches() + check_wrong_lists() != 0;
}
