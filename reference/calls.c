/* reference_calls; or, with BADGE defined, badge_calls. */
#include "calls.h"

#ifdef BADGE
#include "badge.h"
#define CALLS badge_calls
#define NAME "badge"
#define CALL(name) badge_##name
#define LENT lent->at, lent->at_len, lent->work, lent->work_len
#else
#define CALLS reference_calls
#define NAME "reference"
#define CALL(name) ref_##name
#define LENT lent
#endif

#define LIST(x) (x).at, (x).length

static uint32_t judge(struct list key, struct list run, const struct lent *lent)
{
    return lent ? CALL(judge_lent)(LIST(key), LIST(run), LENT) : CALL(judge)(LIST(key), LIST(run));
}

#define SEEDS LIST(in[IN_KEY]), LIST(in[IN_SEEDS])
#define SECRET SEEDS, LIST(in[IN_SECRET]), LIST(in[IN_E]), LIST(in[IN_K])
#define MESSAGE(number, ...) \
    (lent ? CALL(message_##number##_lent)(__VA_ARGS__, LIST(out), place, LENT) : CALL(message_##number)(__VA_ARGS__, LIST(out), place))

static int64_t message(int number, const struct list in[INPUTS], struct list out, uint64_t place, const struct lent *lent)
{
    switch (number) {
    case 1: return MESSAGE(1, SEEDS);
    case 3: return MESSAGE(3, SECRET);
    case 5: return MESSAGE(5, SECRET, LIST(in[IN_L]));
    default: return MESSAGE(7, SECRET, LIST(in[IN_L]), LIST(in[IN_HIDDEN]));
    }
}

#define PAIR LIST(key), LIST(run1), LIST(run2), LIST(out->hash1), LIST(out->hash2), LIST(out->secret), LIST(out->uv), LIST(out->answer)

static int64_t pair(struct list key, struct list run1, struct list run2, const struct pair_outputs *out, const struct lent *lent)
{
    return lent ? CALL(pair_lent)(PAIR, LENT) : CALL(pair)(PAIR);
}

const struct calls CALLS = {NAME, judge, message, pair};
