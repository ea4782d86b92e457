/* The second implementation behind a line-oriented command program; with BADGE defined, the calls are those of badge.h.
 *
 * A line is a command and its arguments, byte lists in hex ("-" for an empty one), numbers in
 * decimal. Each line is answered by one line. Lent lists are allocated at the very length that is
 * asked for, and outputs are checked to be untouched where they must be. */
#include "calls.h"
#include "layers.h"

#ifdef BADGE
#include "primitives.h"
#define CALLS badge_calls
#else
#define CALLS reference_calls
#endif

#include <stdio.h>
#include <stdlib.h>
#include <string.h>

enum { MAX_ARGUMENTS = 20, FILL = 0xa5 };

static char *argument[MAX_ARGUMENTS];
static int arguments;

static void fail(const char *why)
{
    fprintf(stderr, "refcli: %s: %s\n", argument[0] ? argument[0] : "", why);
    exit(2);
}

/* An empty list still gets an address, of a block of no bytes. */
static void *allocate(size_t size)
{
    void *p = malloc(size);
    if (!p && size > 0)
        fail("no memory");
    return p;
}

static uint64_t number(int a)
{
    if (a >= arguments)
        fail("argument missing");
    return strtoull(argument[a], NULL, 10);
}

static int digit(char c)
{
    if ('0' <= c && c <= '9')
        return c - '0';
    if ('a' <= c && c <= 'f')
        return c - 'a' + 10;
    fail("not hex");
    return 0;
}

static struct list bytes(int a)
{
    struct list l = {NULL, 0};
    if (a >= arguments)
        fail("argument missing");
    if (strcmp(argument[a], "-") != 0)
        l.length = strlen(argument[a]) / 2;
    l.at = allocate(l.length);
    for (size_t j = 0; j < l.length; j++)
        l.at[j] = (uint8_t)(16 * digit(argument[a][2 * j]) + digit(argument[a][2 * j + 1]));
    return l;
}

static struct list bytes_of(int a, size_t length)
{
    struct list l = bytes(a);
    if (l.length != length)
        fail("wrong length");
    return l;
}

static struct list filled(size_t length)
{
    struct list l = {allocate(length), length};
    memset(l.at, FILL, length);
    return l;
}

/* From byte start to byte end all as filled. */
static void check_untouched(struct list l, size_t start, size_t end)
{
    for (size_t j = start; j < end; j++)
        if (l.at[j] != FILL)
            fail("an output byte was touched");
}

static void print_bytes(const uint8_t *p, size_t length)
{
    static const char hex[] = "0123456789abcdef";
    if (length == 0)
        putchar('-');
    for (size_t j = 0; j < length; j++) {
        putchar(hex[p[j] >> 4]);
        putchar(hex[p[j] & 15]);
    }
}

static void print_numbers(const uint32_t *list, size_t count)
{
    for (size_t j = 0; j < count; j++)
        printf(j ? ",%u" : "%u", list[j]);
}

/* numbers seed first q count */
static void run_numbers(void)
{
    struct list seed = bytes_of(1, 16);
    size_t count = number(4);
    uint32_t *out = allocate(4 * count);
    struct aes128 key;
    aes128_expand(&key, seed.at);
    stream_numbers(&key, number(2), (uint32_t)number(3), out, count);
    print_numbers(out, count);
    free(out);
    free(seed.at);
}

#ifdef BADGE
/* drawn seed first q count: the same by the library's call */
static void run_drawn(void)
{
    struct list seed = bytes_of(1, 16);
    size_t count = number(4);
    uint32_t *out = allocate(4 * count);
    uint32_t refused = badge_numbers(seed.at, 16, number(2), (uint32_t)number(3), out, count);
    if (refused)
        printf("refused %u", refused);
    else
        print_numbers(out, count);
    free(out);
    free(seed.at);
}
#endif

/* The calls. */

static size_t length_or(int a, size_t enough)
{
    return a < arguments && strcmp(argument[a], "-") != 0 ? number(a) : enough;
}

/* Work lists of the lengths at arguments a and a + 1; "-" is the length that the key asks for. */
static struct lent lend(int a, struct list key_list)
{
    struct key k;
    int read = read_key(&k, key_list.at, key_list.length) == 0;
    struct lent lent = {.work_len = length_or(a, read ? work_count(&k) : MAX_WORK),
                        .at_len = length_or(a + 1, read ? entry_count(&k) : MAX_AT)};
    lent.work = allocate(4 * lent.work_len);
    lent.at = allocate(4 * lent.at_len);
    memset(lent.work, FILL, 4 * lent.work_len);
    memset(lent.at, FILL, 4 * lent.at_len);
    return lent;
}

static void give_back(struct lent lent)
{
    free(lent.work);
    free(lent.at);
}

/* Where no lengths of work lists are asked for, the call with lists of its own must say the same. */
static int both_calls(int a) { return length_or(a, SIZE_MAX) == SIZE_MAX && length_or(a + 1, SIZE_MAX) == SIZE_MAX; }

static void check_same(struct list one, struct list two)
{
    if (memcmp(one.at, two.at, one.length) != 0)
        fail("the call with lent lists and that without wrote different bytes");
}

static void check_answers(int64_t one, int64_t two)
{
    if (one != two)
        fail("the call with lent lists and that without answer differently");
}

/* message number key seeds secret E K L hidden out_len place [work_len at_len] */
static void run_message(void)
{
    struct list in[INPUTS];
    for (int j = 0; j < INPUTS; j++)
        in[j] = bytes(2 + j);
    int which = (int)number(1);
    uint64_t place = number(10);
    struct list out = filled(length_or(9, 65536)), again = filled(out.length);
    struct lent lent = lend(11, in[IN_KEY]);
    if (which != 1 && which != 3 && which != 5 && which != 7)
        fail("no such message");
    int64_t length = CALLS.message(which, in, out, place, &lent);
    if (both_calls(11)) {
        check_answers(CALLS.message(which, in, again, place, NULL), length);
        check_same(again, out);
    }
    if (length < 0) {
        check_untouched(out, 0, out.length);
        printf("refused %lld", (long long)-length);
    } else {
        check_untouched(out, 0, place);
        check_untouched(out, place + (uint64_t)length, out.length);
        printf("message ");
        print_bytes(out.at + place, (size_t)length);
    }
    for (int j = 0; j < INPUTS; j++)
        free(in[j].at);
    free(out.at);
    free(again.at);
    give_back(lent);
}

/* judge key run [work_len at_len] */
static void run_judge(void)
{
    struct list k = bytes(1), run = bytes(2);
    struct lent lent = lend(3, k);
    uint32_t verdict = CALLS.judge(k, run, &lent);
    if (both_calls(3))
        check_answers(CALLS.judge(k, run, NULL), verdict);
    printf("%u", verdict);
    free(k.at);
    free(run.at);
    give_back(lent);
}

static struct number_list numbers_in(struct list l) { return (struct number_list){(uint32_t *)l.at, l.length / 4}; }

/* What the pair reader is lent, one list after the other. */
enum { HASH1, HASH2, SECRET, UV, ANSWER, FOUND };

static int64_t pair_into(struct list *found, const struct list *in, const struct lent *lent)
{
    struct pair_outputs out = {found[HASH1], found[HASH2], found[SECRET], numbers_in(found[UV]), numbers_in(found[ANSWER])};
    return CALLS.pair(in[0], in[1], in[2], &out, lent);
}

static void print_found(int64_t finding, const struct list *found, const size_t *used)
{
    printf("finding %lld ", (long long)finding);
    print_numbers((uint32_t *)found[ANSWER].at, ANSWER_WORDS);
    putchar(' ');
    if (finding == COLLISION) {
        print_bytes(found[HASH1].at, used[HASH1]);
        putchar(' ');
        print_bytes(found[HASH2].at, used[HASH2]);
    } else if (finding == WITNESS) {
        print_bytes(found[SECRET].at, used[SECRET]);
    } else if (finding == CANCELLED_ERRORS) {
        print_numbers((uint32_t *)found[UV].at, used[UV] / 4);
    }
}

/* pair key run1 run2 [hash1_len hash2_len secret_len uv_len work_len at_len answer_len] */
static void run_pair(void)
{
    struct list in[3] = {bytes(1), bytes(2), bytes(3)}, found[FOUND], again[FOUND];
    size_t length[FOUND] = {length_or(4, MAX_HASH_INPUT), length_or(5, MAX_HASH_INPUT), length_or(6, MAX_COLUMNS),
                            4 * length_or(7, MAX_ROWS + MAX_COLUMNS), 4 * length_or(10, ANSWER_WORDS)};
    size_t used[FOUND] = {0};
    struct lent lent = lend(8, in[0]);
    for (int j = 0; j < FOUND; j++) {
        found[j] = filled(length[j]);
        again[j] = filled(length[j]);
    }
    int64_t finding = pair_into(found, in, &lent);
    if (both_calls(8)) {
        check_answers(pair_into(again, in, NULL), finding);
        for (int j = 0; j < FOUND; j++)
            check_same(again[j], found[j]);
    }
    if (finding < 0) {
        printf("refused %lld", (long long)-finding);
    } else {
        struct key k;
        read_key(&k, in[0].at, in[0].length);
        used[HASH1] = used[HASH2] = finding == COLLISION ? ((uint32_t *)found[ANSWER].at)[ANSWER_LENGTH] : 0;
        used[SECRET] = finding == WITNESS ? k.m : 0;
        used[UV] = finding == CANCELLED_ERRORS ? 4 * (k.n + k.m) : 0;
        used[ANSWER] = 4 * ANSWER_WORDS;
        print_found(finding, found, used);
    }
    for (int j = 0; j < FOUND; j++) {
        check_untouched(found[j], used[j], found[j].length);
        free(found[j].at);
        free(again[j].at);
    }
    for (int j = 0; j < 3; j++)
        free(in[j].at);
    give_back(lent);
}

/* The layers, the second implementation's in every build. */

static void run_hash(void)
{
    struct list data = bytes(1);
    uint8_t out[32];
    sha256(data.at, data.length, out);
    print_bytes(out, 32);
    free(data.at);
}

static void run_inverse(void) { printf("%u", inverse_of_parties((uint32_t)number(1), (uint32_t)number(2))); }

static void run_block(void)
{
    struct list seed = bytes_of(1, 16);
    uint8_t out[16];
    stream_block(seed.at, number(2), out);
    print_bytes(out, 16);
    free(seed.at);
}

static void run_leaves(void)
{
    struct list root = bytes_of(2, 16);
    uint8_t leaves[MAX_PARTIES][16];
    uint32_t N = (uint32_t)number(1);
    tree_leaves(root.at, N, leaves);
    print_bytes(leaves[0], 16 * N);
    free(root.at);
}

static void run_open(void)
{
    struct list root = bytes_of(3, 16);
    uint8_t opened[16 * 5], *end = tree_open(root.at, (uint32_t)number(1), (uint32_t)number(2) - 1, opened);
    print_bytes(opened, (size_t)(end - opened));
    free(root.at);
}

/* The leaves from an opening; the hidden one is printed as zeros. */
static void run_reopen(void)
{
    uint32_t N = (uint32_t)number(1), hidden = (uint32_t)number(2) - 1, depth = 0;
    while (N >> depth > 1)
        depth++;
    struct list opened = bytes_of(3, 16 * depth);
    uint8_t leaves[MAX_PARTIES][16] = {{0}};
    tree_reopen(opened.at, N, hidden, leaves);
    print_bytes(leaves[0], 16 * N);
    free(opened.at);
}

static struct list key_bytes;
static uint32_t work[MAX_WORK], at[MAX_AT];
static struct key key;
static struct execution x;

static void start_execution(int a)
{
    key_bytes = bytes(a);
    if (read_key(&key, key_bytes.at, key_bytes.length))
        fail("key refused");
    load_numbers(at, key.entries, entry_count(&key));
    execution_start(&x, &key, work, at);
}

/* r, g(N), b, d, s of a leaf, taken as if it were party N for g(N) and as another for the rest. */
static void run_shares(void)
{
    start_execution(1);
    struct list leaf = bytes_of(2, 16);
    memcpy(x.leaf[0], leaf.at, 16);
    memcpy(x.leaf[key.N - 1], leaf.at, 16);
    expand_party(&x, 0, WANT_B | WANT_D | WANT_S);
    expand_party(&x, key.N - 1, WANT_B);
    print_bytes(x.r[0], 16);
    putchar(' ');
    print_bytes(x.g_last, 16);
    putchar(' ');
    print_numbers(shares_b(&x, 0), key.m);
    putchar(' ');
    print_numbers(shares_d(&x, 0), key.m);
    putchar(' ');
    print_numbers(shares_s(&x, 0), key.m);
    free(leaf.at);
    free(key_bytes.at);
}

static void run_h(void)
{
    start_execution(1);
    struct list master = bytes_of(2, 16);
    uint8_t out[32];
    hash_from_master(&x, master.at, out);
    print_bytes(out, 32);
    free(master.at);
    free(key_bytes.at);
}

static void run_coefficients(void)
{
    start_execution(1);
    struct list L = bytes_of(2, 16);
    draw_coefficients(&x, L.at, (uint32_t)number(3) - 1);
    print_numbers(x.coefficient, key.n);
    putchar(' ');
    print_numbers(x.coefficient + key.n, key.m);
    free(L.at);
    free(key_bytes.at);
}

/* key master secret K L e: d(N), s(N), o, Omega, Pi, Psi of an honest execution. */
static void run_output(void)
{
    start_execution(1);
    struct list master = bytes_of(2, 16), secret = bytes_of(3, key.m), K = bytes_of(4, 16), L = bytes_of(5, 16);
    uint32_t e = (uint32_t)number(6) - 1;
    uint8_t Omega[32], Pi[32], Psi[32], mask[16];
    tree_leaves(master.at, key.N, x.leaf);
    for (uint32_t i = 0; i < key.N; i++)
        expand_party(&x, i, WANT_B | WANT_D | WANT_S);
    last_d_from_square(&x);
    last_s_from_secret(&x, secret.at);
    mask_secret(&x, NO_PARTY);
    sum_alpha(&x);
    draw_coefficients(&x, L.at, e);
    compute_outputs(&x, NO_PARTY);
    commit_last_share(&x, Omega);
    stream_block(K.at, 2 * e, mask);
    commit_alpha(&x, mask, Pi);
    stream_block(K.at, 2 * e + 1, mask);
    commit_outputs(&x, mask, Psi);
    print_numbers(shares_d(&x, key.N - 1), key.m);
    putchar(' ');
    print_numbers(shares_s(&x, key.N - 1), key.m);
    putchar(' ');
    print_numbers(x.o, key.N);
    putchar(' ');
    print_bytes(Omega, 32);
    putchar(' ');
    print_bytes(Pi, 32);
    putchar(' ');
    print_bytes(Psi, 32);
    free(master.at);
    free(secret.at);
    free(K.at);
    free(L.at);
    free(key_bytes.at);
}

/* outputs key run: o(1) .. o(N) of each kept execution, as the judge recomputes them. */
static void run_outputs(void)
{
    struct list bytes_of_run = bytes(2);
    struct transcript run;
    uint8_t g[16], w[16];
    start_execution(1);
    if (read_transcript(&run, &key, bytes_of_run.at, bytes_of_run.length))
        fail("transcript refused");
    for (uint32_t j = 0; j < key.kept; j++) {
        replay(&x, &run, j, g, w);
        if (j > 0)
            putchar(' ');
        print_numbers(x.o, key.N);
    }
    free(bytes_of_run.at);
    free(key_bytes.at);
}

/* trace key run1 run2: e, then kind:i:length:hash:hash of each compared input. */
static void run_trace(void)
{
    static struct pair p;
    struct list k = bytes(1), run1 = bytes(2), run2 = bytes(3);
    struct lent lent = lend(4, k);
    static uint8_t input[MAX_HASH_INPUT];
    uint32_t kind = 0, i = 0, refused = read_key(&p.key, k.at, k.length);
    if (!refused)
        refused = pair_start(&p, run1.at, run1.length, run2.at, run2.length, &lent);
    if (refused)
        printf("refused %u", refused);
    else
        printf("%u", p.e + 1);
    while (!refused && next_input(&p, &kind, &i)) {
        for (int side = 0; side < 2; side++) {
            uint8_t hash[32];
            size_t length = write_input(&p, &p.side[side], kind, i, input);
            if (side == 0)
                printf(" %u:%u:%zu", kind, i, length);
            sha256(input, length, hash);
            putchar(':');
            print_bytes(hash, 32);
        }
    }
    free(k.at);
    free(run1.at);
    free(run2.at);
    give_back(lent);
}

static const struct {
    const char *name;
    void (*run)(void);
} commands[] = {
    {"numbers", run_numbers},
    {"message", run_message},
    {"judge", run_judge},
    {"pair", run_pair},
#ifdef BADGE
    {"drawn", run_drawn},
#endif
    {"hash", run_hash},           /* data */
    {"inverse", run_inverse},     /* N q */
    {"block", run_block},         /* seed j */
    {"leaves", run_leaves},       /* N root */
    {"open", run_open},           /* N hidden root */
    {"reopen", run_reopen},       /* N hidden opened */
    {"shares", run_shares},       /* key leaf */
    {"h", run_h},                 /* key master */
    {"coefficients", run_coefficients}, /* key L e */
    {"output", run_output},
    {"outputs", run_outputs},
    {"trace", run_trace},
};

static void run_line(char *line)
{
    arguments = 0;
    for (char *p = strtok(line, " \n"); p && arguments < MAX_ARGUMENTS; p = strtok(NULL, " \n"))
        argument[arguments++] = p;
    if (arguments == 0)
        return;
    for (size_t c = 0; c < sizeof commands / sizeof commands[0]; c++)
        if (strcmp(commands[c].name, argument[0]) == 0) {
            commands[c].run();
            putchar('\n');
            fflush(stdout);
            return;
        }
    fail("no such command");
}

int main(void)
{
    static char line[1 << 20];
    while (fgets(line, sizeof line, stdin)) {
        if (!strchr(line, '\n'))
            fail("line too long");
        run_line(line);
    }
    return 0;
}
