/* What include/street_drill.h says of the steps, the ends of exp, ln and powf, the interval table, due counts, cards
 * introduced and odd arguments, each asked of the function. Compiled and run by `harness/run header`.
 *
 * An expectation that does not hold is printed with its point. Where all hold, each is changed once, and must then be
 * seen not to hold: so none is passed over. Exit status: 0 where all hold and each change was seen. */
#include "street_drill.h"

#include <math.h>
#include <stdio.h>
#include <string.h>

static const char *point;
static int number, changed, wrong; /* of the expectation; of the one that is changed, or 0; how many do not hold */

static uint32_t bits(float x) {
    uint32_t n;
    memcpy(&n, &x, sizeof n);
    return n;
}

static float from_bits(uint32_t n) {
    float x;
    memcpy(&x, &n, sizeof x);
    return x;
}

static void miss(const char *what, double got, double want) {
    wrong++;
    if (!changed)
        printf("header: %s: %s is %.9g, and not %.9g\n", point, what, got, want);
}

/* the same float: any NaN is as good as another, and zeros have their signs */
static void float_is(const char *what, float got, float want) {
    if (++number == changed)
        want = isnan(want) ? 0 : from_bits(bits(want) ^ 1);
    if (!(isnan(want) ? isnan(got) : bits(got) == bits(want)))
        miss(what, (double)got, (double)want);
}

static void count_is(const char *what, uint64_t got, uint64_t want) {
    if (++number == changed)
        want ^= 1;
    if (got != want)
        miss(what, (double)got, (double)want);
}

#define FLOAT(got, want) float_is(#got, got, want)
#define COUNT(got, want) count_is(#got, (uint64_t)(got), (uint64_t)(want))
#define HOLDS(claim) count_is(#claim, claim, true)

/* a usual list */
static const float w[34] = {0.1104f, 2.2395f, 3.9221f, 11.7841f, 6.1686f, 0.6457f, 3.0194f, 3.3722f, 0.1666f,
                            0.796f,  1.4f,    0.2629f, 1.6483f,  0.6014f, 1.8729f, 3.3722f, 0.1666f, 0.796f,
                            1.4f,    0.2629f, 1.6483f, 0.6014f,  1.8729f, 0.0392f, 0.242f,  0.6675f, 0.9137f,
                            0.4717f, 0.4885f, 0.8136f, 0.698f,   0.4621f, 0.6547f, 0.308f};

/* ==== runs of a few cards over a few days; each test changes what it is about */

enum { CARDS = 4, DAYS = 4, DUE = 6, PLACES = 8 };

static const struct drill_config usual = {
    .deck_size = 1,
    .learn_span = 1,
    .max_cost_perday = INFINITY,
    .max_ivl = 36500,
    .first_rating_prob = {0, 0, 0, 1},
    .review_rating_prob = {0, 1, 0},
    .learn_limit = DRILL_NO_LIMIT,
    .review_limit = DRILL_NO_LIMIT,
    .new_cards_ignore_review_limit = true,
    .suspend_after_lapses = DRILL_NO_LIMIT,
    .learning_step_transitions = {{1, 0, 0, 0}, {0, 1, 0, 0}, {0, 0, 1, 0}},
    .relearning_step_transitions = {{1, 0, 0, 0}, {0, 1, 0, 0}, {0, 0, 1, 0}},
    .state_rating_costs = {{1, 1, 1, 1}, {100, 100, 100, 100}, {1, 1, 1, 1}},
};

static struct drill_card_state cards[CARDS];
static struct drill_card_counts counts[CARDS];
static struct drill_queue_row queue[CARDS];
static struct drill_day days[DAYS];
static float costs[DAYS], memorized[DAYS], intervals[PLACES];
static uint32_t due[DUE];
static struct drill_interval_key keys[PLACES];

static struct drill_answer run_with(const float *parameters, struct drill_config config,
                                    const struct drill_card_state *existing, size_t n, size_t table) {
    static const struct drill_card_counts none[CARDS];
    const struct drill_inputs inputs = {
        .parameters = parameters,
        .parameters_len = DRILL_PARAMETERS,
        .existing_cards = existing,
        .existing_counts = none,
        .existing_len = n,
        .config = config,
        .desired_retention = 0.9f,
        .seed = 42,
    };
    const struct drill_lists lists = {
        .cards = cards,
        .counts = counts,
        .queue = queue,
        .cards_len = CARDS,
        .days = days,
        .costs = costs,
        .memorized = memorized,
        .days_len = DAYS,
        .due = due,
        .due_len = DUE,
        .keys = keys,
        .intervals = intervals,
        .table_len = table,
    };
    return drill_forecast(inputs, lists);
}

static uint32_t run(struct drill_config config, const struct drill_card_state *existing, size_t n) {
    return run_with(w, config, existing, n, PLACES).refusal;
}

/* the due counts as a number of six digits, day 0 first */
static uint32_t due_digits(void) {
    uint32_t number_of_all = 0;
    for (int i = 0; i < DUE; i++)
        number_of_all = 10 * number_of_all + due[i];
    return number_of_all;
}

static struct drill_card_state card(float stability, float last_date, float day) {
    return (struct drill_card_state){5, stability, last_date, day, 1, 0.9f};
}

static void row(float *weights, int rating) {
    for (int i = 0; i < 4; i++)
        weights[i] = i + 1 == rating;
}

/* what a learning costs, a second for each rating; after the ratings 1, 2 and 3 comes always the same one */
static float learned_for(uint32_t steps, int first, int after_1, int after_2, int after_3) {
    struct drill_config config = usual;
    config.learning_step_count = steps;
    row(config.first_rating_prob, first);
    row(config.learning_step_transitions[0], after_1);
    row(config.learning_step_transitions[1], after_2);
    row(config.learning_step_transitions[2], after_3);
    run(config, NULL, 0);
    return days[0].learned == 1 ? costs[0] : NAN;
}

/* what a lapse costs: 100 seconds, and one for each step */
static float lapsed_for(uint32_t steps, int after_1, int after_2, int after_3) {
    const struct drill_card_state forgotten = card(0.0001f, -36500, 0);
    struct drill_config config = usual;
    config.relearning_step_count = steps;
    row(config.relearning_step_transitions[0], after_1);
    row(config.relearning_step_transitions[1], after_2);
    row(config.relearning_step_transitions[2], after_3);
    run(config, &forgotten, 1);
    return days[0].reviewed == 1 && days[0].correct == 0 ? costs[0] : NAN;
}

static void steps(void) {
    point = "1, steps";
    FLOAT(learned_for(1, 1, 1, 2, 3), 6); /* count 1, and five steps are taken */
    FLOAT(learned_for(1, 2, 1, 2, 3), 6); /* a 2 does not end them */
    FLOAT(learned_for(9, 1, 3, 2, 3), 6);
    FLOAT(learned_for(2, 1, 3, 3, 3), 3);
    FLOAT(learned_for(2, 1, 3, 3, 2), 4); /* 1, 3, 2, 3: a 2 leaves what is counted */
    FLOAT(learned_for(2, 1, 3, 2, 1), 6); /* 1, 3, 1, 3, ..: a 1 begins anew */
    FLOAT(learned_for(1, 2, 1, 3, 1), 2); /* 2, 3: without any 1 */
    FLOAT(learned_for(9, 1, 4, 2, 3), 2); /* a 4 ends them */
    FLOAT(learned_for(9, 4, 1, 2, 3), 1);
    FLOAT(learned_for(1, 3, 1, 2, 3), 1); /* a first 3 is one of them */
    FLOAT(learned_for(2, 3, 1, 2, 3), 2);
    FLOAT(learned_for(2, 3, 3, 2, 1), 3); /* 3, 1, 3: also after a later 1 */
    FLOAT(learned_for(0, 1, 1, 2, 3), 1);
    FLOAT(lapsed_for(1, 1, 2, 3), 105);
    FLOAT(lapsed_for(2, 3, 3, 2), 103);
    FLOAT(lapsed_for(1, 3, 2, 3), 101);
    FLOAT(lapsed_for(9, 4, 2, 3), 101);
    FLOAT(lapsed_for(0, 1, 2, 3), 100);
}

/* whether x is within so many steps of the exact value, a step being the distance between floats there */
static bool within(float x, double exact, double most) {
    int e;
    frexp(exact, &e);
    return fabs((double)x - exact) <= most * ldexp(1, (e < -125 ? -125 : e) - 24);
}

static void elementary(void) {
    point = "2, exp, ln and powf";
    FLOAT(drill_exp(-88), 0);
    HOLDS(expf(-88) > 6e-39f);
    FLOAT(drill_exp(from_bits(0xC2AEAC50)), 0);
    HOLDS(within(drill_exp(from_bits(0xC2AEAC4F)), exp((double)from_bits(0xC2AEAC4F)), 1));
    HOLDS(within(drill_exp(from_bits(0x42B17217)), exp((double)from_bits(0x42B17217)), 1));
    FLOAT(drill_exp(from_bits(0x42B17218)), INFINITY);
    HOLDS(from_bits(0xC2AEAC50) == -87.33655f && from_bits(0x42B17218) == 88.72284f);
    HOLDS(within(drill_exp(-1), exp(-1), 1) && within(drill_exp(50), exp(50), 1));
    FLOAT(drill_exp(0), 1);
    FLOAT(drill_exp(-0.0f), 1);
    FLOAT(drill_exp(NAN), NAN);
    FLOAT(drill_ln(0), -INFINITY);
    FLOAT(drill_ln(-0.0f), -INFINITY);
    FLOAT(drill_ln(INFINITY), INFINITY);
    FLOAT(drill_ln(-1), NAN);
    FLOAT(drill_ln(-INFINITY), NAN);
    FLOAT(drill_ln(1), 0);
    FLOAT(drill_ln(NAN), NAN);
    HOLDS(within(drill_ln(1e-45f), log((double)1e-45f), 1) && within(drill_ln(3), log(3), 1));
    FLOAT(drill_powf(ldexpf(1, -70), 2), 0);
    HOLDS(powf(ldexpf(1, -70), 2) > 0);
    FLOAT(drill_powf(2, -127.0001f), 0);
    HOLDS(within(drill_powf(2, -126), ldexp(1, -126), 2) && within(drill_powf(2, 127), ldexp(1, 127), 2));
    HOLDS(within(drill_powf(1.5f, 200.5f), pow(1.5, 200.5), 2)); /* |y| above 128 too */
    FLOAT(drill_powf(2, 129), INFINITY);
    FLOAT(drill_powf(1, NAN), 1);
    FLOAT(drill_powf(NAN, 0), 1);
    FLOAT(drill_powf(NAN, 1), NAN);
    FLOAT(drill_powf(2, NAN), NAN);
    FLOAT(drill_powf(-0.0f, -1), -INFINITY);
    FLOAT(drill_powf(-0.0f, 3), -0.0f);
    FLOAT(drill_powf(0.5f, -INFINITY), INFINITY);
}

static void the_rusts_bits(void) {
    point = "3, where the Rust's own functions differ";
    FLOAT(drill_powf(-2, 2), NAN);
    FLOAT(powf(-2, 2), 4);
    FLOAT(drill_powf(-INFINITY, 3), NAN);
    FLOAT(drill_powf(-2, INFINITY), NAN);
    FLOAT(powf(-2, INFINITY), INFINITY);
    FLOAT(drill_powf(-2, 0), 1);
    FLOAT(drill_powf(-INFINITY, -0.0f), 1);
    HOLDS(drill_exp(-88) != expf(-88));
}

/* the intervals of one stability and another, in tables of one place */
static float scheduled_in(float stability, size_t keys_len, size_t intervals_len) {
    return drill_scheduled_interval(w, 34, stability, 0.9f, 10, keys, keys_len, intervals, intervals_len);
}

static void full_table(void) {
    point = "4, a full table";
    drill_clear(intervals, PLACES);
    FLOAT(scheduled_in(100, 1, 1), 10);
    HOLDS(!drill_certifies_rounded_interval(w, 34, 100, 0.9f, 10, 10));
    FLOAT(scheduled_in(100, 1, 1), 10); /* held, not certified, and entered again */
    FLOAT(scheduled_in(50, 1, 1), NAN); /* a new key */
    FLOAT(intervals[0], 10);
    COUNT(keys[0].stability, drill_stability_bucket(100));
    /* the same in a run: two cards learned under one key, then a review under another */
    struct drill_config config = usual;
    config.deck_size = 2;
    config.max_ivl = 1;
    COUNT(run_with(w, config, NULL, 0, 1).refusal, DRILL_OK);
    COUNT(days[0].learned, 2);
    config.learn_span = 2;
    const struct drill_answer answer = run_with(w, config, NULL, 0, 1);
    COUNT(answer.refusal, DRILL_TABLE_FULL);
    COUNT(answer.turns, 2);
    COUNT(run_with(w, config, NULL, 0, 2).refusal, DRILL_OK);
}

static void due_counts(void) {
    point = "5, due counts";
    struct drill_config config = usual;
    config.learn_span = 4;
    config.max_ivl = 2;
    COUNT(run(config, NULL, 0), DRILL_OK);
    COUNT(due_digits(), 1010); /* created, learned on day 0, reviewed on day 2, and both days stay counted */
    const struct drill_card_state undated = card(1, -INFINITY, 1);
    COUNT(run(config, &undated, 1), DRILL_OK);
    COUNT(due_digits(), 10101); /* counted as it is set up, though it has no last date, learned on day 1 */
    config.learn_limit = 0;
    COUNT(run(config, &undated, 1), DRILL_OK);
    COUNT(due_digits(), 10000); /* put off each day, and not moved */
    const struct drill_card_state dated = card(1, -5, -3);
    config.review_limit = 0;
    COUNT(run(config, &dated, 1), DRILL_OK);
    COUNT(due_digits(), 10); /* counted on day 0, put off each day, and moved to day 4 */
}

static void introduced(void) {
    point = "6, introduced";
    struct drill_config config = usual;
    config.deck_size = 3;
    config.learn_span = 2;
    config.learn_limit = 1;
    /* with a later last date; passed over, and a new card in its place; without a last date, due on day 1 */
    const struct drill_card_state existing[3] = {card(1, 3, 5), card(0, -1, 0), card(1, -INFINITY, 1)};
    COUNT(run(config, existing, 3), DRILL_OK);
    COUNT(days[0].introduced, 2);
    COUNT(days[1].introduced, 3);
    config.learn_limit = 0;
    COUNT(run(config, existing, 3), DRILL_OK);
    COUNT(days[1].introduced, 1);
    COUNT(run_with(w, config, existing, 3, PLACES).cards, 2); /* and no new card */
}

static void sums(void) {
    point = "7, sums of a search";
    const float four[4] = {1, 2, 3, 4}, zero[1] = {0}, minus[1] = {-2};
    FLOAT(drill_target(4, four, 4, four, 4), 2.5f);
    FLOAT(drill_target(0, four, 4, four, 4), -0.0f);
    FLOAT(drill_target(0, NULL, 0, minus, 1), 0);
    FLOAT(drill_target(0, NULL, 0, zero, 1), NAN);
    FLOAT(drill_target(0, four, 4, NULL, 0), NAN);
    FLOAT(drill_target(4, four, 3, four, 4), NAN);
    FLOAT(drill_target(4, four, 4, four, 3), NAN);
    FLOAT(drill_target(UINT32_MAX, four, 4, four, 4), NAN);
    FLOAT(drill_mean(four, 4, 4), 2.5f);
    FLOAT(drill_mean(four, 4, 2), 1.5f);
    FLOAT(drill_mean(four, 4, 0), NAN);
    FLOAT(drill_mean(four, 4, 5), NAN);
    FLOAT(drill_mean(four, 4, UINT32_MAX), NAN);
    uint32_t most = 0;
    for (uint32_t span = 0; span <= DRILL_MOST_DAYS; span++)
        if (drill_sample_size(span) > most)
            most = drill_sample_size(span);
    COUNT(most, DRILL_MOST_SAMPLES);
    COUNT(drill_sample_size(31), 181);
    COUNT(drill_sample_size(0), 180);
    COUNT(drill_sample_size(UINT32_MAX), 16);
    point = "7, the rounds of a search";
    struct drill_search none = drill_search_start(0);
    FLOAT(drill_search_next(none), 0.7f);
    COUNT(drill_search_answer(none), DRILL_SEARCH_OPEN);
    none = drill_search_take(none, 1);
    FLOAT(drill_search_next(none), NAN);
    COUNT(drill_search_answer(none), DRILL_NOT_FOUND);
    struct drill_search all = drill_search_start(UINT32_MAX);
    for (float r; r = drill_search_next(all), r == r;)
        all = drill_search_take(all, 1);
    COUNT(drill_search_answer(all), DRILL_OK);
    COUNT(all.rounds, UINT32_MAX);
}

static void floats(void) {
    point = "7, ends and zeros";
    FLOAT(drill_max(-0.0f, 0), -0.0f);
    FLOAT(drill_max(0, -0.0f), 0);
    FLOAT(drill_min(-0.0f, 0), -0.0f);
    FLOAT(drill_min(0, -0.0f), 0);
    FLOAT(drill_max(NAN, 1), 1);
    FLOAT(drill_min(1, NAN), 1);
    FLOAT(drill_clamp(0, 2, 1), 2);
    FLOAT(drill_clamp(1.5f, 2, 1), 2);
    FLOAT(drill_clamp(2, 2, 1), 1);
    FLOAT(drill_clamp(5, NAN, 1), 1);
    FLOAT(drill_clamp(-5, NAN, 1), -5);
    FLOAT(drill_clamp(5, 0, NAN), 5);
    FLOAT(drill_clamp(NAN, 0, 1), NAN);
}

static void model(void) {
    point = "7, the memory model";
    FLOAT(drill_init_stability((const float[]){-3}, 1, 0), -3);
    FLOAT(drill_init_stability(w, 34, 9), w[3]);
    FLOAT(drill_init_stability(w, 2, 4), NAN);
    FLOAT(drill_init_difficulty(w, 34, 0), drill_init_difficulty(w, 34, 1));
    HOLDS(drill_init_difficulty(w, 34, 5) < drill_init_difficulty(w, 34, 4));
    FLOAT(drill_next_difficulty(w, 34, 5, 9, 1), drill_next_difficulty(w, 34, 5, 4, 1));
    FLOAT(drill_next_difficulty(w, 34, NAN, 3, 1), NAN);
    FLOAT(drill_next_difficulty(w, 34, -99, 4, 1), 1);
    FLOAT(drill_next_difficulty(w, 34, 9, 1, 1e9f), 10);
    FLOAT(drill_stability_after_success(w, 34, 5, 0.5f, 5, 1), drill_stability_after_failure(w, 34, 5, 0.5f, 5));
    FLOAT(drill_stability_short_term(w, 34, 5, 0.5f, 5, 3), drill_stability_after_success(w, 34, 5, 0.5f, 5, 3));
    FLOAT(drill_stability_after_success(w, 34, 1e9f, 0.5f, 5, 3), 36500);
    FLOAT(drill_stability_after_failure(w, 34, 0, 0.5f, 5), 0.0001f);
    FLOAT(drill_stability_after_failure(w, 34, NAN, 0.5f, 5), NAN);
    FLOAT(drill_stability_after_success(w, 0, 5, 0.5f, 5, 3), 5);
    FLOAT(drill_forgetting_curve(w, 34, -3, 5), drill_forgetting_curve(w, 34, 0, 5));
    FLOAT(drill_forgetting_curve(w, 34, NAN, 5), drill_forgetting_curve(w, 34, 0, 5));
    FLOAT(drill_forgetting_curve(w, 34, 1, -5), drill_forgetting_curve(w, 34, 1, 0.0001f));
    FLOAT(drill_forgetting_curve(w, 34, 1, NAN), drill_forgetting_curve(w, 34, 1, 0.0001f));
    FLOAT(drill_forgetting_curve_for_state(w, 34, 1, 5, 99, 5), drill_forgetting_curve_for_state(w, 34, 1, 5, 10, 5));
    FLOAT(drill_forgetting_curve_for_state(w, 34, 1, 5, -9, 5), drill_forgetting_curve_for_state(w, 34, 1, 5, 1, 5));
    FLOAT(drill_forgetting_curve_for_state(w, 34, 1, 5, NAN, 5), NAN);
    float slope = 9, at_0 = 9;
    FLOAT(drill_forgetting_curve_and_derivative(w, 34, NAN, 5, 5, 5, &slope),
          drill_forgetting_curve_and_derivative(w, 34, 0, 5, 5, 5, &at_0));
    FLOAT(slope, at_0);
    point = "7, intervals";
    HOLDS(drill_next_interval(w, 34, 5, 0.9998f) > 0);
    FLOAT(drill_next_interval(w, 34, 5, 0.9999f), 0);
    FLOAT(drill_next_interval(w, 34, 5, 2), 0);
    FLOAT(drill_next_interval_bisection(w, 34, 5, 5, 5, 2), 0);
    FLOAT(drill_next_interval(w, 34, 0.001f, -1), drill_next_interval(w, 34, 0.001f, 0.0001f));
    FLOAT(drill_next_interval(w, 34, 1e9f, 0.99f), drill_next_interval(w, 34, 36500, 0.99f));
    FLOAT(drill_next_interval(w, 34, -1, 0.9f), drill_next_interval(w, 34, 0.0001f, 0.9f));
    FLOAT(drill_next_interval_for_state(w, 34, 5, 99, 5, 0.9f), drill_next_interval_for_state(w, 34, 5, 10, 5, 0.9f));
    FLOAT(drill_next_interval(w, 34, INFINITY, 0.0001f), 36500);
    HOLDS(drill_next_interval(w, 34, 5, NAN) >= 0 && drill_next_interval(w, 0, NAN, NAN) >= 0);
    HOLDS(drill_next_interval_bisection(w, 0, NAN, NAN, NAN, NAN) >= 0);
    FLOAT(drill_scheduled(w, 34, 5, 0.9f, 100), 5);
    FLOAT(drill_scheduled(w, 34, 5, 0.9f, 2.5f), 2.5f);
    FLOAT(drill_scheduled(w, 34, 5, 0.9f, 0.5f), 0.5f);
    FLOAT(drill_scheduled(w, 34, 5, 0.9f, -3), -3);
    FLOAT(drill_scheduled(w, 34, 0.0001f, 0.9f, -3), 1);
    FLOAT(drill_scheduled(w, 34, 5, 0.9f, NAN), 5);
}

static void table(void) {
    point = "7, the interval table";
    drill_clear(intervals, PLACES);
    FLOAT(scheduled_in(100, PLACES, 1), 10);
    FLOAT(scheduled_in(50, PLACES, 1), NAN); /* one place, whatever the keys are */
    drill_clear(intervals, PLACES);
    FLOAT(scheduled_in(100, 1, PLACES), 10);
    FLOAT(scheduled_in(50, 1, PLACES), NAN);
    FLOAT(scheduled_in(100, 0, PLACES), NAN);
    drill_clear(intervals, PLACES);
    FLOAT(drill_scheduled_interval(w, 34, 100, 0.9f, 0.5f, keys, 1, intervals, 1), 0.5f);
    FLOAT(scheduled_in(50, 1, 1), 10); /* below 1, so its place stayed free */
    HOLDS(drill_certifies_rounded_interval(w, 34, 5, 0.9f, 5, 100));
    HOLDS(!drill_certifies_rounded_interval(w, 34, 5, 0.9f, 5, 5));
    HOLDS(!drill_certifies_rounded_interval(w, 34, 5, 0.9f, 5, INFINITY));
    COUNT((int32_t)drill_stability_bucket(0.5f) == -693, true);
    COUNT(drill_bucket_index(-1, 0.5f), 0xFFFFFFFE);
    COUNT(drill_bucket_index(2.5f, 1), 3);
    COUNT(drill_bucket_index(1e30f, 1), INT32_MAX);
    COUNT(drill_bucket_index(-1e30f, 1), 0x80000000);
    COUNT(drill_bucket_index(NAN, 1), 0);
    COUNT(drill_retention_bucket(-0.5f), (uint32_t)-1000);
    COUNT(drill_stability_bucket(NAN), drill_stability_bucket(0.0001f));
    COUNT(drill_stability_bucket(-1), drill_stability_bucket(0.0001f));
    COUNT(drill_stability_bucket(36500) - drill_stability_bucket(0.0001f) + 1, 19716);
}

static void heap(void) {
    point = "7, the queue";
    COUNT(drill_card_priority(UINT32_MAX, false, 5), drill_card_priority(INT32_MAX, false, 5));
    HOLDS(drill_card_priority(INT32_MAX - 1, true, 5) < drill_card_priority(INT32_MAX, false, 5));
    COUNT(drill_card_priority(3, false, NAN), drill_card_priority(3, false, 0));
    COUNT(drill_card_priority(3, false, 5.559f), drill_card_priority(3, false, 5.55f));
    struct drill_queue_row rows[2] = {{5, 0x100000007}, {9, 1}};
    COUNT(drill_pop(rows, 2, 0), 0);
    COUNT(drill_pop(rows, 2, 3), 3);
    COUNT(drill_push(rows, 2, 2, 4, 4), 2);
    COUNT(drill_push(rows, 2, UINT32_MAX, 4, 4), UINT32_MAX);
    drill_change_front(rows, 2, 3, 10);
    COUNT(rows[0].key, 5);
    COUNT(drill_peek_index(rows, 2, 0), 7);
    COUNT(drill_peek_index(NULL, 0, 9), 0);
    drill_change_front(rows, 2, 2, 10);
    COUNT(rows[0].key, 9);
    COUNT(rows[1].key, 10);
}

static void refusals(void) {
    point = "8, limits and refusals";
    struct drill_config config = usual;
    config.deck_size = 2;
    config.max_cost_perday = 1;
    COUNT(run(config, NULL, 0), DRILL_OK);
    COUNT(days[0].learned, 2); /* a cost of 1 is not above it */
    config.max_cost_perday = 0.5f;
    COUNT(run(config, NULL, 0), DRILL_OK);
    COUNT(days[0].learned, 1);
    const struct drill_card_state passed_over[2] = {card(0, -1, 0), card(0, -1, 0)};
    const struct drill_answer many = run_with(w, usual, passed_over, 2, PLACES);
    COUNT(many.refusal, DRILL_DECK_SIZE_REFUSED);
    COUNT(many.second, 1);
    /* a chance that is a NaN, of a card that is retired, and of one that is reviewed */
    float odd[34];
    memcpy(odd, w, sizeof odd);
    odd[26] = 2;
    const struct drill_card_state later = card(1, -100, 1), now = card(1, -100, 0);
    COUNT(run_with(odd, usual, &later, 1, PLACES).refusal, DRILL_OK);
    FLOAT(memorized[0], NAN);
    COUNT(run_with(odd, usual, &now, 1, PLACES).refusal, DRILL_CHANCE_REFUSED);
}

static void all_points(void) {
    number = wrong = 0;
    steps();
    elementary();
    the_rusts_bits();
    full_table();
    due_counts();
    introduced();
    sums();
    floats();
    model();
    table();
    heap();
    refusals();
}

int main(void) {
    all_points();
    const int expectations = number;
    if (wrong != 0) {
        printf("header: %d of %d expectations do not hold\n", wrong, expectations);
        return 1;
    }
    int seen = 0;
    for (changed = 1; changed <= expectations; changed++) {
        all_points();
        seen += wrong == 1;
    }
    printf("header: what it says holds at %d points, and each is seen when it is changed: %d\n", expectations, seen);
    return seen != expectations;
}
