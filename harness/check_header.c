/* Compiled and linked with the archive by `harness/run`: each function of the header is there, and takes what it says.
 */
#include "street_drill.h"

#include <fenv.h>
#include <stdio.h>
#include <string.h>
#include <xmmintrin.h>

/* Whether the calls with named fields do what those by position do: the same answer and lists, of a deck with an existing
 * card, a run of three days and a search. */
struct written {
    struct drill_card_state cards[2];
    struct drill_card_counts counts[2];
    struct drill_queue_row queue[2];
    struct drill_day days[3];
    float costs[3], memorized[3], intervals[8];
    uint32_t due[DRILL_DUE_LENGTH(3)];
    struct drill_interval_key keys[8];
};

static int named_calls_agree(const float *w, struct drill_config config) {
    static const struct drill_card_state state = {5, 3, -1, 1, 2, 0.8f};
    static const struct drill_card_counts state_counts = {4, 1};
    static struct written plain, named;
    config.deck_size = 2;
    config.learn_span = 3;
    const struct drill_inputs inputs = {
        .parameters = w,
        .parameters_len = DRILL_PARAMETERS,
        .existing_cards = &state,
        .existing_counts = &state_counts,
        .existing_len = 1,
        .config = config,
        .desired_retention = 0.9f,
        .seed = 42,
    };
    const struct drill_lists lists = {
        .cards = named.cards,
        .counts = named.counts,
        .queue = named.queue,
        .cards_len = 2,
        .days = named.days,
        .costs = named.costs,
        .memorized = named.memorized,
        .days_len = 3,
        .due = named.due,
        .due_len = DRILL_DUE_LENGTH(3),
        .keys = named.keys,
        .intervals = named.intervals,
        .table_len = 8,
    };
    const struct drill_answer a = drill_forecast(inputs, lists);
    const struct drill_answer b = drill_simulate(
        w, DRILL_PARAMETERS, &state, 1, &state_counts, 1, config, 0.9f, 42, plain.cards, 2, plain.counts, 2, plain.queue, 2,
        plain.days, 3, plain.costs, 3, plain.memorized, 3, plain.due, DRILL_DUE_LENGTH(3), plain.keys, 8, plain.intervals, 8);
    int good = a.refusal == DRILL_OK && a.cards == 2 && memcmp(&a, &b, sizeof a) == 0 &&
               memcmp(&named, &plain, sizeof named) == 0;
    const struct drill_found f = drill_cheapest(inputs, 5, lists);
    const struct drill_found g = drill_optimal_retention(
        w, DRILL_PARAMETERS, &state, 1, &state_counts, 1, config, 5, plain.cards, 2, plain.counts, 2, plain.queue, 2,
        plain.days, 3, plain.costs, 3, plain.memorized, 3, plain.due, DRILL_DUE_LENGTH(3), plain.keys, 8, plain.intervals, 8);
    good &= memcmp(&f, &g, sizeof f) == 0 && memcmp(&named, &plain, sizeof named) == 0;
    return good;
}

int main(void) {
    const float w[34] = {0.5f, 0.5f, 0.5f, 0.5f, 0.5f, 0.5f, 0.5f, 0.5f, 0.5f, 0.5f, 0.5f, 0.5f,
                         0.5f, 0.5f, 0.5f, 0.5f, 0.5f, 0.5f, 0.5f, 0.5f, 0.5f, 0.5f, 0.5f, 0.5f,
                         0.5f, 0.5f, 0.5f, 0.5f, 0.5f, 0.5f, 0.5f, 0.5f, 0.5f, 0.5f};
    uint64_t state = 0;
    struct drill_queue_row rows[2] = {{0, 0}, {0, 0}};
    struct drill_interval_key keys[2] = {{0, 0}, {0, 0}};
    float intervals[2] = {9, 9}, derivative = 9;
    int good = drill_exp(0) == 1 && drill_ln(1) == 0 && drill_powf(2, 3) == 8;
    good &= drill_is_finite(1) && drill_abs(-1) == 1 && drill_max(1, 2) == 2 && drill_min(1, 2) == 1 &&
            drill_clamp(3, 1, 2) == 2;
    good &= drill_to_i32(-1.5f) == -1 && drill_to_u32(1.5f) == 1 && drill_pack(true, 3, 1074) == -3;
    good &= drill_round(2.5f) == 3 && drill_mul_add(2, 3, 4) == 10;
    good &= drill_next(&state) == 0xE220A8397B1DCDAF && state == 0x9E3779B97F4A7C15 && drill_word(state) == 0x9E3779B9;
    good &= drill_weighted_index(w, 4, 0x80000000) == 2 && drill_recalled(1, 0xFFFFFFFF);
    good &= drill_init_stability(w, 34, 1) == 0.5f && drill_init_difficulty(w, 34, 1) == 0.5f;
    good &= drill_next_difficulty(w, 34, 5, 3, 1) >= 1 && drill_stability_after_success(w, 34, 1, 0.5f, 5, 3) >= 1;
    good &= drill_stability_after_failure(w, 34, 1, 0.5f, 5) <= 1 && drill_stability_short_term(w, 34, 1, 1, 5, 3) >= 1;
    good &= drill_forgetting_curve(w, 34, 1, 1) < 1 && drill_forgetting_curve_for_state(w, 34, 1, 1, 5, 1) < 1;
    good &= drill_forgetting_curve_and_derivative(w, 34, 1, 1, 5, 1, &derivative) < 1 && derivative < 0;
    good &= drill_next_interval_bisection(w, 34, 1, 5, 1, 0.9f) > 0 &&
            drill_next_interval_for_state(w, 34, 1, 5, 1, 0.9f) > 0;
    good &= drill_next_interval(w, 34, 1, 0.9f) > 0 && drill_scheduled(w, 34, 1, 0.9f, 100) == 1;
    good &= drill_push(rows, 2, 0, 7, drill_card_priority(3, true, 5.5f)) == 1;
    good &= drill_peek_index(rows, 2, 1) == 7;
    drill_change_front(rows, 2, 1, drill_card_priority(4, false, 5.5f));
    good &= rows[0].key == ((uint64_t)4 << 33) + ((uint64_t)1 << 31) + 550 && drill_pop(rows, 2, 1) == 0;
    good &=
        drill_bucket_index(0.9f, 0.5f) == 2 && drill_stability_bucket(1) == 0 && drill_retention_bucket(0.9f) == 1800;
    drill_clear(intervals, 2);
    good &= intervals[0] == 0 && intervals[1] == 0;
    good &= drill_scheduled_interval(w, 34, 1, 0.9f, 100, keys, 2, intervals, 2) == 1;
    good &= !drill_certifies_rounded_interval(w, 34, 1, 0, 1, 100);
    good &= drill_push(rows, 0, 0, 7, 1) == 0 && drill_push(NULL, 0, 0, 7, 1) == 0;
    const int modes[3] = {FE_UPWARD, FE_DOWNWARD, FE_TOWARDZERO};
    for (int i = 0; i < 3; i++)
        good &= fesetround(modes[i]) == 0 && !drill_float_modes_ok();
    good &= fesetround(FE_TONEAREST) == 0 && drill_float_modes_ok();
    /* subnormals flushed to 0 as results, and as arguments */
    const unsigned flushed[2] = {0x8000, 0x0040}, usual = _mm_getcsr();
    for (int i = 0; i < 2; i++) {
        _mm_setcsr(usual | flushed[i]);
        good &= !drill_float_modes_ok();
    }
    _mm_setcsr(usual);
    good &= drill_float_modes_ok();
    const struct drill_config config = {
        .deck_size = 1,
        .learn_span = 1,
        .max_cost_perday = 10,
        .max_ivl = 100,
        .first_rating_prob = {0, 0, 0, 1},
        .review_rating_prob = {0, 0, 1},
        .learn_limit = 1,
        .review_limit = 1,
        .new_cards_ignore_review_limit = true,
        .suspend_after_lapses = DRILL_NO_LIMIT,
        .learning_step_transitions = {{1, 1, 1, 1}, {1, 1, 1, 1}, {1, 1, 1, 1}},
        .relearning_step_transitions = {{1, 1, 1, 1}, {1, 1, 1, 1}, {1, 1, 1, 1}},
        .state_rating_costs = {{1, 1, 1, 1}, {1, 1, 1, 1}, {1, 1, 1, 1}},
    };
    struct drill_card_state cards[1] = {{0}};
    struct drill_card_counts counts[1] = {{0}};
    struct drill_queue_row queue[1] = {{0}};
    struct drill_day days[1] = {{0}};
    float costs[1] = {9}, memorized[1] = {9};
    uint32_t due[1] = {9};
    struct drill_answer said =
        drill_simulate(w, DRILL_PARAMETERS, NULL, 0, NULL, 0, config, 0.9f, 42, cards, 1, counts, 1, queue, 1, days, 1,
                       costs, 1, memorized, 1, due, DRILL_DUE_LENGTH(1), keys, 2, intervals, 2);
    good &= said.refusal == DRILL_OK && said.second == 0 && said.list == DRILL_LIST_NONE && said.turns == 2 &&
            said.cards == 1;
    good &= said.queued == 0 && said.draws != 42 && days[0].learned == 1 && days[0].introduced == 1 && costs[0] == 1;
    good &= 0 < memorized[0] && memorized[0] <= 1;
    said = drill_simulate(w, DRILL_PARAMETERS, NULL, 0, NULL, 0, config, 0.9f, 42, cards, 1, counts, 1, queue, 1, days,
                          1, NULL, 0, memorized, 1, due, 1, NULL, 0, NULL, 0);
    good &= said.refusal == DRILL_LISTS_REFUSED && said.list == DRILL_LIST_COSTS && said.draws == 42 && said.cards == 0;
    said = drill_simulate(w, DRILL_PARAMETERS, NULL, 0, NULL, 0, config, 0.9f, 42, cards, 1, counts, 1, queue, 1, days,
                          1, costs, 1, memorized, 1, due, 1, NULL, 0, NULL, 0);
    good &=
        said.refusal == DRILL_TABLE_FULL && said.second == 0 && said.turns == 0 && said.cards == 1 && said.queued == 1;
    struct drill_found found =
        drill_optimal_retention(w, DRILL_PARAMETERS, NULL, 0, NULL, 0, config, DRILL_MOST_ROUNDS, cards, 1, counts, 1,
                                queue, 1, days, 1, costs, 1, memorized, 1, due, 1, keys, 2, intervals, 2);
    good &= found.refusal == DRILL_OK && found.rounds == 6 && found.retention > 0.93f && found.mean >= 1;
    const struct drill_inputs inputs = {
        .parameters = w,
        .parameters_len = DRILL_PARAMETERS,
        .config = config,
        .desired_retention = 0.9f,
        .seed = 42,
    };
    struct drill_lists lists = {
        .cards = cards,
        .counts = counts,
        .queue = queue,
        .cards_len = 1,
        .days = days,
        .costs = costs,
        .memorized = memorized,
        .days_len = 1,
        .due = due,
        .due_len = DRILL_DUE_LENGTH(1),
        .keys = keys,
        .intervals = intervals,
        .table_len = 2,
    };
    good &= named_calls_agree(w, config);
    good &=
        drill_sample_size(30) == 180 && drill_target(1, costs, 1, memorized, 1) >= 1 && drill_mean(costs, 1, 1) == 1;
    /* each length is that of its own lists; with no table the lists are left as set up */
    size_t *const lengths[4] = {&lists.table_len, &lists.due_len, &lists.days_len, &lists.cards_len};
    const uint32_t short_lists[4] = {DRILL_LIST_NONE, DRILL_LIST_DUE, DRILL_LIST_DAYS, DRILL_LIST_CARDS};
    for (int i = 0; i < 4; i++) {
        *lengths[i] = 0;
        const struct drill_answer shorter = drill_forecast(inputs, lists);
        good &= shorter.refusal == (i == 0 ? DRILL_TABLE_FULL : DRILL_LISTS_REFUSED) && shorter.list == short_lists[i];
    }
    struct drill_search search = drill_search_start(DRILL_MOST_ROUNDS);
    good &= drill_search_next(search) == 0.7f && drill_search_answer(search) == DRILL_SEARCH_OPEN;
    search = drill_search_take(search, 1);
    good &= search.begun && search.state.fx == 1 && drill_search_answer(search) == DRILL_SEARCH_OPEN;
    puts(good ? "header: compiled, linked, and each function called" : "header: a function answered wrongly");
    return !good;
}
