/* A new round of 120 streets over 30 days, printed as `target/bin/forecast < examples/new_round.txt` prints it. */
#include "street_drill.h"

#include <stdio.h>
#include <string.h>

enum { DECK = 120, SPAN = 30, TABLE = 4096 };

/* A usual list. */
static const float parameters[DRILL_PARAMETERS] = {
    0.1104f, 2.2395f, 3.9221f, 11.7841f, 6.1686f, 0.6457f, 3.0194f, 3.3722f, 0.1666f, 0.796f,  1.4f,    0.2629f,
    1.6483f, 0.6014f, 1.8729f, 3.3722f,  0.1666f, 0.796f,  1.4f,    0.2629f, 1.6483f, 0.6014f, 1.8729f, 0.0392f,
    0.242f,  0.6675f, 0.9137f, 0.4717f,  0.4885f, 0.8136f, 0.698f,  0.4621f, 0.6547f, 0.308f};

/* The default of fsrs-rs, but for the deck, the span and the limits. */
static const struct drill_config config = {
    .deck_size = DECK,
    .learn_span = SPAN,
    .max_cost_perday = 1800,
    .max_ivl = 36500,
    .first_rating_prob = {0.24f, 0.094f, 0.495f, 0.171f},
    .review_rating_prob = {0.224f, 0.631f, 0.145f},
    .learn_limit = 8,
    .review_limit = 60,
    .new_cards_ignore_review_limit = true,
    .suspend_after_lapses = DRILL_NO_LIMIT,
    .learning_step_transitions = {{0.3686f, 0.0628f, 0.5108f, 0.0577f},
                                  {0.0442f, 0.4553f, 0.4457f, 0.0549f},
                                  {0.0519f, 0.047f, 0.8462f, 0.055f}},
    .relearning_step_transitions = {{0.2157f, 0.0643f, 0.6595f, 0.0604f},
                                    {0.05f, 0.4638f, 0.4475f, 0.0387f},
                                    {0.1057f, 0.1434f, 0.7266f, 0.0244f}},
    .state_rating_costs = {{19.58f, 18.79f, 13.78f, 10.71f},
                           {19.38f, 17.59f, 12.38f, 8.94f},
                           {16.44f, 15.25f, 12.32f, 8.03f}},
    .learning_step_count = 2,
    .relearning_step_count = 1,
};

/* What the run writes. */
static struct drill_card_state cards[DECK];
static struct drill_card_counts counts[DECK];
static struct drill_queue_row queue[DECK];
static struct drill_day days[SPAN];
static float costs[SPAN], memorized[SPAN], intervals[TABLE];
static uint32_t due[DRILL_DUE_LENGTH(SPAN)];
static struct drill_interval_key keys[TABLE];

static unsigned bits(float x) {
    uint32_t n;
    memcpy(&n, &x, sizeof n);
    return n;
}

int main(void) {
    const struct drill_inputs inputs = {
        .parameters = parameters,
        .parameters_len = DRILL_PARAMETERS,
        .config = config,
        .desired_retention = 0.9f,
        .seed = 7,
    };
    const struct drill_lists lists = {
        .cards = cards,
        .counts = counts,
        .queue = queue,
        .cards_len = DECK,
        .days = days,
        .costs = costs,
        .memorized = memorized,
        .days_len = SPAN,
        .due = due,
        .due_len = DRILL_DUE_LENGTH(SPAN),
        .keys = keys,
        .intervals = intervals,
        .table_len = TABLE,
    };
    const struct drill_answer answer = drill_forecast(inputs, lists);
    if (answer.refusal != DRILL_OK) return 1;
    printf("(forecast %d (turns %u) (cards %u))\n", SPAN, answer.turns, answer.cards);
    for (int i = 0; i < SPAN; i++)
        printf("(day %d (learn %u) (review %u) (correct %u) (introduced %u) (cost %08X) (held %08X))\n", i,
               days[i].learned, days[i].reviewed, days[i].correct, days[i].introduced, bits(costs[i]),
               bits(memorized[i]));
    return 0;
}
