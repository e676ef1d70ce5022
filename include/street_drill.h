/* The street drill forecast: how many streets a sorter learns, reviews and gets right on each day, what that costs in
 * seconds, and how many streets are held in memory; and the cheapest retention.
 *
 * It is the simulation of fsrs-rs with FSRS-7. With this library's draws, exp, ln and powf put into the Rust, all
 * results that were compared have the same bits. With the Rust's own they differ (docs/DIFFERENCES.md).
 *
 * Link libcapi.a, which `tools/build capi` writes (x86-64 Linux). examples/new_round.c is a whole program.
 *
 * - A list is a pointer and its number of places. A list of no places may be NULL. A pointer without a length points to
 * one place.
 * - A list that a call writes overlaps no other argument. Nothing is kept from call to call, so calls on lists of their
 * own may run on threads.
 * - Every function takes every value of its arguments. A run and a search refuse what they cannot use. The others
 * compute with it, and the comment says what they give where that is not plain.
 * - Ratings are 1 again, 2 hard, 3 good, 4 easy. Any NaN is as good as another.
 * - The promises hold in the default float modes (to nearest, subnormals kept): see drill_float_modes_ok. */
#ifndef STREET_DRILL_H
#define STREET_DRILL_H

#include <stdbool.h>
#include <stddef.h>
#include <stdint.h>

#ifdef __cplusplus
extern "C" {
#endif

/* ==== refusals: what drill_simulate and drill_optimal_retention answer
 *
 * Tests are made in the order 1, 2, 3, 4, 6, 2, 5. Refused by 1 to 6, a call has changed no list; its answer has no
 * turns, cards and queued, and the seed as draws. Refused by 7 or 8, a run leaves every list as after its last whole
 * turn, or as set up where there was none; its answer says how far it came. */
enum drill_refusal {
    DRILL_OK = 0,
    /* under 34 parameters, or one of the first 34 is not finite; second: 34 if too few, else the first such index */
    DRILL_PARAMETERS_REFUSED = 1,
    /* deck_size is 0 or over DRILL_MOST_CARDS (second: 0), or there are more existing cards than deck_size, those that
     * would be passed over among them (second: 1) */
    DRILL_DECK_SIZE_REFUSED = 2,
    /* learn_span is not 1 to DRILL_MOST_DAYS */
    DRILL_LEARN_SPAN_REFUSED = 3,
    /* a weight or a cost is negative or not finite; the weights of a row add up to 0 or to no finite number;
     * max_cost_perday is a NaN; max_ivl is not 1 to 36500; the retention is not finite; the rounds of a search are not
     * 1 to 64 */
    DRILL_CONFIG_REFUSED = 4,
    /* a card that has a memory state (stability above 1e-9): stability, due or desired_retention is not finite;
     * last_date is a NaN; due or last_date is beyond 16777216 either way (last_date may be -INFINITY); difficulty is
     * not finite though there is a last_date; lapses are above 4000000000; second: the first such card's place among
     * the existing ones, from 0 */
    DRILL_CARD_REFUSED = 5,
    /* a list is too short, or not as long as the one beside it; list says which (enum drill_list) */
    DRILL_LISTS_REFUSED = 6,
    /* in the run: a card is to be reviewed, and its chance of recall is a NaN or not 0 to 1; second: the card, a place
     * in the list cards. A chance that is only added to memorized is not tested */
    DRILL_CHANCE_REFUSED = 7,
    /* in the run: an interval is to be entered under a new key, and the table holds as many keys as it has places;
     * second: the card. (Under a key that is held an interval is entered over the old one, in a full table too.) Call
     * again with a longer table: whatever length ends Ok, the forecast is the same */
    DRILL_TABLE_FULL = 8,
    /* in the run: a due count would fall below 0; it is proved that no run answers this */
    DRILL_DUE_REFUSED = 9,
    /* in a search: the rounds are used up, or the answer is not within 0.70 to 0.95; second: the rounds done */
    DRILL_NOT_FOUND = 10
};

/* which list refusal 6 is about: the first of these; the needed lengths stand beside */
enum drill_list {
    DRILL_LIST_NONE = 0,
    DRILL_LIST_EXISTING_COUNTS = 1, /* as long as existing_cards */
    DRILL_LIST_INTERVALS = 2,       /* as long as keys: the interval table, of any length */
    DRILL_LIST_COUNTS = 3,          /* as long as cards */
    DRILL_LIST_CARDS = 4,           /* deck_size */
    DRILL_LIST_QUEUE = 5,           /* deck_size */
    DRILL_LIST_DAYS = 6,            /* learn_span */
    DRILL_LIST_COSTS = 7,           /* learn_span */
    DRILL_LIST_MEMORIZED = 8,       /* learn_span */
    DRILL_LIST_DUE = 9              /* DRILL_DUE_LENGTH(learn_span) */
};

#define DRILL_PARAMETERS 34
#define DRILL_MOST_CARDS 65536
#define DRILL_MOST_DAYS 36500
#define DRILL_MOST_ROUNDS 64
#define DRILL_MOST_SAMPLES 181 /* the most that drill_sample_size gives: over 31 days */
#define DRILL_NO_LIMIT UINT32_MAX
#define DRILL_DUE_LENGTH(span) ((size_t)(span) + (size_t)(span) / 2)

/* ==== the run */

/* SimulatorConfig of fsrs-rs. Rows of four are for the ratings 1 to 4, of three for 2 to 4. */
struct drill_config {
    uint32_t deck_size;                 /* streets, 1 to DRILL_MOST_CARDS, the existing ones among them */
    uint32_t learn_span;                /* days, 1 to DRILL_MOST_DAYS */
    float max_cost_perday;              /* a day that has cost more seconds begins nothing more; INFINITY: no limit */
    float max_ivl;                      /* the longest interval in days, 1 to 36500 */
    float first_rating_prob[4];         /* weights of the first rating */
    float review_rating_prob[3];        /* weights of hard, good and easy where a street is recalled */
    uint32_t learn_limit;               /* most learnings a day, or DRILL_NO_LIMIT; 0: no new card is made */
    uint32_t review_limit;              /* most reviews a day, or DRILL_NO_LIMIT */
    bool new_cards_ignore_review_limit; /* false: learnings count against review_limit too */
    /* a card with so many lapses or more is retired: 0 retires every card at its first turn, DRILL_NO_LIMIT none */
    uint32_t suspend_after_lapses;
    /* weights of the next rating in the learning and the relearning steps, by the rating before: 1 to 3 */
    float learning_step_transitions[3][4];
    float relearning_step_transitions[3][4];
    float state_rating_costs[3][4]; /* seconds by learning, review and relearning, and by rating */
    /* Steps are the further ratings after a learning's first one, and those after a lapse. They end at a 4, at so many
     * 3s since the start or the last 1 (a 2 changes nothing), and after five steps. A learning that begins with a 3
     * needs one 3 fewer, also after a later 1; one that begins with a 4 has no steps. 0: no steps */
    uint32_t learning_step_count;
    uint32_t relearning_step_count;
};

/* a card's memory and dates; days are counted from the first of the span */
struct drill_card_state {
    float difficulty;
    float stability; /* an existing card of 1e-9 or below, or a NaN, is passed over: it takes no place in the run */
    float last_date; /* the day of its last event, below 0 for one before the span; -INFINITY: a new card */
    float due;       /* the day it is due */
    float interval;
    float desired_retention;
};

struct drill_card_counts {
    uint32_t reps;
    uint32_t lapses;
};

/* the run's order: by key, the least first (drill_card_priority) */
struct drill_queue_row {
    uint64_t key;
    uint64_t card; /* a place in the list cards */
};

struct drill_day {
    uint32_t learned;
    uint32_t reviewed;
    uint32_t correct;    /* reviews that were recalled */
    uint32_t introduced; /* the run's existing cards that have a last date, be it a later day, and all cards learned up
                            to this day */
};

/* a key of the interval table: buckets of stability and of retention, as the bits of an int32_t */
struct drill_interval_key {
    uint32_t stability;
    uint32_t retention;
};

struct drill_answer {
    uint32_t refusal; /* enum drill_refusal */
    uint32_t second;  /* the refusal's second number, else 0 */
    uint32_t list;    /* enum drill_list where refusal is DRILL_LISTS_REFUSED, else 0 */
    uint32_t turns;   /* taken: learnings, reviews, puttings off and retirings */
    uint32_t cards;   /* the run's cards: so many first places of cards, counts and queue are written */
    uint32_t queued;  /* so many first rows of queue hold the cards still queued: 0 where the run ended */
    uint64_t draws;   /* the generator's state: the seed of a run that goes on from here */
};

/* A run. Of the parameters the first 34 are read, FSRS-7's. New cards are reviewed at desired_retention, existing ones
 * at their own. New cards are made until there are deck_size, but none where learn_limit is 0. The lists that it writes
 * may hold anything before; the interval table (keys and intervals) is emptied first.
 *
 * After it cards and counts are the updated deck: the existing cards that were not passed over, in their order, then
 * the new ones. days, costs (seconds) and memorized (the sum of the cards' chances of recall) have a place for each
 * day.
 *
 * due has a place for each day of the span and of half a span more. It begins with the existing cards of the run, each
 * on the day it is due (day 0 where that is past), with a last date or without. An event adds one on the day for which
 * it schedules the card, so a new card is counted once it is learned; nothing is taken from the event's own day. A card
 * with a last date that is put off moves to the next day.
 *
 * What lies behind a list's needed length stays as it was. Where all cards have one desired retention a table of 32768
 * places serves: a run's stabilities, 0.0001 to 36500, have 19716 buckets (counted over all of them, not proved). */
struct drill_answer
drill_simulate(const float *parameters, size_t parameters_len, const struct drill_card_state *existing_cards,
               size_t existing_cards_len, const struct drill_card_counts *existing_counts, size_t existing_counts_len,
               struct drill_config config, float desired_retention, uint64_t seed, struct drill_card_state *cards,
               size_t cards_len, struct drill_card_counts *counts, size_t counts_len, struct drill_queue_row *queue,
               size_t queue_len, struct drill_day *days, size_t days_len, float *costs, size_t costs_len,
               float *memorized, size_t memorized_len, uint32_t *due, size_t due_len, struct drill_interval_key *keys,
               size_t keys_len, float *intervals, size_t intervals_len);

/* The same with names, by which each list is set (`.costs = costs`): what a run is given, and the lists that it writes.
 * Lists that belong together have one length, which is at least what stands beside it. */
struct drill_inputs {
    const float *parameters;
    size_t parameters_len;
    const struct drill_card_state *existing_cards; /* these two may be NULL where existing_len is 0 */
    const struct drill_card_counts *existing_counts;
    size_t existing_len; /* of both */
    struct drill_config config;
    float desired_retention; /* drill_cheapest does not look at it, nor at the seed */
    uint64_t seed;
};

struct drill_lists {
    struct drill_card_state *cards;
    struct drill_card_counts *counts;
    struct drill_queue_row *queue;
    size_t cards_len; /* of these three: deck_size */
    struct drill_day *days;
    float *costs;
    float *memorized;
    size_t days_len; /* of these three: learn_span */
    uint32_t *due;
    size_t due_len; /* DRILL_DUE_LENGTH(learn_span) */
    struct drill_interval_key *keys;
    float *intervals;
    size_t table_len; /* of both */
};

static inline struct drill_answer drill_forecast(struct drill_inputs inputs, struct drill_lists lists) {
    return drill_simulate(inputs.parameters, inputs.parameters_len, inputs.existing_cards, inputs.existing_len,
                          inputs.existing_counts, inputs.existing_len, inputs.config, inputs.desired_retention,
                          inputs.seed, lists.cards, lists.cards_len, lists.counts, lists.cards_len, lists.queue,
                          lists.cards_len, lists.days, lists.days_len, lists.costs, lists.days_len, lists.memorized,
                          lists.days_len, lists.due, lists.due_len, lists.keys, lists.table_len, lists.intervals,
                          lists.table_len);
}

/* ==== the search for the retention from 0.70 to 0.95 at which runs cost least for each card memorized on the last day
 */

struct drill_found {
    uint32_t refusal; /* enum drill_refusal: 1 to 6 at the entry, 7 or 8 where a run was refused, 10 */
    uint32_t second;
    uint32_t list;
    uint32_t rounds; /* done; 0 where nothing was found */
    float retention; /* 0 where nothing was found */
    float mean; /* the seconds it costs for each card memorized: look at it. A NaN, an infinity or a number below
                   0 says that a trial memorized nothing or less, or that its cost or what it memorized is no finite
                   number, and then the retention means nothing; 0 where nothing was found */
};

/* Arguments as of drill_simulate; rounds is 1 to DRILL_MOST_ROUNDS. The lists are left as by the last run. */
struct drill_found drill_optimal_retention(const float *parameters, size_t parameters_len,
                                           const struct drill_card_state *existing_cards, size_t existing_cards_len,
                                           const struct drill_card_counts *existing_counts, size_t existing_counts_len,
                                           struct drill_config config, uint32_t rounds, struct drill_card_state *cards,
                                           size_t cards_len, struct drill_card_counts *counts, size_t counts_len,
                                           struct drill_queue_row *queue, size_t queue_len, struct drill_day *days,
                                           size_t days_len, float *costs, size_t costs_len, float *memorized,
                                           size_t memorized_len, uint32_t *due, size_t due_len,
                                           struct drill_interval_key *keys, size_t keys_len, float *intervals,
                                           size_t intervals_len);

/* With names, as drill_forecast is. */
static inline struct drill_found drill_cheapest(struct drill_inputs inputs, uint32_t rounds, struct drill_lists lists) {
    return drill_optimal_retention(
        inputs.parameters, inputs.parameters_len, inputs.existing_cards, inputs.existing_len, inputs.existing_counts,
        inputs.existing_len, inputs.config, rounds, lists.cards, lists.cards_len, lists.counts, lists.cards_len,
        lists.queue, lists.cards_len, lists.days, lists.days_len, lists.costs, lists.days_len, lists.memorized,
        lists.days_len, lists.due, lists.due_len, lists.keys, lists.table_len, lists.intervals, lists.table_len);
}

/* The same search one trial at a time, so that a host may make a trial's runs on threads of its own:
 *
 *     struct drill_search s = drill_search_start(64);
 *     for (float r; r = drill_search_next(s), r == r;)
 *         s = drill_search_take(s, mean at r);
 *     if (drill_search_answer(s) == DRILL_OK) use s.state.x, the retention, and s.state.fx, its mean;
 *
 * where the mean at r is drill_mean of drill_target over drill_sample_size(span) runs at r, with the seeds 42, 43, ..
 */
struct drill_brent {
    float a, b, x, v, w, fx, fv, fw, deltax, rat; /* the Rust's names: x is the best so far, fx its mean */
    uint32_t done;                                /* rounds */
};

struct drill_search {
    bool begun;
    uint32_t rounds;
    struct drill_brent state;
};

#define DRILL_SEARCH_OPEN UINT32_MAX

/* of any number of rounds, 0 and those above 64 too. A search of 0 rounds asks for its first trial and is then not
 * found */
struct drill_search drill_search_start(uint32_t rounds);
/* the retention to try; a NaN where there is none: the search has ended */
float drill_search_next(struct drill_search s);
/* the search with the mean of the retention that was to try; a search that has ended stays as it is */
struct drill_search drill_search_take(struct drill_search s, float mean);
/* DRILL_OK, DRILL_NOT_FOUND, or DRILL_SEARCH_OPEN: a retention is still to be tried */
uint32_t drill_search_answer(struct drill_search s);
/* how many runs a trial has, by the days of the span: 180 up to 30, 16 from 365 on, between these by the Rust's
 * formula */
uint32_t drill_sample_size(uint32_t span);
/* what a run of so many days costs for each card memorized on its last day, from the lists that it left: the first span
 * costs added up in their order, over memorized[span - 1]. A NaN where a list is shorter than span. For a span of 0:
 * -0.0f over memorized[0], so a zero or a NaN; a NaN where there is no memorized[0] */
float drill_target(uint32_t span, const float *costs, size_t costs_len, const float *memorized, size_t memorized_len);
/* the mean of the first n, added up in their order. A NaN where n is 0 or the list is shorter */
float drill_mean(const float *targets, size_t targets_len, uint32_t n);

/* ==== the float modes
 *
 * Whether this thread computes in the modes that the promises are for. Another library may have changed them
 * (-ffast-math does), and they are the thread's own: ask on each thread, if in doubt before each call. */
static inline bool drill_float_modes_ok(void) {
    volatile float one = 1.0f, half_step = 5.9604645e-8f, least = 1e-45f, small = 1.17549435e-38f;
    volatile float down = one + half_step, up = one + 3 * half_step, minus = -one - half_step;
    volatile float kept = least * one, halved = small * 0.5f;
    return down == 1.0f && up > 1.0f + 2 * half_step && minus == -1.0f && kept > 0 && halved > 0;
}

/* ==== the memory model, from its 34 parameters; a parameter that is missing counts as a NaN. A rating of 0 counts as
 * 1, one above 4 as 4. What takes a stability alone is of the state with difficulty 5 and the same fast stability: so
 * the run takes its cards. */

/* the parameter of the rating, not yet kept within 0.0001 to 36500 */
float drill_init_stability(const float *w, size_t w_len, uint32_t rating);
/* not yet kept within 1 to 10; a rating above 4 is taken as it is */
float drill_init_difficulty(const float *w, size_t w_len, uint32_t rating);
/* 1 to 10, or a NaN */
float drill_next_difficulty(const float *w, size_t w_len, float difficulty, uint32_t rating, float retention);
/* These three give 0.0001 to 36500, or a NaN, but only for a stability that is one. The first and the third are the
 * same function, and for a rating of 1 they are the second. */
float drill_stability_after_success(const float *w, size_t w_len, float stability, float retention, float difficulty,
                                    uint32_t rating);
float drill_stability_after_failure(const float *w, size_t w_len, float stability, float retention, float difficulty);
float drill_stability_short_term(const float *w, size_t w_len, float stability, float retention, float difficulty,
                                 uint32_t rating);

/* Curves: a t below 0 or a NaN counts as 0, a stability below 0.0001 or a NaN as 0.0001; a difficulty is kept within 1
 * to 10, and one that is a NaN makes the chance a NaN. Odd parameters may give a chance that is a NaN or not 0 to 1. */

/* the chance of recall t days after an event */
float drill_forgetting_curve(const float *w, size_t w_len, float t, float stability);
float drill_forgetting_curve_for_state(const float *w, size_t w_len, float t, float stability, float difficulty,
                                       float fast);
/* the solver's curve, with its derivative: the sum of the curve's two weights is at least 1e-9 in it, also where it is
 * a NaN */
float drill_forgetting_curve_and_derivative(const float *w, size_t w_len, float t, float stability, float difficulty,
                                            float fast, float *derivative);

/* Intervals: the days until the chance of recall has fallen to the desired one; 0 to 36500, never a NaN. The desired
 * retention is kept within 0.0001 to 0.9999, and from 0.9999 on the interval is 0. A stability is kept within 0.0001 to
 * 36500 (by drill_next_interval_bisection only at 0.0001 or more), a difficulty within 1 to 10. Where a stability, the
 * desired retention or the chance is a NaN, the interval means nothing. */

float drill_next_interval(const float *w, size_t w_len, float stability, float desired);
float drill_next_interval_for_state(const float *w, size_t w_len, float stability, float difficulty, float fast,
                                    float desired);
/* by bisection alone; the others take it where Newton's steps fail */
float drill_next_interval_bisection(const float *w, size_t w_len, float stability, float difficulty, float fast,
                                    float desired);
/* drill_next_interval rounded to whole days, then 1 where that is below 1, else the largest where that is above it. So
 * a largest below 1 is given as it is where the whole days are 1 or more, and a NaN cuts nothing */
float drill_scheduled(const float *w, size_t w_len, float stability, float desired, float largest);

/* ==== the interval table: a key beside each interval, a place with an interval below 1 being free. Of two lists of
 * unequal length what the longer has beyond the shorter is no part of the table. */

/* empties it; memory of zeros is an empty table too */
void drill_clear(float *intervals, size_t intervals_len);
/* The interval that is held under the key of the stability and the retention, where drill_certifies_rounded_interval
 * says yes. Else drill_scheduled's, with most as its largest: it is entered under that key, over the one held there, in
 * a full table too, or at a free place. A NaN, and nothing entered, where the key is not held and no place is free.
 * Clear the table before its first use. A most below 1 may enter an interval below 1, and its place stays free. */
float drill_scheduled_interval(const float *w, size_t w_len, float stability, float retention, float most,
                               struct drill_interval_key *keys, size_t keys_len, float *intervals,
                               size_t intervals_len);
/* whether an interval found under a key is one to use; no where a number is not finite, or where the interval is above
 * 1 and not below most */
bool drill_certifies_rounded_interval(const float *w, size_t w_len, float stability, float retention, float interval,
                                      float most);
/* Buckets are the bits of an int32_t: (int32_t)drill_stability_bucket(0.5f) is -693. */

/* how often the step goes into the value, rounded as by drill_round and kept within an int32_t; 0 for a NaN */
uint32_t drill_bucket_index(float value, float step);
/* of its logarithm, by steps of 0.001; a stability below 0.0001 or a NaN counts as 0.0001 */
uint32_t drill_stability_bucket(float stability);
/* by steps of 0.0005 */
uint32_t drill_retention_bucket(float retention);

/* ==== the queue: a heap in the first len rows of a list. Where len is 0 or beyond the list, drill_pop and
 * drill_change_front change nothing, and drill_pop gives len. */

/* by day, then reviews before new cards, then difficulty * 100 as by drill_to_i32. A day above INT32_MAX counts as
 * INT32_MAX */
uint64_t drill_card_priority(uint32_t day, bool is_new, float difficulty);
/* the new len: len + 1, or len where the list has no row more or len is UINT32_MAX, and then the card is not taken in
 */
uint32_t drill_push(struct drill_queue_row *rows, size_t rows_len, uint32_t len, uint32_t card, uint64_t key);
/* the first row's card, the low half of it, whatever len is; 0 in a list of no rows */
uint32_t drill_peek_index(const struct drill_queue_row *rows, size_t rows_len, uint32_t len);
/* the new len, without the first row's card */
uint32_t drill_pop(struct drill_queue_row *rows, size_t rows_len, uint32_t len);
/* the first row takes this key and sinks to its place */
void drill_change_front(struct drill_queue_row *rows, size_t rows_len, uint32_t len, uint64_t key);

/* ==== draws: SplitMix64, whose state begins as the seed; a word is the top half of an output */
uint64_t drill_next(uint64_t *state);
uint32_t drill_word(uint64_t output);
/* the index, from 0, of the weight that the word chooses; 0 where no weight is above 0. It is a rating only after the
 * first of its row is added (1 for four weights, 2 for three), and says nothing for weights that refusal 4 turns away
 */
size_t drill_weighted_index(const float *weights, size_t weights_len, uint32_t word);
/* whether a card of that chance is recalled by the word; a chance that is a NaN is not */
bool drill_recalled(float chance, uint32_t word);

/* ==== numbers, with the same bits on every machine
 *
 * exp, ln and powf are this library's own, not the platform's. A step is the distance between neighbouring floats at
 * the exact value. What is said of them is proved. exp and ln of a NaN are NaNs. */

/* 0 from -87.33655 down (bits C2AEAC50), INFINITY from 88.72284 up (bits 42B17218), within a step between; exp(0) is 1.
 * exp(-88) is 0, where C's expf gives 6.05e-39 */
float drill_exp(float x);
/* of a finite x above 0 within a step or 2^-40, whichever is more, and ln(1) is 0; -INFINITY at 0 and -0, INFINITY at
 * INFINITY, a NaN below 0 */
float drill_ln(float x);
/* Of a finite x above 0 and a finite y: within two steps where x^y is 2^-126 to 2^127, 0 where it is below 2^-127,
 * INFINITY where it is 2^129 or more. Between these, from 2^-127 to 2^-126 and from 2^127 to 2^129, the value is that
 * of crates/elementary/specs/Power.antt, and no bound is proved. powf(2^-70, 2) is 0, where C gives 2^-140.
 * An x below 0, -INFINITY too, gives a NaN unless y is 0; C and the Rust give a number where y is whole or infinite.
 * x^0 and 1^y are 1, even with a NaN; any other NaN gives a NaN. Else zeros and infinities are as in C (Annex F). */
float drill_powf(float x, float y);

/* All but drill_pack are as Rust has them; where Rust leaves the value open or panics, the comment says it. */
bool drill_is_finite(float x);
float drill_abs(float x);
/* of a NaN and a number the number; of two zeros the first, whatever their signs */
float drill_max(float x, float y);
float drill_min(float x, float y);
/* lo where x is below lo, else hi where x is above hi, else x. So with lo above hi it is lo or hi, an end that is a NaN
 * cuts nothing, and an x that is a NaN stays one */
float drill_clamp(float x, float lo, float hi);
/* without the fraction, at most the type's ends; 0 for a NaN */
int32_t drill_to_i32(float x);
uint32_t drill_to_u32(float x);
/* the float nearest to m * 2^(e - 1074), with a sign */
float drill_pack(bool negative, uint64_t m, uint32_t e);
/* the nearest whole number, a half away from 0 */
float drill_round(float x);
/* x * y + z, rounded once */
float drill_mul_add(float x, float y, float z);

#ifdef __cplusplus
}
#endif

#endif
