/*
 * Asks the library for C what checks/predictions asks:
 *
 *     prediction_answers TRACE
 *
 * The trace is opened once. Each line of standard input has the numbers of a question, in the order of struct
 * precopy_question, but for its size. It prints a line for each: the numbers of the prediction, of its errors, of what
 * is enough, of how sure it is, of what comes of it like QEMU and of the shares of the link in their order, or the
 * status alone. It asks the five calls, whose statuses must be equal.
 */
#include "precopy.h"

#include <inttypes.h>
#include <stdio.h>
#include <stdlib.h>

#define LONG_NUMBERS 12
#define SHORT_NUMBERS 5

/* Reads a question, and returns whether there is one. */
static int read_question(struct precopy_question *asked) {
    uint64_t *longs[LONG_NUMBERS] = {&asked->link,      &asked->first,  &asked->downtime, &asked->reserve,
                                     &asked->tick,      &asked->page,   &asked->sampled,  &asked->guest,
                                     &asked->increment, &asked->rounds, &asked->start,    &asked->base};
    uint32_t *shorts[SHORT_NUMBERS] = {&asked->has_first, &asked->has_increment, &asked->has_base, &asked->skip,
                                       &asked->clark};
    for (int i = 0; i < LONG_NUMBERS; i++) {
        if (scanf("%" SCNu64, longs[i]) != 1) {
            return 0;
        }
    }
    for (int i = 0; i < SHORT_NUMBERS; i++) {
        if (scanf("%" SCNu32, shorts[i]) != 1) {
            return 0;
        }
    }
    asked->size = sizeof *asked;
    return 1;
}

static void print_answer(const struct precopy_prediction *it, const struct precopy_errors *errors,
                         const struct precopy_amounts *enough, const struct precopy_agreement *sure,
                         const struct precopy_forecast *forecast, const struct precopy_link_shares *shares) {
    const uint64_t numbers[] = {it->rounds,
                                it->reason,
                                it->stop,
                                it->down,
                                it->total,
                                it->left,
                                it->time,
                                it->bytes,
                                it->downtime,
                                it->recorded,
                                it->converges,
                                it->kept,
                                errors->bytes,
                                errors->time,
                                errors->downtime,
                                errors->has_errors,
                                enough->link,
                                enough->downtime,
                                enough->speed,
                                enough->ending_link,
                                enough->ending_start,
                                enough->has_link,
                                enough->has_downtime,
                                enough->has_speed,
                                enough->has_ending_link,
                                enough->has_ending_start,
                                enough->is_kept,
                                enough->ends,
                                sure->draws,
                                sure->draws_known,
                                sure->draws_converging,
                                sure->draws_kept,
                                sure->starts,
                                sure->starts_converging,
                                sure->starts_kept,
                                sure->converges,
                                sure->kept,
                                forecast->looks,
                                forecast->time,
                                forecast->bytes,
                                forecast->left,
                                forecast->downtime,
                                forecast->end,
                                forecast->kept,
                                shares->percent,
                                shares->converges,
                                shares->below};
    for (size_t i = 0; i < sizeof numbers / sizeof *numbers; i++) {
        printf("%s%" PRIu64, i ? " " : "", numbers[i]);
    }
    printf("\n");
}

/* Tells that a call returns another status than precopy_trace_predict. */
static int differs(const char *call, uint32_t status, uint32_t told) {
    if (status != told) {
        fprintf(stderr, "%s returns %" PRIu32 ", and not %" PRIu32 "\n", call, told, status);
    }
    return status != told;
}

/* Asks all calls, and prints a line. Returns whether their statuses are equal. */
static int answer(const struct precopy_trace *trace, const struct precopy_question *asked) {
    struct precopy_prediction told;
    struct precopy_errors errors;
    struct precopy_amounts enough;
    struct precopy_agreement sure;
    struct precopy_forecast forecast;
    struct precopy_link_shares shares;
    uint32_t status = precopy_trace_predict(trace, asked, &told, &errors);
    if (differs("precopy_trace_enough", status, precopy_trace_enough(trace, asked, &enough))
        || differs("precopy_trace_agreement", status, precopy_trace_agreement(trace, asked, &sure))
        || differs("precopy_trace_forecast", status, precopy_trace_forecast(trace, asked, &forecast))
        || differs("precopy_trace_link_shares", status, precopy_trace_link_shares(trace, asked, &shares))) {
        return 0;
    }
    if (status == PRECOPY_OK) {
        print_answer(&told, &errors, &enough, &sure, &forecast, &shares);
    } else {
        printf("%" PRIu32 "\n", status);
    }
    return 1;
}

int main(int argc, char **argv) {
    FILE *file = argc == 2 ? fopen(argv[1], "rb") : NULL;
    uint8_t *bytes = malloc((size_t)1 << 28);
    if (!file || !bytes) {
        fprintf(stderr, "usage: prediction_answers TRACE\n");
        return 2;
    }
    size_t length = fread(bytes, 1, (size_t)1 << 28, file), most = PRECOPY_WORDS_BOUND(length), needed;
    fclose(file);
    struct precopy_trace trace;
    uint32_t record, *words = malloc(most * sizeof *words);
    uint32_t status =
        words ? precopy_trace_open(bytes, length, words, most, &trace, &needed, &record) : (uint32_t)PRECOPY_NO_MEMORY;
    if (status != PRECOPY_OK) {
        fprintf(stderr, "%s is not opened: %s\n", argv[1], precopy_strerror(status));
        return 1;
    }
    struct precopy_question asked;
    int is_right = 1;
    while (is_right && read_question(&asked)) {
        is_right = answer(&trace, &asked);
    }
    free(words);
    free(bytes);
    return !is_right;
}
