/*
 * Guard pages on both sides of every buffer that a call of the library is given.
 *
 * A program that is linked with this file and -Wl,--wrap=precopy_NAME for each call makes its calls here. Each buffer
 * of a call is copied into memory of its own, between two pages that nobody may touch, and what the call wrote is
 * copied back. If the environment says FENCE=front, buffers begin where the page in front of them ends; otherwise they
 * end where the page behind them begins. So a byte that is read or written beyond that end stops the program. Beyond
 * the other end are bytes of one pattern, and one that is written stops it too. What a call only reads cannot be
 * written.
 */
#define _GNU_SOURCE
#include "fences.h"

FENCED(refusal_text);
uint32_t __wrap_precopy_refusal_text(uint32_t status, uint32_t record, uint8_t *text, size_t text_length,
                                     size_t *needed) {
    struct fences all = {.count = 0};
    return given_back(&all,
                      __real_precopy_refusal_text(status, record, OUT(text, text_length), text_length, OUT(needed, 1)));
}

FENCED(finding_text);
uint32_t __wrap_precopy_finding_text(uint32_t status, const struct precopy_finding *found, uint8_t *text,
                                     size_t text_length, size_t *needed) {
    struct fences all = {.count = 0};
    return given_back(
        &all, __real_precopy_finding_text(status, IN(found, 1), OUT(text, text_length), text_length, OUT(needed, 1)));
}

FENCED(check_trace);
uint32_t __wrap_precopy_check_trace(const uint8_t *trace, size_t length, struct precopy_sizes *sizes,
                                    uint32_t *record) {
    struct fences all = {.count = 0};
    return given_back(&all, __real_precopy_check_trace(IN(trace, length), length, OUT(sizes, 1), OUT(record, 1)));
}

FENCED(check_settings);
uint32_t __wrap_precopy_check_settings(const struct precopy_settings *settings) {
    struct fences all = {.count = 0};
    return given_back(&all, __real_precopy_check_settings(IN(settings, 1)));
}

FENCED(plan);
uint32_t __wrap_precopy_plan(const uint8_t *trace, size_t length, const struct precopy_settings *settings,
                             struct precopy_sums *sums, uint32_t *record) {
    struct fences all = {.count = 0};
    return given_back(&all,
                      __real_precopy_plan(IN(trace, length), length, IN(settings, 1), OUT(sums, 1), OUT(record, 1)));
}

FENCED(report);
uint32_t __wrap_precopy_report(const uint8_t *trace, size_t length, const struct precopy_settings *settings,
                               uint8_t *text, size_t text_length, size_t *needed, uint32_t *record) {
    struct fences all = {.count = 0};
    return given_back(&all, __real_precopy_report(IN(trace, length), length, IN(settings, 1), OUT(text, text_length),
                                                  text_length, OUT(needed, 1), OUT(record, 1)));
}

FENCED(memory);
uint32_t __wrap_precopy_memory(const uint8_t *trace, size_t length, uint8_t *memory, size_t memory_length,
                               size_t *needed, uint32_t *record) {
    struct fences all = {.count = 0};
    return given_back(&all, __real_precopy_memory(IN(trace, length), length, OUT(memory, memory_length), memory_length,
                                                  OUT(needed, 1), OUT(record, 1)));
}

/* A handle whose bytes and words lie between guard pages too. */
static const struct precopy_trace *open_trace(struct fences *fences, const struct precopy_trace *trace,
                                              struct precopy_trace *meanwhile) {
    *meanwhile = *trace;
    meanwhile->bytes = read_only(fences, trace->bytes, trace->bytes_length);
    meanwhile->words = read_only(fences, trace->words, trace->words_length * sizeof *trace->words);
    return read_only(fences, meanwhile, sizeof *meanwhile);
}

FENCED(trace_open);
uint32_t __wrap_precopy_trace_open(const uint8_t *bytes, size_t bytes_length, uint32_t *words, size_t words_length,
                                   struct precopy_trace *trace, size_t *needed, uint32_t *record) {
    struct fences all = {.count = 0};
    uint32_t status =
        given_back(&all, __real_precopy_trace_open(IN(bytes, bytes_length), bytes_length, OUT(words, words_length),
                                                   words_length, OUT(trace, 1), OUT(needed, 1), OUT(record, 1)));
    if (status == PRECOPY_OK) {
        trace->bytes = bytes, trace->words = words; /* and not where they lay meanwhile */
    }
    return status;
}

FENCED(trace_writes_before);
uint32_t __wrap_precopy_trace_writes_before(const struct precopy_trace *trace, uint64_t tick, uint32_t *count) {
    struct fences all = {.count = 0};
    struct precopy_trace meanwhile;
    return given_back(&all,
                      __real_precopy_trace_writes_before(open_trace(&all, trace, &meanwhile), tick, OUT(count, 1)));
}

FENCED(trace_memory_before);
uint32_t __wrap_precopy_trace_memory_before(const struct precopy_trace *trace, uint64_t tick, uint8_t *memory,
                                            size_t memory_length, size_t *needed) {
    struct fences all = {.count = 0};
    struct precopy_trace meanwhile;
    return given_back(&all,
                      __real_precopy_trace_memory_before(open_trace(&all, trace, &meanwhile), tick,
                                                         OUT(memory, memory_length), memory_length, OUT(needed, 1)));
}

FENCED(trace_plan);
uint32_t __wrap_precopy_trace_plan(const struct precopy_trace *trace, const struct precopy_settings *settings,
                                   struct precopy_sums *sums) {
    struct fences all = {.count = 0};
    struct precopy_trace meanwhile;
    return given_back(&all,
                      __real_precopy_trace_plan(open_trace(&all, trace, &meanwhile), IN(settings, 1), OUT(sums, 1)));
}

FENCED(trace_report);
uint32_t __wrap_precopy_trace_report(const struct precopy_trace *trace, const struct precopy_settings *settings,
                                     uint8_t *text, size_t text_length, size_t *needed) {
    struct fences all = {.count = 0};
    struct precopy_trace meanwhile;
    return given_back(&all, __real_precopy_trace_report(open_trace(&all, trace, &meanwhile), IN(settings, 1),
                                                        OUT(text, text_length), text_length, OUT(needed, 1)));
}

FENCED(trace_rounds);
uint32_t __wrap_precopy_trace_rounds(const struct precopy_trace *trace, const struct precopy_settings *settings,
                                     struct precopy_round *rounds, size_t rounds_length, size_t *count) {
    struct fences all = {.count = 0};
    struct precopy_trace meanwhile;
    return given_back(&all, __real_precopy_trace_rounds(open_trace(&all, trace, &meanwhile), IN(settings, 1),
                                                        OUT(rounds, rounds_length), rounds_length, OUT(count, 1)));
}

FENCED(trace_sweep);
uint32_t __wrap_precopy_trace_sweep(const struct precopy_trace *trace, const struct precopy_settings *cases,
                                    size_t cases_length, struct precopy_sums *sums, size_t sums_length, size_t *best) {
    struct fences all = {.count = 0};
    struct precopy_trace meanwhile;
    return given_back(&all,
                      __real_precopy_trace_sweep(open_trace(&all, trace, &meanwhile), IN(cases, cases_length),
                                                 cases_length, OUT(sums, sums_length), sums_length, OUT(best, 1)));
}

FENCED(trace_predict);
uint32_t __wrap_precopy_trace_predict(const struct precopy_trace *trace, const struct precopy_question *question,
                                      struct precopy_prediction *prediction, struct precopy_errors *errors) {
    struct fences all = {.count = 0};
    struct precopy_trace meanwhile;
    return given_back(&all, __real_precopy_trace_predict(open_trace(&all, trace, &meanwhile), IN(question, 1),
                                                         OUT(prediction, 1), OUT(errors, 1)));
}

FENCED(trace_enough);
uint32_t __wrap_precopy_trace_enough(const struct precopy_trace *trace, const struct precopy_question *question,
                                     struct precopy_amounts *amounts) {
    struct fences all = {.count = 0};
    struct precopy_trace meanwhile;
    return given_back(
        &all, __real_precopy_trace_enough(open_trace(&all, trace, &meanwhile), IN(question, 1), OUT(amounts, 1)));
}

FENCED(trace_agreement);
uint32_t __wrap_precopy_trace_agreement(const struct precopy_trace *trace, const struct precopy_question *question,
                                        struct precopy_agreement *agreement) {
    struct fences all = {.count = 0};
    struct precopy_trace meanwhile;
    return given_back(
        &all, __real_precopy_trace_agreement(open_trace(&all, trace, &meanwhile), IN(question, 1), OUT(agreement, 1)));
}

FENCED(trace_forecast);
uint32_t __wrap_precopy_trace_forecast(const struct precopy_trace *trace, const struct precopy_question *question,
                                       struct precopy_forecast *forecast) {
    struct fences all = {.count = 0};
    struct precopy_trace meanwhile;
    return given_back(
        &all, __real_precopy_trace_forecast(open_trace(&all, trace, &meanwhile), IN(question, 1), OUT(forecast, 1)));
}

FENCED(trace_link_shares);
uint32_t __wrap_precopy_trace_link_shares(const struct precopy_trace *trace, const struct precopy_question *question,
                                          struct precopy_link_shares *shares) {
    struct fences all = {.count = 0};
    struct precopy_trace meanwhile;
    return given_back(
        &all, __real_precopy_trace_link_shares(open_trace(&all, trace, &meanwhile), IN(question, 1), OUT(shares, 1)));
}

FENCED(trace_best_start);
uint32_t __wrap_precopy_trace_best_start(const struct precopy_trace *trace, const struct precopy_question *question,
                                         const struct precopy_starts *starts, struct precopy_best_start *best,
                                         struct precopy_errors *errors) {
    struct fences all = {.count = 0};
    struct precopy_trace meanwhile;
    return given_back(&all, __real_precopy_trace_best_start(open_trace(&all, trace, &meanwhile), IN(question, 1),
                                                            IN(starts, 1), OUT(best, 1), OUT(errors, 1)));
}

FENCED(trace_memory_step);
uint32_t __wrap_precopy_trace_memory_step(const struct precopy_trace *trace, uint32_t from, uint32_t to,
                                          uint8_t *memory, size_t memory_length) {
    struct fences all = {.count = 0};
    struct precopy_trace meanwhile;
    return given_back(&all, __real_precopy_trace_memory_step(open_trace(&all, trace, &meanwhile), from, to,
                                                             OUT(memory, memory_length), memory_length));
}

FENCED(trace_page_writes);
uint32_t __wrap_precopy_trace_page_writes(const struct precopy_trace *trace, uint32_t page,
                                          struct precopy_write *writes, size_t writes_length, size_t *count) {
    struct fences all = {.count = 0};
    struct precopy_trace meanwhile;
    return given_back(&all, __real_precopy_trace_page_writes(open_trace(&all, trace, &meanwhile), page,
                                                             OUT(writes, writes_length), writes_length, OUT(count, 1)));
}

FENCED(trace_version_after);
uint32_t __wrap_precopy_trace_version_after(const struct precopy_trace *trace, uint32_t page, uint32_t count,
                                            uint32_t *version) {
    struct fences all = {.count = 0};
    struct precopy_trace meanwhile;
    return given_back(
        &all, __real_precopy_trace_version_after(open_trace(&all, trace, &meanwhile), page, count, OUT(version, 1)));
}

FENCED(trace_versions_after);
uint32_t __wrap_precopy_trace_versions_after(const struct precopy_trace *trace, uint32_t count, uint32_t *versions,
                                             size_t versions_length, size_t *needed) {
    struct fences all = {.count = 0};
    struct precopy_trace meanwhile;
    return given_back(&all, __real_precopy_trace_versions_after(open_trace(&all, trace, &meanwhile), count,
                                                                OUT(versions, versions_length), versions_length,
                                                                OUT(needed, 1)));
}

FENCED(trace_versions_before);
uint32_t __wrap_precopy_trace_versions_before(const struct precopy_trace *trace, uint64_t tick, uint32_t *versions,
                                              size_t versions_length, size_t *needed) {
    struct fences all = {.count = 0};
    struct precopy_trace meanwhile;
    return given_back(&all, __real_precopy_trace_versions_before(open_trace(&all, trace, &meanwhile), tick,
                                                                 OUT(versions, versions_length), versions_length,
                                                                 OUT(needed, 1)));
}

FENCED(trace_page_at);
uint32_t __wrap_precopy_trace_page_at(const struct precopy_trace *trace, uint32_t page, uint32_t stamp,
                                      uint8_t *content, size_t content_length) {
    struct fences all = {.count = 0};
    struct precopy_trace meanwhile;
    return given_back(&all, __real_precopy_trace_page_at(open_trace(&all, trace, &meanwhile), page, stamp,
                                                         OUT(content, content_length), content_length));
}

FENCED(trace_check_piece);
uint32_t __wrap_precopy_trace_check_piece(const struct precopy_trace *trace, const uint8_t *piece, size_t piece_length,
                                          struct precopy_progress *progress, uint32_t *last, size_t last_length,
                                          uint32_t *greatest, size_t greatest_length, uint8_t *memory,
                                          size_t memory_length, struct precopy_finding *found) {
    struct fences all = {.count = 0};
    struct precopy_trace meanwhile;
    return given_back(&all, __real_precopy_trace_check_piece(
                                open_trace(&all, trace, &meanwhile), IN(piece, piece_length), piece_length,
                                OUT(progress, 1), OUT(last, last_length), last_length, OUT(greatest, greatest_length),
                                greatest_length, OUT(memory, memory_length), memory_length, OUT(found, 1)));
}

FENCED(end_stream);
uint32_t __wrap_precopy_end_stream(const struct precopy_progress *progress, size_t left,
                                   struct precopy_finding *found) {
    struct fences all = {.count = 0};
    return given_back(&all, __real_precopy_end_stream(IN(progress, 1), left, OUT(found, 1)));
}

FENCED(trace_check_pages);
uint32_t __wrap_precopy_trace_check_pages(const struct precopy_trace *trace, const struct precopy_progress *progress,
                                          const uint32_t *greatest, size_t greatest_length,
                                          struct precopy_finding *found) {
    struct fences all = {.count = 0};
    struct precopy_trace meanwhile;
    return given_back(&all,
                      __real_precopy_trace_check_pages(open_trace(&all, trace, &meanwhile), IN(progress, 1),
                                                       IN(greatest, greatest_length), greatest_length, OUT(found, 1)));
}

FENCED(trace_check_base);
uint32_t __wrap_precopy_trace_check_base(const struct precopy_trace *trace, uint64_t tick, uint32_t *greatest,
                                         size_t greatest_length, uint8_t *memory, size_t memory_length) {
    struct fences all = {.count = 0};
    struct precopy_trace meanwhile;
    return given_back(&all, __real_precopy_trace_check_base(open_trace(&all, trace, &meanwhile), tick,
                                                            OUT(greatest, greatest_length), greatest_length,
                                                            OUT(memory, memory_length), memory_length));
}

FENCED(trace_check_bytes);
uint32_t __wrap_precopy_trace_check_bytes(const struct precopy_trace *trace, uint32_t stop, uint32_t page,
                                          const uint8_t *content, size_t content_length, uint32_t *greatest,
                                          size_t greatest_length, uint8_t *memory, size_t memory_length) {
    struct fences all = {.count = 0};
    struct precopy_trace meanwhile;
    return given_back(&all, __real_precopy_trace_check_bytes(open_trace(&all, trace, &meanwhile), stop, page,
                                                             IN(content, content_length), content_length,
                                                             OUT(greatest, greatest_length), greatest_length,
                                                             OUT(memory, memory_length), memory_length));
}

FENCED(trace_differs);
uint32_t __wrap_precopy_trace_differs(const struct precopy_trace *trace, uint32_t count, const uint8_t *memory,
                                      size_t memory_length, uint8_t *room, size_t room_length,
                                      struct precopy_finding *found) {
    struct fences all = {.count = 0};
    struct precopy_trace meanwhile;
    return given_back(&all, __real_precopy_trace_differs(open_trace(&all, trace, &meanwhile), count,
                                                         IN(memory, memory_length), memory_length,
                                                         OUT(room, room_length), room_length, OUT(found, 1)));
}

FENCED(encode_frame);
uint32_t __wrap_precopy_encode_frame(const struct precopy_sizes *sizes, uint32_t page, uint32_t stamp,
                                     const uint8_t *bytes, size_t bytes_length, uint8_t *frame, size_t frame_length,
                                     size_t *needed) {
    struct fences all = {.count = 0};
    return given_back(&all,
                      __real_precopy_encode_frame(IN(sizes, 1), page, stamp, IN(bytes, bytes_length), bytes_length,
                                                  OUT(frame, frame_length), frame_length, OUT(needed, 1)));
}

FENCED(decode_frame);
uint32_t __wrap_precopy_decode_frame(const struct precopy_sizes *sizes, const uint8_t *bytes, size_t bytes_length,
                                     struct precopy_frame *frame, uint8_t *content, size_t content_length) {
    struct fences all = {.count = 0};
    return given_back(&all, __real_precopy_decode_frame(IN(sizes, 1), IN(bytes, bytes_length), bytes_length,
                                                        OUT(frame, 1), OUT(content, content_length), content_length));
}

FENCED(accept);
uint32_t __wrap_precopy_accept(const struct precopy_sizes *sizes, const uint8_t *stream, size_t stream_length,
                               uint8_t *memory, size_t memory_length, struct precopy_page *pages, size_t pages_length,
                               struct precopy_taken *taken) {
    struct fences all = {.count = 0};
    return given_back(&all, __real_precopy_accept(IN(sizes, 1), IN(stream, stream_length), stream_length,
                                                  OUT(memory, memory_length), memory_length, OUT(pages, pages_length),
                                                  pages_length, OUT(taken, 1)));
}

FENCED(missing);
uint32_t __wrap_precopy_missing(const struct precopy_page *pages, size_t pages_length, size_t *page) {
    struct fences all = {.count = 0};
    return given_back(&all, __real_precopy_missing(IN(pages, pages_length), pages_length, OUT(page, 1)));
}

FENCED(check_streams);
uint32_t __wrap_precopy_check_streams(const uint8_t *trace, size_t length, uint32_t stop, const uint8_t *bytes,
                                      size_t bytes_length, const size_t *sizes, size_t sizes_length,
                                      struct precopy_finding *found, uint32_t *record) {
    struct fences all = {.count = 0};
    return given_back(&all, __real_precopy_check_streams(IN(trace, length), length, stop, IN(bytes, bytes_length),
                                                         bytes_length, IN(sizes, sizes_length), sizes_length,
                                                         OUT(found, 1), OUT(record, 1)));
}

FENCED(record_begin);
uint32_t __wrap_precopy_record_begin(uint8_t *trace, size_t length, uint32_t shift, uint32_t pages,
                                     struct precopy_recording *recording) {
    struct fences all = {.count = 0};
    return given_back(&all, __real_precopy_record_begin(OUT(trace, length), length, shift, pages, OUT(recording, 1)));
}

FENCED(record_write);
uint32_t __wrap_precopy_record_write(uint8_t *trace, size_t length, struct precopy_recording *recording, uint64_t tick,
                                     uint32_t page, uint32_t offset, const uint8_t *bytes, size_t bytes_length) {
    struct fences all = {.count = 0};
    return given_back(&all, __real_precopy_record_write(OUT(trace, length), length, OUT(recording, 1), tick, page,
                                                        offset, IN(bytes, bytes_length), bytes_length));
}

FENCED(record_release);
uint32_t __wrap_precopy_record_release(uint8_t *trace, size_t length, struct precopy_recording *recording,
                                       uint64_t tick, uint32_t page) {
    struct fences all = {.count = 0};
    return given_back(&all, __real_precopy_record_release(OUT(trace, length), length, OUT(recording, 1), tick, page));
}

FENCED(is_zero);
bool __wrap_precopy_is_zero(const uint8_t *bytes, size_t length) {
    struct fences all = {.count = 0};
    return given_back(&all, __real_precopy_is_zero(IN(bytes, length), length));
}
