/* Batches of rules, changes and lines: docs/batch.md says what they are and what is answered. */
#ifndef LINE_BATCH_H
#define LINE_BATCH_H

#include <stdbool.h>
#include <stddef.h>
#include <stdint.h>
#include <string.h>

#ifdef __cplusplus
extern "C" {
#endif

enum line_batch_status {
    LINE_BATCH_RUN = 0,
    LINE_BATCH_MALFORMED = 1, /* no whole record stands at outcome.place */
    LINE_BATCH_NO_ROOM = 2,   /* outcome.lines lines, and fewer masks */
    LINE_BATCH_NO_MEMORY = 3
};

/* A refused change: where its record begins in the batch, and the refusal's number, layer and place. */
struct line_batch_change {
    size_t begin;
    size_t place;
    uint32_t number; /* 0: no change was refused */
    uint32_t layer;
};

struct line_batch_outcome {
    size_t place;
    size_t lines;   /* read, each with a mask */
    size_t refused; /* how many changes */
    struct line_batch_change first;
};

/* Runs a batch on a new reader. Where the status is not LINE_BATCH_RUN, nothing was run and no mask was written. Masks
   beyond the lines are left as they were. No pointer may be null, also where its length is 0, and the memory of the four
   arguments must not overlap. */
uint32_t line_batch_run(const uint8_t *batch, size_t batch_length,
                        uint64_t *masks, size_t masks_length,
                        struct line_batch_outcome *outcome);

/* A batch that is being written into `room` bytes. Each function below appends one record, or answers false and appends
   nothing: where there is no room, or a length is above 65,535. */
struct line_batch {
    uint8_t *bytes;
    size_t length;
    size_t room;
};

static inline bool line_batch_put(struct line_batch *batch, const uint8_t *head, size_t head_length,
                                  const void *bytes, size_t length)
{
    if (length > 65535 || batch->room - batch->length < head_length + 2 + length)
        return false;
    uint8_t *at = batch->bytes + batch->length;
    memcpy(at, head, head_length);
    at[head_length] = (uint8_t)(length >> 8);
    at[head_length + 1] = (uint8_t)length;
    if (length > 0)
        memcpy(at + head_length + 2, bytes, length);
    batch->length += head_length + 2 + length;
    return true;
}

static inline bool line_batch_add(struct line_batch *batch, uint8_t rule, uint16_t kind,
                                  const void *commands, size_t length)
{
    const uint8_t head[4] = {'A', rule, (uint8_t)(kind >> 8), (uint8_t)kind};
    return line_batch_put(batch, head, sizeof head, commands, length);
}

static inline bool line_batch_delete(struct line_batch *batch, uint8_t rule)
{
    if (batch->room - batch->length < 2)
        return false;
    batch->bytes[batch->length++] = 'D';
    batch->bytes[batch->length++] = rule;
    return true;
}

static inline bool line_batch_line(struct line_batch *batch, const void *text, size_t length)
{
    const uint8_t head[1] = {'L'};
    return line_batch_put(batch, head, sizeof head, text, length);
}

#ifdef __cplusplus
}
#endif

#endif
