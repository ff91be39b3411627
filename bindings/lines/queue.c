/* Events in simulated time, as a heap. */
#include "queue.h"
#include "must.h"
#include <stdlib.h>
#include <string.h>

datagram *datagram_copy(const datagram *d) { return memcpy(must_get(d->size), d, d->size); }

static int is_before(const event *a, const event *b) {
    if (a->at != b->at) return a->at < b->at;
    if ((a->kind == ARRIVAL) != (b->kind == ARRIVAL)) return a->kind == ARRIVAL;
    return a->order < b->order;
}

static void grow(queue *q) {
    q->places = q->places ? 2 * q->places : 256;
    q->heap = must_have(realloc(q->heap, q->places * sizeof *q->heap));
}

void queue_push(queue *q, event e) {
    size_t k = q->count++, above;
    if (q->count > q->places) grow(q);
    e.order = q->pushed++;
    for (; k; k = above) {
        above = (k - 1) / 2;
        if (!is_before(&e, &q->heap[above])) break;
        q->heap[k] = q->heap[above];
    }
    q->heap[k] = e;
}

int queue_pop(queue *q, event *e) {
    event last;
    size_t k = 0, next;
    if (q->count == 0) return 0;
    *e = q->heap[0];
    last = q->heap[--q->count];
    while ((next = 2 * k + 1) < q->count) {
        if (next + 1 < q->count && is_before(&q->heap[next + 1], &q->heap[next])) next++;
        if (!is_before(&q->heap[next], &last)) break;
        q->heap[k] = q->heap[next];
        k = next;
    }
    q->heap[k] = last;
    return 1;
}

void queue_clear(queue *q) {
    for (size_t k = 0; k < q->count; k++) free(q->heap[k].datagram);
    free(q->heap);
    memset(q, 0, sizeof *q);
}
