/* Lists a small trace through the library, as `pivotspark list` does for a large one: list TRACE.utl
 * Build: gcc -std=c11 -Wall -Wextra -Werror -Iinclude -o list host/c/list.c target/library/libpivotspark.a
 * Status 0: listed. 2: refused or unreadable. */
#include <stdio.h>
#include "pivotspark.h"

/* Rows of each log, and bytes of a trace, of its packets and of its states. A larger trace is refused: 7, no room. */
enum { ROWS = 4096, BYTES = 65536 };

/* All that a decoder is lent. It lies beside the stack, which it might not fit. */
static uint64_t record[PIVOTSPARK_RECORD], table[PIVOTSPARK_TABLE];
static uint8_t shelf[PIVOTSPARK_SHELF];
static uint8_t packet_bytes[BYTES], state_bytes[BYTES];
static uint64_t device_rows[PIVOTSPARK_MOST_DEVICES * PIVOTSPARK_WIDTH_DEVICE_ROWS];
static uint64_t endpoint_rows[PIVOTSPARK_MOST_ENDPOINTS * PIVOTSPARK_WIDTH_ENDPOINT_ROWS];
static uint64_t packets[ROWS * PIVOTSPARK_WIDTH_PACKETS], events[ROWS * PIVOTSPARK_WIDTH_EVENTS];
static uint64_t transactions[ROWS * PIVOTSPARK_WIDTH_TRANSACTIONS], groups[ROWS * PIVOTSPARK_WIDTH_GROUPS];
static uint64_t states[ROWS * PIVOTSPARK_WIDTH_STATES], items[ROWS * PIVOTSPARK_WIDTH_ITEMS];
static uint64_t links[ROWS * PIVOTSPARK_WIDTH_LINKS], requests[ROWS * PIVOTSPARK_WIDTH_REQUESTS];

#define LENT(array) array, sizeof array / sizeof array[0]
static struct pivotspark_logs logs = {
    LENT(packet_bytes), LENT(device_rows), LENT(endpoint_rows), LENT(packets), LENT(events), LENT(transactions),
    LENT(groups), LENT(state_bytes), LENT(states), LENT(items), LENT(links), LENT(requests),
};

/* The trace, and how long it is; one byte more tells that it is too long for us. */
static uint8_t trace[BYTES + 1];
static size_t length;

/* The text, a part at a time. */
static uint8_t out[4096];

static int written(uint64_t count)
{
    return fwrite(out, 1, (size_t)count, stdout) == count;
}

/* Runs the trace. Gives the answer, and in `place` the byte at which it was given. */
static uint8_t run(uint64_t *place)
{
    uint64_t header = pivotspark_header(trace, length), clock[PIVOTSPARK_TICKS] = {0}, told[PIVOTSPARK_TOLD];
    uint8_t answer = (uint8_t)(header >> 56);
    *place = header & (UINT64_MAX >> 8);
    if (answer != PIVOTSPARK_ACCEPTED)
        return answer;
    *place = 0;
    answer = pivotspark_fresh(0, record, table, PIVOTSPARK_LOGS(&logs));
    if (answer != PIVOTSPARK_ACCEPTED)
        return answer;
    answer = pivotspark_block(1, record, clock, trace + PIVOTSPARK_HEADER_SIZE, length - PIVOTSPARK_HEADER_SIZE, table,
        PIVOTSPARK_LOGS(&logs), shelf, told);
    *place = PIVOTSPARK_HEADER_SIZE + told[2];
    if (answer != PIVOTSPARK_ACCEPTED)
        return answer;
    return pivotspark_finish(record, table, PIVOTSPARK_LOGS(&logs));
}

/* The lines of log k, which has n rows, and m state bytes beside it. */
static int lines(uint8_t k, uint64_t n, uint64_t m)
{
    const struct { const uint64_t *log; size_t length; } words[12] = {
        {0, 0}, {LENT(device_rows)}, {LENT(endpoint_rows)}, {LENT(packets)}, {LENT(events)}, {LENT(transactions)},
        {LENT(groups)}, {0, 0}, {LENT(states)}, {LENT(items)}, {LENT(links)}, {LENT(requests)},
    };
    uint64_t from = 0, told[1];
    while (from < n) {
        if (k == PIVOTSPARK_LOG_STATES)
            from = pivotspark_state_lines(from, n, LENT(states), m, LENT(state_bytes), LENT(out), told);
        else
            from = pivotspark_lines(k, from, n, words[k].log, words[k].length, LENT(out), told);
        if (told[0] == 0 || !written(told[0]))
            return 0;
    }
    return 1;
}

static int listing(void)
{
    uint64_t counts[12], m;
    int well = written(pivotspark_title(LENT(out)));
    pivotspark_counts(record, counts);
    m = counts[PIVOTSPARK_LOG_STATEBYTES];
    for (uint8_t k = PIVOTSPARK_LOG_DEVICE_ROWS; well && k <= PIVOTSPARK_LOG_REQUESTS; k++)
        if (k != PIVOTSPARK_LOG_STATEBYTES)
            well = lines(k, counts[k], m);
    return well && written(pivotspark_details_line(pivotspark_details(trace, length), LENT(out)));
}

int main(int count, char **words)
{
    FILE *file = count == 2 ? fopen(words[1], "rb") : NULL;
    uint64_t place;
    uint8_t answer;
    int well;
    if (file == NULL || (length = fread(trace, 1, sizeof trace, file), ferror(file)) || length > BYTES) {
        fprintf(stderr, "usage: list TRACE.utl, a trace of at most %d bytes\n", BYTES);
        return 2;
    }
    fclose(file);
    answer = run(&place);
    well = answer == PIVOTSPARK_ACCEPTED ? listing() : written(pivotspark_refused_line(answer, place, LENT(out)));
    if (!well || fflush(stdout) != 0) {
        fprintf(stderr, "list: standard output could not be written\n");
        return 2;
    }
    return answer == PIVOTSPARK_ACCEPTED ? 0 : 2;
}
