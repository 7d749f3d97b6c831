/* Pivotspark, a USB 2.0 traffic decoder: the entries of its static library, libpivotspark.a (scripts/library).
 * Written by scripts/header from the library's source. docs/TOOLS.md says how to use it; host/c/list.c is an example.
 *
 * Every entry is proved to do what its contract says, whatever the memory holds that it is lent. What no contract can
 * say is the caller's part:
 *   - no pointer is null, also where its length is 0, and each is aligned as its type asks;
 *   - a pointer X has X_len elements behind it (elements, not bytes), an array as many as stand in its brackets, and
 *     all of them can be read and, unless they are const, written;
 *   - no two arrays that are lent to one call overlap, unless both are const;
 *   - nobody else touches them during the call (reads what is const, at most).
 * The library has no memory of its own: what a decoder knows lies in its record, table, shelf and logs. So calls on
 * different arrays may run side by side, and a decoder is copied by copying these. A call takes less than 256 KiB of
 * stack, and calls nothing of the C library but memcpy, memmove and memset.
 */
#ifndef PIVOTSPARK_H
#define PIVOTSPARK_H

#include <stddef.h>
#include <stdint.h>

#ifdef __cplusplus
extern "C" {
#endif

/* Answers (docs/TOOLS.md). A call that is refused, so neither 0 nor 8, changes nothing, except that a fresh
 * decoder which is refused leaves a record that every call answers 1; of a block, the records before the one that is
 * refused are taken. */
#define PIVOTSPARK_ACCEPTED 0 /* accepted */
#define PIVOTSPARK_NOT_FORMED 1 /* a lent log is too long, or the record is not well formed */
#define PIVOTSPARK_FINISHED 2 /* the decoder was finished before */
#define PIVOTSPARK_LONG_PACKET 3 /* a packet of more than 4,096 bytes */
#define PIVOTSPARK_EVENT_KIND 4 /* an event kind above 7 */
#define PIVOTSPARK_DETAIL_FIELDS 5 /* a detail with a number above 15, a type above 3, a direction above 1, or number 0 that is not control */
#define PIVOTSPARK_NO_DEVICE 6 /* a detail for an address with no device */
#define PIVOTSPARK_NO_ROOM 7 /* no room: a log, or the number of devices or endpoints, is at its limit */
#define PIVOTSPARK_DROPPED 8 /* accepted: a packet came while the suspended transaction had no endpoint, and that transaction was dropped */
#define PIVOTSPARK_TOTAL 9 /* an endpoint's byte total would pass 2^64 - 1 */
#define PIVOTSPARK_MARK 10 /* no UTL trace: its first three bytes are not the mark */
#define PIVOTSPARK_VERSION 11 /* a version of the trace other than 1, or none */
#define PIVOTSPARK_TAG 12 /* a record with an unknown tag */
#define PIVOTSPARK_CUT 13 /* a record that is cut short */
#define PIVOTSPARK_PCAP_MARK 14 /* no pcap file: its first four bytes are none of the marks, or its head is cut short */
#define PIVOTSPARK_PCAP_LINK 15 /* a pcap file whose link type is not 288, USB 2.0 packets */
#define PIVOTSPARK_PCAP_CUT 16 /* a record of a pcap file that is cut short, or whose packet was not captured whole */
#define PIVOTSPARK_PCAP_FRACTION 17 /* a record of a pcap file whose fraction is not below one second */
#define PIVOTSPARK_PCAP_SECONDS 18 /* a time whose seconds do not fit the 32 bits of a pcap file */
#define PIVOTSPARK_DETAIL_IN_BLOCK 20 /* a detail, which a block may not hold */

/* The elements of the arrays that have a fixed length. */
#define PIVOTSPARK_RECORD 2368 /* uint64_t */
#define PIVOTSPARK_TICKS 3 /* uint64_t */
#define PIVOTSPARK_TABLE 2704 /* uint64_t */
#define PIVOTSPARK_SHELF 524288 /* uint8_t */
#define PIVOTSPARK_TOLD 3 /* uint64_t */
#define PIVOTSPARK_PCAPFORMAT 2 /* uint64_t */

/* The most that there may be. A log that is longer is answered 1. */
#define PIVOTSPARK_MOST_ROWS 16777216 /* rows of a log */
#define PIVOTSPARK_MOST_BYTES 1073741824 /* bytes of bytes and of statebytes */
#define PIVOTSPARK_MOST_DEVICES 64 /* devices, whatever the log's length */
#define PIVOTSPARK_MOST_ENDPOINTS 128 /* endpoints, likewise */
#define PIVOTSPARK_MOST_PACKET 4096 /* bytes of a packet */
#define PIVOTSPARK_HEADER_SIZE 5 /* bytes of a trace before its first record */
#define PIVOTSPARK_PCAP_HEAD_SIZE 24 /* bytes of a pcap file before its first record */
#define PIVOTSPARK_PCAP_MICROSECONDS 2712847316 /* mark of a pcap file, in either byte order: times in microseconds */
#define PIVOTSPARK_PCAP_NANOSECONDS 2712812621 /* mark of a pcap file, likewise: times in nanoseconds */

/* The twelve logs, by number: the words of a row (of bytes and statebytes, a byte is a row), and what they are. A log has room
 * for its length divided by that, rounded down. */
#define PIVOTSPARK_LOG_BYTES 0
#define PIVOTSPARK_WIDTH_BYTES 1 /* the packets' bytes, one behind the other */
#define PIVOTSPARK_LOG_DEVICE_ROWS 1
#define PIVOTSPARK_WIDTH_DEVICE_ROWS 1 /* address */
#define PIVOTSPARK_LOG_ENDPOINT_ROWS 2
#define PIVOTSPARK_WIDTH_ENDPOINT_ROWS 3 /* device row; number (16 event, 17 invalid, 18 framing); direction (1: in) */
#define PIVOTSPARK_LOG_PACKETS 3
#define PIVOTSPARK_WIDTH_PACKETS 2 /* where its bytes start in bytes; time */
#define PIVOTSPARK_LOG_EVENTS 4
#define PIVOTSPARK_WIDTH_EVENTS 2 /* packet row; code */
#define PIVOTSPARK_LOG_TRANSACTIONS 5
#define PIVOTSPARK_WIDTH_TRANSACTIONS 2 /* packet row; why that packet is malformed (0: it is not) */
#define PIVOTSPARK_LOG_GROUPS 6
#define PIVOTSPARK_WIDTH_GROUPS 5 /* endpoint row; the endpoint's group; 1 for its start; packet row and time of the call */
#define PIVOTSPARK_LOG_STATEBYTES 7
#define PIVOTSPARK_WIDTH_STATEBYTES 1 /* states of endpoints: 0 idle, 1 starting, 2 ongoing, 3 ending */
#define PIVOTSPARK_LOG_STATES 8
#define PIVOTSPARK_WIDTH_STATES 1 /* where its bytes start in statebytes; they go on up to the next row's */
#define PIVOTSPARK_LOG_ITEMS 9
#define PIVOTSPARK_WIDTH_ITEMS 1 /* group row */
#define PIVOTSPARK_LOG_LINKS 10
#define PIVOTSPARK_WIDTH_LINKS 4 /* kind (0 T, 1 G, 2 D, 3 E); endpoint row; two numbers */
#define PIVOTSPARK_LOG_REQUESTS 11
#define PIVOTSPARK_WIDTH_REQUESTS 4 /* endpoint row; the 8 setup bytes, the first lowest; length; note */

/* The logs as each call is lent them; all of the caller's choosing, up to the limits. */
struct pivotspark_logs {
    uint8_t *bytes;
    size_t bytes_len;
    uint64_t *device_rows;
    size_t device_rows_len;
    uint64_t *endpoint_rows;
    size_t endpoint_rows_len;
    uint64_t *packets;
    size_t packets_len;
    uint64_t *events;
    size_t events_len;
    uint64_t *transactions;
    size_t transactions_len;
    uint64_t *groups;
    size_t groups_len;
    uint8_t *statebytes;
    size_t statebytes_len;
    uint64_t *states;
    size_t states_len;
    uint64_t *items;
    size_t items_len;
    uint64_t *links;
    size_t links_len;
    uint64_t *requests;
    size_t requests_len;
};

/* How a prototype says the logs where all may be written, and how a call passes them: PIVOTSPARK_LOGS(&logs). */
#define PIVOTSPARK_LOG_PARAMETERS \
    uint8_t *bytes, size_t bytes_len, \
    uint64_t *device_rows, size_t device_rows_len, \
    uint64_t *endpoint_rows, size_t endpoint_rows_len, \
    uint64_t *packets, size_t packets_len, \
    uint64_t *events, size_t events_len, \
    uint64_t *transactions, size_t transactions_len, \
    uint64_t *groups, size_t groups_len, \
    uint8_t *statebytes, size_t statebytes_len, \
    uint64_t *states, size_t states_len, \
    uint64_t *items, size_t items_len, \
    uint64_t *links, size_t links_len, \
    uint64_t *requests, size_t requests_len
#define PIVOTSPARK_LOGS(l) \
    (l)->bytes, (l)->bytes_len, \
    (l)->device_rows, (l)->device_rows_len, \
    (l)->endpoint_rows, (l)->endpoint_rows_len, \
    (l)->packets, (l)->packets_len, \
    (l)->events, (l)->events_len, \
    (l)->transactions, (l)->transactions_len, \
    (l)->groups, (l)->groups_len, \
    (l)->statebytes, (l)->statebytes_len, \
    (l)->states, (l)->states_len, \
    (l)->items, (l)->items_len, \
    (l)->links, (l)->links_len, \
    (l)->requests, (l)->requests_len

/* The records from the first byte on. A detail is obeyed where `typed` is not 0, as in a trace, and else refused.
 * `clock` has the tick state before the records, and gets that after those taken: whether there was a tick (0 or 1),
 * the last counter, the time; zeros before the first record. `told` gets the records taken, how many of them were
 * answered 8, and the place in `records` where it stopped. Answers 0 at the end of the records, else the answer of the
 * record at that place: of its call, or 12, 13, 20. */
uint8_t pivotspark_block(uint8_t typed, uint64_t record[PIVOTSPARK_RECORD], uint64_t clock[PIVOTSPARK_TICKS],
    const uint8_t *records, size_t records_len, uint64_t table[PIVOTSPARK_TABLE], PIVOTSPARK_LOG_PARAMETERS,
    uint8_t shelf[PIVOTSPARK_SHELF], uint64_t told[PIVOTSPARK_TOLD]);

/* The numbers of the next rows, in the order of the logs. So many rows each log has. */
void pivotspark_counts(const uint64_t record[PIVOTSPARK_RECORD], uint64_t counts[12]);

/* An event of this kind, with this code at this time. Answers 0 to 2, 4, 7 or 9. */
uint8_t pivotspark_event(uint64_t record[PIVOTSPARK_RECORD], uint8_t kind, uint8_t code, uint64_t time,
    uint64_t table[PIVOTSPARK_TABLE], const uint8_t *bytes, size_t bytes_len,
    const uint64_t *device_rows, size_t device_rows_len, const uint64_t *endpoint_rows, size_t endpoint_rows_len,
    uint64_t *packets, size_t packets_len, uint64_t *events, size_t events_len,
    uint64_t *transactions, size_t transactions_len, uint64_t *groups, size_t groups_len,
    uint8_t *statebytes, size_t statebytes_len, uint64_t *states, size_t states_len,
    uint64_t *items, size_t items_len, uint64_t *links, size_t links_len,
    const uint64_t *requests, size_t requests_len);

/* The end. Answers 0 to 2, 7 or 9. After 0 every call answers 2. */
uint8_t pivotspark_finish(uint64_t record[PIVOTSPARK_RECORD], uint64_t table[PIVOTSPARK_TABLE],
    const uint8_t *bytes, size_t bytes_len, const uint64_t *device_rows, size_t device_rows_len,
    const uint64_t *endpoint_rows, size_t endpoint_rows_len, const uint64_t *packets, size_t packets_len,
    const uint64_t *events, size_t events_len, const uint64_t *transactions, size_t transactions_len,
    uint64_t *groups, size_t groups_len, uint8_t *statebytes, size_t statebytes_len,
    uint64_t *states, size_t states_len, uint64_t *items, size_t items_len, uint64_t *links, size_t links_len,
    const uint64_t *requests, size_t requests_len);

/* A fresh decoder; in the mode for high-bandwidth isochronous data where `mode` is not 0. Answers 0, 1 or 7. */
uint8_t pivotspark_fresh(uint8_t mode, uint64_t record[PIVOTSPARK_RECORD], uint64_t table[PIVOTSPARK_TABLE],
    const uint8_t *bytes, size_t bytes_len, uint64_t *device_rows, size_t device_rows_len,
    uint64_t *endpoint_rows, size_t endpoint_rows_len, const uint64_t *packets, size_t packets_len,
    const uint64_t *events, size_t events_len, const uint64_t *transactions, size_t transactions_len,
    const uint64_t *groups, size_t groups_len, const uint8_t *statebytes, size_t statebytes_len,
    const uint64_t *states, size_t states_len, const uint64_t *items, size_t items_len,
    const uint64_t *links, size_t links_len, const uint64_t *requests, size_t requests_len);

/* The packet of these bytes at this time. Answers 0 to 3 or 7 to 9. */
uint8_t pivotspark_packet(uint64_t record[PIVOTSPARK_RECORD], const uint8_t *packet, size_t packet_len,
    uint64_t time, uint64_t table[PIVOTSPARK_TABLE], uint8_t *bytes, size_t bytes_len,
    uint64_t *device_rows, size_t device_rows_len, uint64_t *endpoint_rows, size_t endpoint_rows_len,
    uint64_t *packets, size_t packets_len, const uint64_t *events, size_t events_len,
    uint64_t *transactions, size_t transactions_len, uint64_t *groups, size_t groups_len,
    uint8_t *statebytes, size_t statebytes_len, uint64_t *states, size_t states_len,
    uint64_t *items, size_t items_len, uint64_t *links, size_t links_len, uint64_t *requests, size_t requests_len,
    uint8_t shelf[PIVOTSPARK_SHELF]);

/* The packets as a file, from the start of `out`; refused, nothing is written. `told` as of pivotspark_pcap_size.
 * Answers 0, 1, 18, or 7 where the file is longer than `out`. */
uint8_t pivotspark_pcap_export(const uint64_t record[PIVOTSPARK_RECORD], const uint64_t table[PIVOTSPARK_TABLE],
    const uint8_t *bytes, size_t bytes_len, const uint64_t *device_rows, size_t device_rows_len,
    const uint64_t *endpoint_rows, size_t endpoint_rows_len, const uint64_t *packets, size_t packets_len,
    const uint64_t *events, size_t events_len, const uint64_t *transactions, size_t transactions_len,
    const uint64_t *groups, size_t groups_len, const uint8_t *statebytes, size_t statebytes_len,
    const uint64_t *states, size_t states_len, const uint64_t *items, size_t items_len,
    const uint64_t *links, size_t links_len, const uint64_t *requests, size_t requests_len,
    uint8_t *out, size_t out_len, uint64_t told[PIVOTSPARK_TOLD]);

/* The answer to the head in the top byte, and the place below it: where the records begin, or what is wrong. Where it
 * is accepted `format` gets the file's format. The answer is 0, 14 or 15. */
uint64_t pivotspark_pcap_head(const uint8_t *file, size_t file_len, uint64_t format[PIVOTSPARK_PCAPFORMAT]);

/* The records from the first byte on, each a packet call, in the format that the head gave. `told` gets the records
 * taken, how many of them were answered 8, and the place in `records` where it stopped. Answers 0 at the end of the
 * records, else the answer of the record at that place: of its call, or 16, 17. Of a file that is lent in pieces a
 * piece may end within a record, which is answered 16: go on from its place with more. */
uint8_t pivotspark_pcap_records(uint64_t record[PIVOTSPARK_RECORD], const uint64_t format[PIVOTSPARK_PCAPFORMAT],
    const uint8_t *records, size_t records_len, uint64_t table[PIVOTSPARK_TABLE], uint8_t *bytes, size_t bytes_len,
    uint64_t *device_rows, size_t device_rows_len, uint64_t *endpoint_rows, size_t endpoint_rows_len,
    uint64_t *packets, size_t packets_len, const uint64_t *events, size_t events_len,
    uint64_t *transactions, size_t transactions_len, uint64_t *groups, size_t groups_len,
    uint8_t *statebytes, size_t statebytes_len, uint64_t *states, size_t states_len,
    uint64_t *items, size_t items_len, uint64_t *links, size_t links_len, uint64_t *requests, size_t requests_len,
    uint8_t shelf[PIVOTSPARK_SHELF], uint64_t told[PIVOTSPARK_TOLD]);

/* How long the file is that pivotspark_pcap_export would write. `told` gets the file's length, its packets, and the
 * events that it leaves behind; refused, it is as it was. Answers 0, 1 or 18. */
uint8_t pivotspark_pcap_size(const uint64_t record[PIVOTSPARK_RECORD], const uint64_t table[PIVOTSPARK_TABLE],
    const uint8_t *bytes, size_t bytes_len, const uint64_t *device_rows, size_t device_rows_len,
    const uint64_t *endpoint_rows, size_t endpoint_rows_len, const uint64_t *packets, size_t packets_len,
    const uint64_t *events, size_t events_len, const uint64_t *transactions, size_t transactions_len,
    const uint64_t *groups, size_t groups_len, const uint8_t *statebytes, size_t statebytes_len,
    const uint64_t *states, size_t states_len, const uint64_t *items, size_t items_len,
    const uint64_t *links, size_t links_len, const uint64_t *requests, size_t requests_len,
    uint64_t told[PIVOTSPARK_TOLD]);

/* The answer to the header in the top byte, and the place below it: where the records begin, or what is wrong. The
 * answer is 0, 10 or 11. */
uint64_t pivotspark_header(const uint8_t *trace, size_t trace_len);

/* How many records of a trace are details that were typed in (02, 13). Of a part of a trace: lend the five bytes
 * before its records too. */
uint64_t pivotspark_details(const uint8_t *trace, size_t trace_len);

/* The answer's ten words, for the 23 of the state; specs/Words.antt says what each is. */
void pivotspark_group_status(const uint64_t state[23], uint64_t out[10]);

/* Lines of the rows of a log, by its number, from row `from` on, of n rows. It writes whole lines while `out` has room
 * for the longest, 156 bytes, tells in told[0] how many bytes they are, and gives the row behind the last one. */
uint64_t pivotspark_lines(uint8_t kind, uint64_t from, uint64_t n, const uint64_t *log, size_t log_len,
    uint8_t *out, size_t out_len, uint64_t told[1]);

/* Lines of the states from row `from` on, of n rows, over m state bytes. As pivotspark_lines. */
uint64_t pivotspark_state_lines(uint64_t from, uint64_t n, const uint64_t *states, size_t states_len, uint64_t m,
    const uint8_t *statebytes, size_t statebytes_len, uint8_t *out, size_t out_len, uint64_t told[1]);

/* The first line of the listing. Gives the bytes written, 0 where they do not fit. */
uint64_t pivotspark_title(uint8_t *out, size_t out_len);

/* The last one, where details were typed in. As pivotspark_title; none for 0 details. */
uint64_t pivotspark_details_line(uint64_t n, uint8_t *out, size_t out_len);

/* The only one, where the trace is refused. As pivotspark_title. */
uint64_t pivotspark_refused_line(uint8_t answer, uint64_t place, uint8_t *out, size_t out_len);

/* The PID byte of a valid packet, and 256 times the reason of a malformed one. */
uint16_t pivotspark_check(const uint8_t *packet, size_t packet_len);

/* The CRC16 of a data packet's payload. */
uint16_t pivotspark_crc16(const uint8_t *payload, size_t payload_len);

/* The trace on the lent table, logs and shelf, which may hold anything; in the mode for high-bandwidth isochronous
 * data where `mode` is not 0. The record's counts are stored in `counts`; if it has fewer than twelve words it is left
 * as it is. */
uint64_t pivotspark_trace(uint8_t mode, const uint8_t *trace, size_t trace_len, uint64_t table[PIVOTSPARK_TABLE],
    PIVOTSPARK_LOG_PARAMETERS, uint8_t shelf[PIVOTSPARK_SHELF], uint64_t *counts, size_t counts_len);

#ifdef __cplusplus
}
#endif

#endif
