/* release.c: a scheduler in static memory. It inserts three commands and refuses a late one; then one packet is lost, and
 * the tick reports it as missing and releases what is behind it. Every answer is compared with the one that is expected:
 * the program ends with 0 only if all are the same.
 *
 *     tools/native-lib silotwist target/library
 *     cc -std=c11 -I include examples/c/release.c -L target/library -l:libsilotwist.a -o target/release
 *     target/release
 */
#include "silotwist.h"

#include <inttypes.h>
#include <stdio.h>

/* All memory of the scheduler: 8 slots of 32 bytes and 4 of 64, 16 entries. */
enum { SUBPOOLS = 2, SLOTS = 8 + 4, BYTES = 8 * 32 + 4 * 64, ENTRIES = 16 };
enum { SPILLING = 0 };
static const uint64_t setup[SILOTWIST_SETUP_WORDS(SUBPOOLS)] = {SUBPOOLS, SPILLING, ENTRIES, 8, 32, 4, 64};
static uint64_t record[SILOTWIST_RECORD_WORDS];
static uint8_t store[BYTES];
static uint16_t lens[SLOTS];
static uint64_t rows[ENTRIES * SILOTWIST_ROW_WORDS];
static uint8_t log_bytes[1024];
static uint64_t answer[SILOTWIST_ANSWER_WORDS];

/* Slices as the calls take them. */
#define SLICE(array) (array), sizeof(array) / sizeof((array)[0])
#define STORE SLICE(setup), SLICE(store), SLICE(lens)
#define SCHEDULER SLICE(setup), SLICE(record), SLICE(store), SLICE(lens), SLICE(rows)

/* 2027-01-15 08:00:00 UTC */
#define START INT64_C(1800000000)
#define MARGIN 5

/* As they come from the uplink: service 11, subservice 4 around a stamp and a command. */
static const uint8_t ping_at_60[] = { /* 16-bit day */
    0x18, 0x02, 0xC0, 0x01, 0x00, 0x1A, 0x2F, 0x0B, 0x04, 0x00, 0x01,                   /* outer packet */
    0x40, 0x62, 0x80, 0x01, 0xB8, 0x5E, 0x60,                                           /* stamp */
    0x18, 0x02, 0xC0, 0x11, 0x00, 0x06, 0x2F, 0x11, 0x01, 0x00, 0x00, 0xDD, 0xB5,       /* command */
    0x98, 0xF8};                                                                        /* check code */
static const uint8_t sensor_on_at_120[] = { /* 24-bit day */
    0x18, 0x02, 0xC0, 0x02, 0x00, 0x1C, 0x2F, 0x0B, 0x04, 0x00, 0x01,                   /* outer packet */
    0x44, 0x00, 0x62, 0x80, 0x01, 0xB9, 0x48, 0xC0,                                     /* stamp */
    0x18, 0x42, 0xC0, 0x01, 0x00, 0x07, 0x2F, 0x08, 0x01, 0x00, 0x00, 0x01, 0xBC, 0x9D, /* command */
    0xFA, 0x2F};                                                                        /* check code */
static const uint8_t sensor_off_at_180[] = { /* 16-bit day */
    0x18, 0x02, 0xC0, 0x03, 0x00, 0x1B, 0x2F, 0x0B, 0x04, 0x00, 0x01,                   /* outer packet */
    0x40, 0x62, 0x80, 0x01, 0xBA, 0x33, 0x20,                                           /* stamp */
    0x18, 0x42, 0xC0, 0x02, 0x00, 0x07, 0x2F, 0x08, 0x01, 0x00, 0x00, 0x00, 0x81, 0xF8, /* command */
    0xE6, 0xB8};                                                                        /* check code */
static const uint8_t ping_at_2[] = { /* inside the margin */
    0x18, 0x02, 0xC0, 0x04, 0x00, 0x1A, 0x2F, 0x0B, 0x04, 0x00, 0x01,                   /* outer packet */
    0x40, 0x62, 0x80, 0x01, 0xB7, 0x7B, 0xD0,                                           /* stamp */
    0x18, 0x02, 0xC0, 0x11, 0x00, 0x06, 0x2F, 0x11, 0x01, 0x00, 0x00, 0xDD, 0xB5,       /* command */
    0xF3, 0x3A};                                                                        /* check code */

static int differences;

static void expect(const char *what, uint64_t found, uint64_t expected)
{
    if (found != expected) {
        fprintf(stderr, "%s: found %" PRIu64 ", expected %" PRIu64 "\n", what, found, expected);
        differences++;
    }
}

/* A packet's request ID: source ID * 2^32 + APID * 2^16 + sequence count. */
static void print_id(uint64_t id)
{
    printf("APID %2u, sequence count %2u", (unsigned)(id >> 16 & 0x7FF), (unsigned)(id & 0x3FFF));
}

static void insert(const uint8_t *packet, size_t packet_n, uint32_t expected)
{
    uint32_t number = silotwist_insert_wrapped(SCHEDULER, packet, packet_n, SLICE(answer));
    expect("insertion", number, expected);
    if (number == 0) {
        printf("inserted ");
        print_id(answer[1]);
        printf(", at address %" PRIu64 "\n", answer[0]);
    } else {
        printf("refused, number %" PRIu32 "\n", number);
    }
}

/* The log's numbers: high byte first. */
static uint64_t number_at(const uint8_t *bytes, size_t n)
{
    uint64_t number = 0;
    for (size_t i = 0; i < n; i++)
        number = number << 8 | bytes[i];
    return number;
}

/* Where record k of the log's n begins; for k = n, where the log ends. */
static size_t offset(size_t k, size_t n)
{
    return (size_t)number_at(k < n ? log_bytes + 8 + 4 * k : log_bytes + 4, 4);
}

/* A record's flag, and the packet that it must carry. */
enum { DISCARDED = 0, RELEASED = 1, MISSING = 2, HEAD = 1 + 8 + 8 };
struct expected {
    uint8_t flag;
    const uint8_t *packet;
    size_t packet_n;
};

/* One record: flag, request ID, address, and the packet's bytes up to its end. */
static void dispatch(const uint8_t *entry, size_t entry_n, struct expected expected)
{
    expect("bytes", entry_n, HEAD + expected.packet_n);
    if (entry_n != HEAD + expected.packet_n)
        return;
    expect("flag", entry[0], expected.flag);
    for (size_t i = 0; i < expected.packet_n; i++)
        expect("byte", entry[HEAD + i], expected.packet[i]);
    printf("%s ", entry[0] == RELEASED ? "released" : entry[0] == MISSING ? "missing " : "discarded");
    print_id(number_at(entry + 1, 8));
    for (size_t i = HEAD; i < entry_n; i++)
        printf("%s%02X", i == HEAD ? ": " : " ", (unsigned)entry[i]);
    printf("\n");
}

int main(void)
{
    expect("fresh start", silotwist_fresh(SCHEDULER, START, 0, MARGIN, 0, SLICE(answer)), 0);

    insert(SLICE(ping_at_60), 0);
    insert(SLICE(sensor_on_at_120), 0);
    uint64_t sensor_on = answer[0];
    insert(SLICE(sensor_off_at_180), 0);

    insert(SLICE(ping_at_2), 13); /* ReleaseTimeInTimeMargin: clock, margin, release */
    expect("clock", answer[0], (uint64_t)START);
    expect("margin", answer[2], MARGIN);
    expect("release", answer[4], (uint64_t)(START + 2));

    expect("deletion", silotwist_store_delete(STORE, sensor_on, SLICE(answer)), 0);
    printf("lost the packet at address %" PRIu64 "\n", sensor_on);

    expect("setting the clock", silotwist_set_clock(SLICE(record), START + 180, 0, SLICE(answer)), 0);
    expect("tick", silotwist_tick(SCHEDULER, SLICE(log_bytes), ENTRIES, true, SLICE(answer)), 0);
    expect("handed out", answer[0], 3);
    expect("still due", answer[1], 0);

    static const struct expected records[3] = {
        {RELEASED, ping_at_60 + 18, 13}, {MISSING, NULL, 0}, {RELEASED, sensor_off_at_180 + 18, 14}};
    size_t n = (size_t)number_at(log_bytes, 4);
    expect("records", n, 3);
    for (size_t k = 0; k < n && k < 3; k++)
        dispatch(log_bytes + offset(k, n), offset(k + 1, n) - offset(k, n), records[k]);

    expect("count", silotwist_count(SCHEDULER, SLICE(answer)), 0);
    printf("%" PRIu64 " entries left\n", answer[0]);
    return differences == 0 ? 0 : 1;
}
