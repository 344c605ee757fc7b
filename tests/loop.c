/* The controller's loop of docs/INTEGRATION.md, run as it stands there: tools/installed.sh takes it out of the document into loop.inc. Zone 1
 * of 3 hands over, takes, waits for room, turns firm by a request, sends its own and drops the next; zone 2 starts; zone 3 checks lines, and
 * then has a street entrance. Exits 1 if a value is not as it must be. */
#include <stdint.h>
#include <stdio.h>
#include <stdlib.h>

#include "loop.inc"

/* What was put and logged last, and how often. */
static struct {
    unsigned times;
    uint8_t to;
    uint16_t word;
} line;
static struct {
    unsigned times;
    int kind;
    uint8_t from, to, cars;
    uint16_t events;
} entry;

/* The zones whose lines are full. */
static uint8_t full;

static int room(uint8_t set)
{
    return (set & full) == 0;
}

static void put(uint8_t to, uint16_t word)
{
    line.times++;
    line.to = to;
    line.word = word;
}

static void log_entry(int kind, uint8_t from, uint8_t to, uint8_t cars, uint16_t events)
{
    entry.times++;
    entry.kind = kind;
    entry.from = from;
    entry.to = to;
    entry.cars = cars;
    entry.events = events;
}

static void must(int holds, const char *what)
{
    if (!holds) {
        fprintf(stderr, "not as it must be: %s\n", what);
        exit(1);
    }
}

static void must_put(unsigned times, uint8_t to, uint16_t word, const char *what)
{
    must(line.times == times && line.to == to && line.word == word, what);
}

static void must_log(unsigned times, int kind, uint8_t from, uint8_t to, uint8_t cars, uint16_t events, const char *what)
{
    must(entry.times == times && entry.kind == kind && entry.from == from && entry.to == to, what);
    must(entry.cars == cars && entry.events == events, what);
}

int main(void)
{
    zone = cut_zone_open(1, 3, 1, 10).zone;
    must(hand_over(2, 11) == CUT_REFUSED_STOCK_TOO_LOW && line.times == 0 && entry.times == 0, "11 of 10 cars are refused");
    must(hand_over(2, 4) == CUT_ACCEPTED, "4 cars are handed to 2");
    must_put(1, 2, 4, "they are on the line");
    must_log(1, HANDED, 1, 2, 4, 1, "and in the log, as own event 1");
    must(take(3, 5) == CUT_ACCEPTED && zone.stock == 11, "5 cars are taken from 3");
    must_log(2, TOOK, 3, 1, 5, 2, "they are in the log, as own event 2");
    must(line.times == 1 && sent == 0 && taken == 0, "no request was sent or taken");

    full = 4;
    must(hand_over(3, 1) == WAITS && zone.stock == 11 && line.times == 1 && entry.times == 2, "a hand-over to a full line waits");
    must(take(2, 512 + 2) == WAITS && zone.mark == CUT_MARK_NONE && taken == 0, "so does a request that must be passed on there");
    full = 0;
    must(hand_over(3, 1) == WAITS && line.times == 1, "which holds its lines, though they are free again");

    must(take(2, 512 + 2) == CUT_ACCEPTED && zone.mark == CUT_MARK_PERMANENT, "the request makes the zone firm");
    must_put(2, 3, 512 + 7, "a request goes to 3, with all three zones");
    must(sent == 1 && taken == 1, "both are counted");
    must_log(3, TOOK, 2, 1, 0, 0, "and its receipt is in the log, as no own event");
    must(take(2, 512 + 2) == CUT_ACCEPTED && line.times == 2 && sent == 1 && taken == 2, "a second one is dropped, and counted as taken");
    must(hand_over(3, 1) == CUT_ACCEPTED, "1 car is handed to 3, whose line is held no more");
    must_put(3, 3, 256 + 1, "with the marked bit");
    must(take(2, 256 + 3) == CUT_ACCEPTED && zone.stock == 13 && zone.saved.stock == 11, "a marked hand-over leaves the firm mark");
    must(start() == CUT_REFUSED_STARTED && sent == 1, "a start is refused");
    must(entry.times == 6, "and is in no log");
    must(take(2, 768) == CUT_REFUSED_ZONE && take(2, 512 + 8) == CUT_REFUSED_ZONE && taken == 2, "no item of this site");

    zone = cut_zone_open(1, 3, 2, 10).zone;
    full = 1;
    must(take(1, 4) == CUT_ACCEPTED && start() == WAITS && sent == 1, "the start of zone 2, which heard from 1, waits for room to 1");
    full = 0;
    must(start() == CUT_ACCEPTED && sent == 2, "and then sends a request");
    must_put(4, 1, 512 + 3, "to 1, with its heard set");
    must_log(8, STARTED, 2, 2, 0, 0, "and its start is in the log");

    zone = cut_zone_open(2, 3, 3, 10).zone;
    must(hand_over(1, 4) == CUT_ACCEPTED && zone.events == 1, "zone 3, of edition 2, hands 4 cars to 1");
    must(hand_over(1, 0) == CUT_ACCEPTED && zone.events == 1, "a hand-over of 0 cars is a line check there");
    must_put(6, 1, 0, "which is on the line");
    must(take(2, 256) == CUT_ACCEPTED && zone.deps == 4 && zone.mark == CUT_MARK_NONE, "one that is taken is not heard and causes no mark");
    must_log(9, HANDED, 3, 1, 4, 1, "and checks are in no log");
    must(count_at_gate(IN, 1) == CUT_REFUSED_EDITION && zone.stock == 6, "edition 2 has no gates");

    zone = cut_zone_open(3, 3, 3, 10).zone;
    must(count_at_gate(IN, 5) == CUT_ACCEPTED && zone.stock == 15 && zone.events == 1, "5 cars drive in at zone 3, of edition 3");
    must_log(10, GATE, 3, IN, 5, 1, "which is in the log, as own event 1");
    must(count_at_gate(OUT, 16) == CUT_REFUSED_STOCK_TOO_LOW && entry.times == 10, "16 of 15 cars do not drive out");
    must(count_at_gate(OUT, 15) == CUT_ACCEPTED && zone.stock == 0, "15 do");
    must_log(11, GATE, 3, OUT, 15, 2, "which is in the log, as own event 2");
    must(zone.deps == 4 && zone.mark == CUT_MARK_NONE && line.times == 6, "nobody was heard, marked or sent anything");
    return 0;
}
