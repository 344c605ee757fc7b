/* Three controllers of 10 cars each on lines of their own, which are checked, a street entrance, and one recording. Prints each zone's mark;
 * exits 1 if a value is not as it must be. */
#include <stdio.h>
#include <stdlib.h>

#include <cut/zone.h>

/* An item on a channel ("line"): a message ("hand-over"; request 0) or a request with its set. */
typedef struct {
    uint8_t request, cars, flag, set;
} item;

static cut_zone zones[4];
static item lines[4][4][8];
static int first[4][4], last[4][4];

static void must(int holds, const char *what)
{
    if (!holds) {
        fprintf(stderr, "not as it must be: %s\n", what);
        exit(1);
    }
}

static void accepted(uint8_t refusal, const char *what)
{
    if (refusal != CUT_ACCEPTED) {
        fprintf(stderr, "refused: %s: %s\n", what, cut_refusal_words(refusal));
        exit(1);
    }
}

static void put(uint8_t from, uint8_t to, item i)
{
    must(last[from][to] < 8, "the line has room");
    lines[from][to][last[from][to]++] = i;
}

/* A request to each zone of the answer's set. */
static void send_requests(uint8_t from, cut_step r)
{
    uint32_t n = cut_zone_requests(r.to);
    uint8_t rest = r.to;
    for (uint32_t i = 0; i < n; i++) {
        uint8_t to = cut_zone_next(rest);
        put(from, to, (item){1, 0, 0, r.carried});
        rest &= (uint8_t)(rest - 1);
    }
}

static void send(uint8_t from, uint8_t to, uint8_t cars)
{
    cut_step r = cut_zone_send(zones[from], to, cars);
    accepted(r.refusal, "send");
    zones[from] = r.zone;
    put(from, to, (item){0, cars, r.flag, 0});
}

static void receive(uint8_t from, uint8_t to)
{
    must(first[from][to] < last[from][to], "the line holds an item");
    item i = lines[from][to][first[from][to]];
    cut_step r = i.request ? cut_zone_request(zones[to], i.set) : cut_zone_receive(zones[to], from, i.cars, i.flag);
    accepted(r.refusal, "receive");
    first[from][to]++;
    zones[to] = r.zone;
    send_requests(to, r);
}

/* A line check, from edition 2 on a message of 0 cars: both zones are as they were, though the sender's flag travels with it. */
static void check(uint8_t from, uint8_t to)
{
    cut_zone sender = zones[from], receiver = zones[to];
    send(from, to, 0);
    receive(from, to);
    must(zones[from].events == sender.events, "a check is no own event of its sender");
    must(zones[to].events == receiver.events && zones[to].deps == receiver.deps, "nor of its receiver, which has not heard it");
    must(zones[to].mark == receiver.mark, "and it marks nobody");
}

/* A zone's street entrance, from edition 3 on: so many cars have driven in, and so many out. Both are own events; no line has a part in
 * them. */
static void counted(uint8_t at, uint8_t in, uint8_t out)
{
    cut_step r = cut_zone_enter(zones[at], in);
    accepted(r.refusal, "enter");
    r = cut_zone_leave(r.zone, out);
    accepted(r.refusal, "leave");
    zones[at] = r.zone;
}

int main(void)
{
    for (uint8_t k = 1; k <= 3; k++) {
        cut_opening o = cut_zone_open(3, 3, k, 10);
        accepted(o.refusal, "open");
        zones[k] = o.zone;
    }
    check(2, 3);
    send(3, 2, 1);
    receive(3, 2);
    counted(2, 5, 2);
    send(2, 1, 1);
    receive(2, 1);
    cut_step r = cut_zone_start(zones[1]);
    accepted(r.refusal, "start");
    zones[1] = r.zone;
    send_requests(1, r);
    check(1, 3);
    send(1, 3, 2);
    receive(1, 3);
    receive(1, 2);
    counted(2, 1, 0);
    receive(2, 3);
    for (int k = 1; k <= 3; k++)
        printf("zone %d: mark %d, events %d, stock %d\n", k, zones[k].mark, zones[k].saved.events, zones[k].saved.stock);
    must(zones[3].mark == CUT_MARK_PERMANENT && zones[3].saved.events == 1 && zones[3].saved.stock == 9, "zone 3");
    must(zones[1].saved.stock == 11 && zones[2].saved.stock == 13 && zones[2].saved.events == 4, "zones 1 and 2");
    must(zones[2].stock == 14 && zones[2].events == 6, "zone 2, whose entrance goes on counting");

    cut_zone unsound = zones[1];
    unsound.mark = 3;
    r = cut_zone_send(unsound, 2, 1);
    must(r.refusal == CUT_REFUSED_UNSOUND && r.zone.mark == 3 && r.zone.stock == unsound.stock, "a mark above 2 is refused as it came");
    must(cut_zone_leave(zones[2], 15).refusal == CUT_REFUSED_STOCK_TOO_LOW, "15 of 14 cars do not drive out");
    must(cut_zone_enter(cut_zone_open(2, 3, 1, 10).zone, 1).refusal == CUT_REFUSED_EDITION, "edition 2 has no gates");
    must(cut_zone_open(4, 3, 1, 10).refusal == CUT_REFUSED_EDITION, "edition 4 is not known");
    return 0;
}
