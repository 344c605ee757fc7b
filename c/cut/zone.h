/* The Cut Recorder's zone part, for controllers in C and C++; docs/INTEGRATION.md says how to build it in.
 *
 * A controller keeps one cut_zone, passes it to each call by value and stores the zone of the answer:
 *
 *     static cut_zone zone;
 *     cut_opening o = cut_zone_open(edition, count, number, stock);
 *     if (o.refusal == CUT_ACCEPTED)
 *         zone = o.zone;
 *     cut_step r = cut_zone_send(zone, to, cars);
 *     zone = r.zone;
 *
 * A call answers CUT_ACCEPTED, or the first refusal of its list, from left to right, that holds (cut_refusal_words gives its words); then a
 * step's zone comes back equal in every field, and flag, to and carried are 0. Every value of every field and argument may be passed.
 *
 * A zone is sound where edition is 1 to 3, count is 2 to 8, number is 1 to count, deps names only zones of the site, events is at most 1,000
 * and mark is at most 2. A step on any other zone is refused with 1. All zones of a site are opened with the same edition.
 *
 * The calls keep no state of their own, allocate nothing, never block and always return, so that threads may call at once on different
 * zones. The header is C11 or C++11, the library for x86-64 with System V calls; its zone part uses nothing of the C library. */
#ifndef CUT_ZONE_H
#define CUT_ZONE_H

#include <stddef.h>
#include <stdint.h>

#include "refusal.h"

#ifdef __cplusplus
extern "C" {
#endif

/* Bytes of stack that are enough for any call of this header, with what it is passed and what it answers, from a caller compiled with -O2; they
 * are measured. With libcut.so the dynamic linker may use some thousand more at the first call of a function, unless the program is linked with
 * -Wl,-z,now, as pkg-config says. */
#define CUT_ZONE_STACK 256

/* What a checkpoint ("mark") keeps. 4 bytes, alignment 2. */
typedef struct cut_saved {
    uint16_t stock;  /* the "stock" of its moment */
    uint16_t events; /* the number of "own events" at that moment */
} cut_saved;

/* A "zone". 16 bytes without padding, alignment 4: it fills two registers. In every set zone k is the bit of weight 2 to the power k - 1. */
typedef struct cut_zone {
    uint8_t number;  /* the "zone number", from 1 */
    uint8_t count;   /* the "zone count" of its site */
    uint8_t deps;    /* the dependency set ("heard set"): the zone and those that it received messages from before its checkpoint, from
                        edition 2 on messages with cars */
    uint8_t edition; /* the "edition" that its opening named */
    uint16_t stock;  /* the "stock": the cars in the zone */
    uint16_t events; /* the "own events": messages ("hand-overs") sent and received, from edition 2 on those with cars; entries and exits */
    cut_saved saved; /* what the checkpoint keeps; with CUT_MARK_NONE it means nothing, and an accepted step writes it as 0 */
    uint32_t mark;   /* the kind of its checkpoint ("mark: none, provisional or firm"), an enum cut_mark_kind */
} cut_zone;

/* What opening answers. 20 bytes, alignment 4. */
typedef struct cut_opening {
    cut_zone zone;   /* the zone as opened; refused, zone 1 of 2 with stock 0, edition 1 */
    uint8_t refusal; /* the "refusal", an enum cut_refusal */
} cut_opening;

/* What a step answers. 20 bytes, alignment 4. */
typedef struct cut_step {
    cut_zone zone;   /* the next zone; refused, the one that was passed */
    uint8_t refusal; /* the "refusal", an enum cut_refusal */
    uint8_t flag;    /* the flag ("marked bit") of the message that is sent, 0 or 1 */
    uint8_t to;      /* the request targets ("the set to be sent requests"); 0 where none is sent */
    uint8_t carried; /* "the set these carry": of each of these requests; 0 where none is sent */
} cut_step;

CUT_STATIC_ASSERT(sizeof(cut_saved) == 4 && sizeof(cut_zone) == 16, "the layout that the library has");
CUT_STATIC_ASSERT(sizeof(cut_opening) == 20 && sizeof(cut_step) == 20, "the layout that the library has");
CUT_STATIC_ASSERT(CUT_ALIGNOF(cut_zone) == 4 && CUT_ALIGNOF(cut_step) == 4, "the layout that the library has");
CUT_STATIC_ASSERT(offsetof(cut_zone, edition) == 3 && offsetof(cut_zone, saved) == 8 && offsetof(cut_zone, mark) == 12,
                  "the layout that the library has");
CUT_STATIC_ASSERT(offsetof(cut_opening, refusal) == 16 && offsetof(cut_step, carried) == 19, "the layout that the library has");

/* An item as a word of 16 bits, on the lines of a site and on a wire between controllers, there high byte first:
 *     0 to 255    a message ("hand-over") of so many cars, with the flag ("marked bit") 0
 *     256 to 511  a message of word - 256 cars, with the flag 1
 *     512 to 767  a "request" with the set word - 512
 *     above 767   a request too; its set, word - 512, names a zone that no site has
 * So it is CUT_ITEM_FLAG * flag + cars, or CUT_ITEM_REQUEST + set. */
#define CUT_ITEM_FLAG 256
#define CUT_ITEM_REQUEST 512
#define CUT_ITEM_MAX 767

/* Whether an item is a request, 1 or 0. */
static inline uint8_t cut_item_is_request(uint16_t item)
{
    return item >= CUT_ITEM_REQUEST;
}

/* The cars of a message; of a request 0. */
static inline uint8_t cut_item_cars(uint16_t item)
{
    return (uint8_t)(item < CUT_ITEM_REQUEST ? item % CUT_ITEM_FLAG : 0);
}

/* The flag of a message, 1 or 0; of a request 0. */
static inline uint8_t cut_item_flag(uint16_t item)
{
    return item >= CUT_ITEM_FLAG && item < CUT_ITEM_REQUEST;
}

/* The set of a request, above 255 where it names a zone that no site has: ask that before it is passed to cut_zone_request, which takes 8 bits. Of
 * a message 0. */
static inline uint16_t cut_item_set(uint16_t item)
{
    return (uint16_t)(item >= CUT_ITEM_REQUEST ? item - CUT_ITEM_REQUEST : 0);
}

/* Opens zone `number` of `count` under an edition ("opening one zone"). Refused with: 15 the edition is not 1 to 3; 2 the count is not 2 to 8;
 * 5 the number is not 1 to count. Stack: CUT_ZONE_STACK. */
cut_opening cut_zone_open(uint8_t edition, uint8_t count, uint8_t number, uint16_t stock);

/* Sends a message ("hand-over") of `cars` to zone `to`: put it on the channel ("line") with the answer's flag ("marked bit"). From edition 2
 * on one of 0 cars is a line check: it gets its flag and changes nothing in the zone. Refused with, a check too: 1 the zone is not sound;
 * 5 `to` is not on the site or is the zone itself; 6 it has 1,000 own events; 7 its stock does not cover the cars. Stack: CUT_ZONE_STACK. */
cut_step cut_zone_send(cut_zone zone, uint8_t to, uint8_t cars);

/* Receives a message (takes a "hand-over") from zone `from`; any flag ("marked bit") but 0 counts as 1. From edition 2 on one of 0 cars is
 * a line check: whatever its flag, it changes nothing in the zone. Refused with, a check too: 1; 5 `from` is not on the site or is the zone
 * itself; 6; 20 the stock would exceed 65,535. With 6 and 20 the item stays first on its channel ("line"); with 5 it is no item of this
 * site. Stack: CUT_ZONE_STACK. */
cut_step cut_zone_receive(cut_zone zone, uint8_t from, uint8_t cars, uint8_t flag);

/* Receives (takes) a "request" with its set: send a request carrying `carried` to each zone of `to`. Refused with: 1; 5 the set names a zone
 * off the site; then it is no item of this site. Stack: CUT_ZONE_STACK. */
cut_step cut_zone_request(cut_zone zone, uint8_t set);

/* Starts a recording ("start"), with this zone as its initiator ("starter"): send a request carrying `carried` to each zone of `to`. Refused
 * with: 1; 11 the zone has a checkpoint ("mark"). Stack: CUT_ZONE_STACK. */
cut_step cut_zone_start(cut_zone zone);

/* Counts `cars` that drive in through the zone's gate ("entry"), from edition 3 on: the stock rises by them. One of 0 cars is an own event
 * too; flag, to and carried are 0. Refused with: 1; 15 the zone's edition has no gates; 6; 20. Stack: CUT_ZONE_STACK. */
cut_step cut_zone_enter(cut_zone zone, uint8_t cars);

/* Counts `cars` that drive out through the zone's gate ("exit"), as cut_zone_enter those that drive in: the stock falls by them. Refused
 * with: 1; 15; 6; 7. Stack: CUT_ZONE_STACK. */
cut_step cut_zone_leave(cut_zone zone, uint8_t cars);

/* The number of zones of a set, so of the requests to be sent to it ("the number sent"). Stack: CUT_ZONE_STACK. */
uint32_t cut_zone_requests(uint8_t to);

/* The lowest zone of a set, "the next zone to be sent to"; 0 where the set is empty. Take it out with set &= set - 1 and go on.
 * Stack: CUT_ZONE_STACK. */
uint8_t cut_zone_next(uint8_t set);

#ifdef __cplusplus
}
#endif

#endif
