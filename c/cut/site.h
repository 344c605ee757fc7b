/* The Cut Recorder's site engine, journal, conversion, recording and page, for programs in C and C++; docs/INTEGRATION.md says how to use them.
 *
 * A control room keeps one cut_run and passes it to each call:
 *
 *     static cut_run run;
 *     if (cut_open(&run, edition, count, stocks, count) != CUT_ACCEPTED)
 *         return;
 *     uint8_t refusal = cut_send(&run, from, to, cars);
 *
 * A call answers CUT_ACCEPTED, or the first refusal of its list, from left to right, that holds (cut_refusal_words gives its words); then the
 * run and every lent byte are as they were, and `remaining`, `written` and `total` are 0. Every value of every field and argument may be
 * passed. Pointers must not be null, also where a length is 0 (only cut_open takes null stocks then), must name as many values as the length or
 * the array's type says, and what is written through one must not overlap what another names.
 *
 * A run is sound where edition is 1 to 3, count is 2 to 8, records is at most 1,000, no zone of the site has more own events than there are
 * records, every set of its zones and requests names only zones of the site, no channel ("line") has more than 16 items, stocks and cars on
 * channels are at most 65,535 together, and no mark is above 2. Recording, page and journal writing also ask whether the run is what its
 * journal replays to under its edition. A call on any other run is refused with 1.
 *
 * The calls keep no state of their own, allocate nothing, never block and always return, so that threads may call at once on different runs;
 * cut_record, cut_page and cut_write only read theirs, and may share it. The calls on a cut_run are inline here; libcut has them under the same
 * names too, so that other languages take no run apart. The header is C11 or C++11, the library for x86-64 with System V calls; of the C library
 * it uses memcpy and memset.
 *
 * Whoever has a journal and wants its recording needs cut_journal_record alone, or cut_journal_page for its page, which a person reads; a
 * journal of any edition is read. Whoever wants one of edition 1 to be one of edition 3 needs cut_journal_upgrade, and cut_journal_downgrade back.
 *
 * Journal and recording are 16-bit words, high byte first; cut_word_at and the functions behind it take them apart.
 * Journal: edition * 8192 + (zones - 1) * 1024 + number of records; the opening stock of each zone; a word a record:
 *     kind * 16384 + (first zone - 1) * 2048 + (second zone - 1) * 256 + cars
 * with kind 0 a message ("hand-over") from first to second, kind 1 a "receipt" on that channel (cars 0), kind 2 a "start" by the first (both
 * others 0); and from edition 3 on kind 3 a gate of the first zone, where in the place of (second zone - 1) stands 0 for an "entry" and 1 for
 * an "exit".
 * Recording: edition * 8192 + (zones - 1) * 1024 + number of items; for each zone 32768 where it is permanent ("firm") plus its events, then
 * its stock; then each item on a channel as a record of kind 0, by sender, then receiver, then order sent; from edition 2 on those with
 * cars.
 *
 * The "page for the wall" is text: what the recording shows, in lines of 16 characters and a line feed each, the numbers right-aligned.
 *     Z1 F    2      4    zone 1, firm (- where it is not); its events, its stock
 *     L13     1      2    the channel ("line") from zone 1 to zone 3: its items, their cars; a channel without items has no line
 *     T             60    the recorded total
 * First the zones, then the channels by sender, then receiver, then the total. No 0 byte stands at its end. */
#ifndef CUT_SITE_H
#define CUT_SITE_H

#include <stddef.h>
#include <stdint.h>

#include "refusal.h"
#include "zone.h"

#ifdef __cplusplus
extern "C" {
#endif

/* The "places" of a channel ("line"), and the channels of a run: one for each two zones, in either order, and 8 that no site has. */
#define CUT_PLACES 16
#define CUT_CHANNELS 64

/* Bytes that are enough for any journal and for any recording: a header, the zones, and a word for each record. */
#define CUT_JOURNAL_BYTES 2018
#define CUT_RECORDING_BYTES 2034

/* Bytes that are enough for any page: 17 for each of 8 zones and of the 56 channels ("lines") between them, and for the total. */
#define CUT_PAGE_BYTES 1105

/* Bytes of stack that are enough for a call, as in <cut/zone.h>: cut_open; cut_send, cut_receive, cut_start, cut_enter and cut_leave;
 * cut_record; cut_page; cut_write; and the calls on a journal, of which both conversions have one number. */
#define CUT_OPEN_STACK 8704
#define CUT_CALL_STACK 2048
#define CUT_RECORD_STACK 40960
#define CUT_PAGE_STACK 43008
#define CUT_WRITE_STACK 43008
#define CUT_JOURNAL_READ_STACK 30720
#define CUT_JOURNAL_RECORD_STACK 22528
#define CUT_JOURNAL_PAGE_STACK 24576
#define CUT_JOURNAL_CONVERT_STACK 28672

/* A "zone" of a run. 10 bytes, alignment 2. */
typedef struct cut_local {
    uint16_t stock;  /* the "stock": the cars in the zone */
    uint16_t events; /* the "own events": messages ("hand-overs") sent and received, from edition 2 on those with cars; entries and exits */
    uint8_t deps;    /* the dependency set ("heard set"): the zone and those that it received messages from before its checkpoint, from
                        edition 2 on messages with cars */
    uint8_t mark;    /* the kind of its checkpoint ("mark: none, provisional or firm"), an enum cut_mark_kind */
    cut_saved saved; /* what the checkpoint keeps; with CUT_MARK_NONE it means nothing, and an accepted call writes it as 0 */
} cut_local;

/* What a "run" has beside its channels and its journal. 100 bytes, alignment 2, without padding.
 *
 * Zone k stands at index k - 1. What stands behind the last zone of the site, in zones and in opening, is looked at by nobody, but for a mark
 * above 2, which is refused with 1 there too. Opening writes there an unmarked zone with stock 0 that has heard itself alone, and the
 * opening stock 0; an accepted call keeps what is there, and writes saved as 0 where mark is 0. */
typedef struct cut_head {
    uint8_t count;                   /* the "zone count" */
    uint8_t edition;                 /* the "edition" that its opening named, or its journal has */
    uint16_t records;                /* the number of "records" */
    cut_local zones[CUT_ZONES_MAX];  /* the "zones" */
    uint16_t opening[CUT_ZONES_MAX]; /* the "opening stock" of each */
} cut_head;

/* A "run". 4,212 bytes, alignment 2.
 *
 * The channel ("line") from zone a to zone b has number n = 8 * (a - 1) + (b - 1); lens[n] items are on it, the first at items[16 * n], the
 * next behind it. An item is a word, as <cut/zone.h> says. A run is refused with 1 where an item on a channel of its site is a request that
 * names a zone which the site does not have, so always where its word is above CUT_ITEM_MAX.
 *
 * Looked at by nobody: the places of a channel behind its items; all places and the length of a channel that the site does not have, from a
 * zone to itself or with a zone above count; the record words behind the last. Anything may stand there. Opening writes 0 there, and a
 * receipt moves all places of its channel down by one and writes 0 into the last, so that in a run that calls made it stays 0. */
typedef struct cut_run {
    cut_head head;                             /* the zones and the "opening" */
    uint16_t items[CUT_CHANNELS * CUT_PLACES]; /* the "items" on the channels ("lines"), 16 places for each */
    uint8_t lens[CUT_CHANNELS];                /* the number of items on each channel ("line") */
    uint16_t journal[CUT_RECORDS_MAX];         /* the "journal": head.records record words, as above */
} cut_run;

/* What opening answers. 4,214 bytes, alignment 2, without padding. */
typedef struct cut_answer {
    cut_run run;       /* the first run; refused, one of 2 zones with stock 0, edition 1 */
    uint8_t refusal;   /* the "refusal", an enum cut_refusal */
    uint8_t remaining; /* 0: opening is no receipt */
} cut_answer;

/* What a call on a run answers beside the arrays that it was lent. 102 bytes, alignment 2, without padding. */
typedef struct cut_head_answer {
    cut_head head;     /* the next head; refused, the one that was passed */
    uint8_t refusal;   /* the "refusal", an enum cut_refusal */
    uint8_t remaining; /* of a receipt that is accepted, as in a cut_received; else 0 */
} cut_head_answer;

/* What cut_receive answers. 2 bytes. */
typedef struct cut_received {
    uint8_t refusal;   /* the "refusal", an enum cut_refusal */
    uint8_t remaining; /* "how many remain" on the channel ("line") after the receipt: its items, requests too, at most 15; refused, 0,
                        * whatever is there */
} cut_received;

/* What reading answers. 4,232 bytes, alignment 8. */
typedef struct cut_reading {
    cut_run run;       /* the run that the journal replays to; refused, one of 2 zones with stock 0, edition 1 */
    size_t position;   /* the "position" of the record that is refused with 18 or 19, counted from 0; else 0 */
    uint8_t refusal;   /* the "refusal", an enum cut_refusal */
    uint8_t remaining; /* what the journal's last receipt answered, as in a cut_received; 0 where it has none, and refused */
} cut_reading;

/* What writing answers. 24 bytes, alignment 8. */
typedef struct cut_written {
    uint8_t refusal; /* the "refusal", an enum cut_refusal */
    uint32_t total;  /* "the recorded total" of cut_record and cut_journal_record: the cars of the recording's stocks and items together;
                        0 of the others */
    size_t position; /* of the calls on a journal, as in a cut_reading; else 0 */
    size_t written;  /* "the number of bytes written" to the front of out; bytes behind them keep what they had */
} cut_written;

CUT_STATIC_ASSERT(sizeof(cut_local) == 10 && sizeof(cut_head) == 100 && sizeof(cut_run) == 4212, "the layout that the library has");
CUT_STATIC_ASSERT(sizeof(cut_answer) == 4214 && sizeof(cut_head_answer) == 102, "the layout that the library has");
CUT_STATIC_ASSERT(sizeof(cut_reading) == 4232 && sizeof(cut_written) == 24, "the layout that the library has");
CUT_STATIC_ASSERT(CUT_ALIGNOF(cut_run) == 2 && CUT_ALIGNOF(cut_reading) == 8, "the layout that the library has");
CUT_STATIC_ASSERT(CUT_ALIGNOF(cut_head_answer) == 2 && CUT_ALIGNOF(cut_written) == 8, "the layout that the library has");
CUT_STATIC_ASSERT(offsetof(cut_head, edition) == 1 && offsetof(cut_head, records) == 2, "the layout that the library has");
CUT_STATIC_ASSERT(offsetof(cut_head, zones) == 4 && offsetof(cut_head, opening) == 84, "the layout that the library has");
CUT_STATIC_ASSERT(offsetof(cut_run, items) == 100 && offsetof(cut_run, lens) == 2148, "the layout that the library has");
CUT_STATIC_ASSERT(offsetof(cut_run, journal) == 2212 && offsetof(cut_reading, position) == 4216, "the layout that the library has");
CUT_STATIC_ASSERT(offsetof(cut_answer, refusal) == 4212 && offsetof(cut_answer, remaining) == 4213, "the layout that the library has");
CUT_STATIC_ASSERT(offsetof(cut_head_answer, refusal) == 100 && offsetof(cut_head_answer, remaining) == 101, "the layout that the library has");
CUT_STATIC_ASSERT(offsetof(cut_reading, refusal) == 4224 && offsetof(cut_reading, remaining) == 4225, "the layout that the library has");
CUT_STATIC_ASSERT(offsetof(cut_written, total) == 4 && offsetof(cut_written, position) == 8, "the layout that the library has");
CUT_STATIC_ASSERT(offsetof(cut_written, written) == 16, "the layout that the library has");
CUT_STATIC_ASSERT(CUT_JOURNAL_BYTES == 2 + 2 * CUT_ZONES_MAX + 2 * CUT_RECORDS_MAX, "a word a zone and a word a record");
CUT_STATIC_ASSERT(CUT_RECORDING_BYTES == 2 + 4 * CUT_ZONES_MAX + 2 * CUT_RECORDS_MAX, "two words a zone, and no more items than records");
CUT_STATIC_ASSERT(CUT_PAGE_BYTES == 17 * (CUT_ZONES_MAX + CUT_ZONES_MAX * (CUT_ZONES_MAX - 1) + 1), "a line a zone, a line a channel, the total");

/* The kinds of a record's word. */
enum cut_kind {
    CUT_KIND_MESSAGE = 0, /* a message ("hand-over") from the first zone to the second */
    CUT_KIND_RECEIPT = 1, /* a "receipt" on the channel ("line") from the first zone to the second */
    CUT_KIND_START = 2,   /* a "start" by the first zone */
    CUT_KIND_GATE = 3     /* cars at a gate of the first zone, from edition 3 on */
};

/* The directions through a gate, which stand in its record in the place of the second zone less 1. */
enum cut_direction {
    CUT_DIRECTION_IN = 0, /* "entry" */
    CUT_DIRECTION_OUT = 1 /* "exit" */
};

/* What the parts of a word weigh: of a header, which a journal and a recording begin with, the edition and the zones less 1, beside the number of
 * records or items; of a record the kind, the first zone less 1, and the second zone less 1 or the direction, beside the cars; of a zone's first
 * word in a recording that the zone is permanent ("firm"), beside its events. */
#define CUT_HEADER_EDITION 8192
#define CUT_HEADER_ZONES 1024
#define CUT_RECORD_KIND 16384
#define CUT_RECORD_FIRST 2048
#define CUT_RECORD_SECOND 256
#define CUT_SHOWN_PERMANENT 32768

/* The word that two bytes of a journal or a recording are. */
static inline uint16_t cut_word_at(const uint8_t *bytes)
{
    return (uint16_t)(256 * bytes[0] + bytes[1]);
}

/* The edition that a header names, 0 to 7. */
static inline uint8_t cut_header_edition(uint16_t header)
{
    return (uint8_t)(header / CUT_HEADER_EDITION);
}

/* The zones that a header names, 1 to 8. */
static inline uint8_t cut_header_zones(uint16_t header)
{
    return (uint8_t)(header % CUT_HEADER_EDITION / CUT_HEADER_ZONES + 1);
}

/* The number of records or items that a header names, 0 to 1,023. */
static inline uint16_t cut_header_number(uint16_t header)
{
    return header % CUT_HEADER_ZONES;
}

/* The kind of a record, an enum cut_kind. */
static inline uint8_t cut_record_kind(uint16_t record)
{
    return (uint8_t)(record / CUT_RECORD_KIND);
}

/* The first zone of a record, 1 to 8. */
static inline uint8_t cut_record_first(uint16_t record)
{
    return (uint8_t)(record % CUT_RECORD_KIND / CUT_RECORD_FIRST + 1);
}

/* The second zone of a message or a receipt, 1 to 8. */
static inline uint8_t cut_record_second(uint16_t record)
{
    return (uint8_t)(record % CUT_RECORD_FIRST / CUT_RECORD_SECOND + 1);
}

/* The direction of a gate's record, an enum cut_direction; above 1 the record is not well formed. */
static inline uint8_t cut_record_direction(uint16_t record)
{
    return (uint8_t)(record % CUT_RECORD_FIRST / CUT_RECORD_SECOND);
}

/* The cars of a record. */
static inline uint8_t cut_record_cars(uint16_t record)
{
    return (uint8_t)(record % CUT_RECORD_SECOND);
}

/* Whether a zone is permanent ("firm") by its first word in a recording, 1 or 0. */
static inline uint8_t cut_shown_permanent(uint16_t shown)
{
    return shown >= CUT_SHOWN_PERMANENT;
}

/* The events of a zone by that word. */
static inline uint16_t cut_shown_events(uint16_t shown)
{
    return shown % CUT_SHOWN_PERMANENT;
}

/* The library's functions over the parts of a run: its head by value (100 bytes) and its arrays by pointer (1,024 words, 64 bytes and 1,000
 * words). Programs use the calls on a cut_run below them, which take the same and say what is refused. */

/* cut_open ("open"), but stocks must not be null, also where n is 0; refused, it hands back a run too. Stack: CUT_OPEN_STACK. */
cut_answer cut_site_open(uint8_t edition, uint8_t count, const uint16_t *stocks, size_t n);

/* cut_send ("hand-over"). Stack: CUT_CALL_STACK. */
cut_head_answer cut_site_send(cut_head head, uint16_t *items, uint8_t *lens, uint16_t *journal, uint8_t from, uint8_t to, uint8_t cars);

/* cut_receive ("receipt"). Stack: CUT_CALL_STACK. */
cut_head_answer cut_site_receive(cut_head head, uint16_t *items, uint8_t *lens, uint16_t *journal, uint8_t from, uint8_t to);

/* cut_start ("start"). Stack: CUT_CALL_STACK. */
cut_head_answer cut_site_start(cut_head head, uint16_t *items, uint8_t *lens, uint16_t *journal, uint8_t zone);

/* cut_enter ("entry"). Stack: CUT_CALL_STACK. */
cut_head_answer cut_site_enter(cut_head head, uint16_t *items, uint8_t *lens, uint16_t *journal, uint8_t zone, uint8_t cars);

/* cut_leave ("exit"). Stack: CUT_CALL_STACK. */
cut_head_answer cut_site_leave(cut_head head, uint16_t *items, uint8_t *lens, uint16_t *journal, uint8_t zone, uint8_t cars);

/* cut_record ("recording"). Stack: CUT_RECORD_STACK. */
cut_written cut_site_record(cut_head head, const uint16_t *items, const uint8_t *lens, const uint16_t *journal, uint8_t *out, size_t size);

/* cut_page ("a page for the wall"). Stack: CUT_PAGE_STACK. */
cut_written cut_site_page(cut_head head, const uint16_t *items, const uint8_t *lens, const uint16_t *journal, uint8_t *out, size_t size);

/* cut_write ("journal writing"). Stack: CUT_WRITE_STACK. */
cut_written cut_journal_write(cut_head head, const uint16_t *items, const uint8_t *lens, const uint16_t *journal, uint8_t *out, size_t size);

/* Reads a journal of `size` bytes ("reading"); it is replayed under its own edition. It also answers how many items remained at the journal's
 * last receipt. Refused with: 15 it has no header, of two bytes, or its edition is not 1 to 3; 16 the header's zones or records are out of
 * range; 17 its length does not fit the header; 4 the stocks sum to more than 65,535; then for each record in turn 18 it is not well formed,
 * 19 its call is not accepted. Stack: CUT_JOURNAL_READ_STACK, of which the answer takes 4,232 bytes. */
cut_reading cut_journal_read(const uint8_t *bytes, size_t size);

/* Reads a journal of `size` bytes and writes its snapshot ("recording") to `room` bytes; CUT_RECORDING_BYTES are enough. It answers the
 * recorded total too. Refused with: reading's numbers, then 12, 13, 14. Stack: CUT_JOURNAL_RECORD_STACK. */
cut_written cut_journal_record(const uint8_t *bytes, size_t size, uint8_t *out, size_t room);

/* Reads a journal of `size` bytes and writes the page of its recording ("a page for the wall") to `room` bytes; CUT_PAGE_BYTES are enough.
 * Refused with: reading's numbers, then 12, 13, 14. Stack: CUT_JOURNAL_PAGE_STACK. */
cut_written cut_journal_page(const uint8_t *bytes, size_t size, uint8_t *out, size_t room);

/* Converts a journal of `size` bytes from edition 1 to edition 3 and writes it to `room` bytes, of which it needs `size`; CUT_JOURNAL_BYTES are
 * enough. Only the edition in its header changes; what is written is accepted by reading, and its recording shows the same zones, stocks and
 * channels ("lines"), its page the same text. Whether a recording was started or is complete is not asked. Refused with: 15 the journal's
 * edition is not 1; then reading's numbers; then 22 it holds a message ("hand-over") of 0 cars; 14 too few bytes are lent. The bytes that are
 * lent must be others than the journal's: it is not converted in place. Stack: CUT_JOURNAL_CONVERT_STACK. */
cut_written cut_journal_upgrade(const uint8_t *bytes, size_t size, uint8_t *out, size_t room);

/* The same from edition 3 to edition 1, and as little in place. Refused with: 15 the journal's edition is not 3; then reading's numbers; then 22,
 * as above; then 23 it holds a record of a gate, which edition 1 does not have; 14. Stack: CUT_JOURNAL_CONVERT_STACK. */
cut_written cut_journal_downgrade(const uint8_t *bytes, size_t size, uint8_t *out, size_t room);

/* Opens a site of `count` zones with their n stocks under an edition ("open"). Where n is 0 it opens an empty one, with stock 0 in every zone:
 * stocks may then be null, and what it names is read by nobody. Refused with: 15 the edition is not 1 to 3; 2 the count is not 2 to 8; 3 n is
 * neither the count nor 0; 4 the stocks sum to more than 65,535. Then *run is as it was. Stack: CUT_OPEN_STACK, of which the library's answer
 * takes 4,214 bytes. */
CUT_INLINE uint8_t cut_open(cut_run *run, uint8_t edition, uint8_t count, const uint16_t *stocks, size_t n)
{
    /* The library is never passed a null pointer: without stocks it gets one to a word that it does not read. */
    static const uint16_t none = 0;
    cut_answer a = cut_site_open(edition, count, n == 0 ? &none : stocks, n);
    if (a.refusal == CUT_ACCEPTED)
        *run = a.run;
    return a.refusal;
}

/* Sends a message ("hand-over") of `cars` from one zone to another; from edition 2 on one of 0 cars is a line check, which takes a place on
 * its channel and a record and changes no zone. Refused with, a check too: 1 the run is not sound; 5 a zone is not on the site, or both are
 * the same; 6 there are 1,000 records; 7 the sender's stock does not cover the cars; 8 the channel ("line") is full. Stack:
 * CUT_CALL_STACK. */
CUT_INLINE uint8_t cut_send(cut_run *run, uint8_t from, uint8_t to, uint8_t cars)
{
    cut_head_answer t = cut_site_send(run->head, run->items, run->lens, run->journal, from, to, cars);
    if (t.refusal == CUT_ACCEPTED)
        run->head = t.head;
    return t.refusal;
}

/* Receives the first item on the channel from one zone to another ("receipt"); a line check leaves its place, takes a record and changes no
 * zone. It also answers how many items remain on the channel. Refused with: 1; 5; 6; 9 the channel ("line") is empty; 10 a channel that must
 * take a request is full. Stack: CUT_CALL_STACK. */
CUT_INLINE cut_received cut_receive(cut_run *run, uint8_t from, uint8_t to)
{
    cut_head_answer t = cut_site_receive(run->head, run->items, run->lens, run->journal, from, to);
    cut_received got = {t.refusal, t.remaining};
    if (t.refusal == CUT_ACCEPTED)
        run->head = t.head;
    return got;
}

/* Starts the recording ("start") with a zone as its initiator ("starter"). Refused with: 1; 5; 6; 11 a recording has been started; 10. Stack:
 * CUT_CALL_STACK. */
CUT_INLINE uint8_t cut_start(cut_run *run, uint8_t zone)
{
    cut_head_answer t = cut_site_start(run->head, run->items, run->lens, run->journal, zone);
    if (t.refusal == CUT_ACCEPTED)
        run->head = t.head;
    return t.refusal;
}

/* Counts `cars` that drive in through a zone's gate ("entry"), from edition 3 on: its stock rises by them. One of 0 cars is an own event and
 * a record too. Refused with: 1; 15 the run's edition has no gates; 5; 6; 21 stocks and cars on channels ("lines") would be above 65,535
 * together. Stack: CUT_CALL_STACK. */
CUT_INLINE uint8_t cut_enter(cut_run *run, uint8_t zone, uint8_t cars)
{
    cut_head_answer t = cut_site_enter(run->head, run->items, run->lens, run->journal, zone, cars);
    if (t.refusal == CUT_ACCEPTED)
        run->head = t.head;
    return t.refusal;
}

/* Counts `cars` that drive out through a zone's gate ("exit"), as cut_enter those that drive in: its stock falls by them. Refused with: 1; 15;
 * 5; 6; 7 the zone's stock does not cover the cars. Stack: CUT_CALL_STACK. */
CUT_INLINE uint8_t cut_leave(cut_run *run, uint8_t zone, uint8_t cars)
{
    cut_head_answer t = cut_site_leave(run->head, run->items, run->lens, run->journal, zone, cars);
    if (t.refusal == CUT_ACCEPTED)
        run->head = t.head;
    return t.refusal;
}

/* Writes the snapshot ("recording") to `size` bytes, with the run's edition; CUT_RECORDING_BYTES are enough. It answers the recorded total
 * too, which is that of the opening plus the entries less the exits inside the recording, and may be above 65,535. Refused with: 1, also
 * where the run is not what its journal replays to; 12 no recording was started; 13 a request is still on a channel ("line"); 14 too few
 * bytes are lent. Stack: CUT_RECORD_STACK. */
CUT_INLINE cut_written cut_record(const cut_run *run, uint8_t *out, size_t size)
{
    return cut_site_record(run->head, run->items, run->lens, run->journal, out, size);
}

/* Writes the page of the recording ("a page for the wall") to `size` bytes, as text; CUT_PAGE_BYTES are enough. Refused with: 1 as above; 12;
 * 13; 14 too few bytes are lent for the page. Stack: CUT_PAGE_STACK. */
CUT_INLINE cut_written cut_page(const cut_run *run, uint8_t *out, size_t size)
{
    return cut_site_page(run->head, run->items, run->lens, run->journal, out, size);
}

/* Writes the run's journal ("journal writing") to `size` bytes; CUT_JOURNAL_BYTES are enough. Refused with: 1 as above; 14. Stack:
 * CUT_WRITE_STACK. */
CUT_INLINE cut_written cut_write(const cut_run *run, uint8_t *out, size_t size)
{
    return cut_journal_write(run->head, run->items, run->lens, run->journal, out, size);
}

#ifdef __cplusplus
}
#endif

#endif
