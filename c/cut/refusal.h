/* What the parts of the Cut Recorder share, in C and in C++: the version, the limits, the refusals and the kinds of a checkpoint. <cut/zone.h>
 * and <cut/site.h> include it.
 *
 * Names have the field's terms; the words of docs/RULES.md that customers use stand beside them in quotation marks. */
#ifndef CUT_REFUSAL_H
#define CUT_REFUSAL_H

#include <stdint.h>

/* The version of the calls and structs. The major number, which is the library's soname too, is raised when a program would have to be
 * changed or compiled anew, the minor number when something is added. As one number a version has two decimal digits for each of the last
 * two. */
#define CUT_VERSION_MAJOR 3
#define CUT_VERSION_MINOR 4
#define CUT_VERSION_PATCH 0
#define CUT_VERSION "3.4.0"
#define CUT_VERSION_NUMBER (10000 * CUT_VERSION_MAJOR + 100 * CUT_VERSION_MINOR + CUT_VERSION_PATCH)

/* The first and the last "edition" of zones, runs, journals and recordings that this version knows. An opening that names another one and a
 * journal of another one are refused with 15, a zone or a run of another one with 1.
 *
 * Edition 2 is edition 1, but a message ("hand-over") of 0 cars is a line check there, and no traffic. It is sent and received by the same
 * calls, with its flag ("marked bit"), takes a place on its channel ("line") and, in a run, a record. But it is no "own event" of its sender
 * or its receiver, adds nothing to a dependency set ("heard set"), causes no checkpoint ("mark") and is not shown in a snapshot
 * ("recording").
 *
 * Edition 3 is edition 2 with gates: a zone with a street entrance counts the cars that drive in ("entry") and out ("exit"). Each is an "own
 * event" of its zone, also with 0 cars, and takes a record in a run; it adds nothing to a dependency set, causes no checkpoint and sends
 * no request. In an earlier edition it is refused with 15. */
#define CUT_EDITION_FIRST 1
#define CUT_EDITION_LAST 3

/* The limits: the "zones" of a site; the "records" of a run, and the "own events" of a zone in the zone part; the "cars" of a site, its
 * stocks and what is on its channels ("lines") together, and so the "stock" of a zone. */
#define CUT_ZONES_MIN 2
#define CUT_ZONES_MAX 8
#define CUT_RECORDS_MAX 1000
#define CUT_CARS_MAX 65535

/* What a call answers: 0, or the number of the first question of its list, from left to right, that is answered no. Here are the
 * questions of docs/RULES.md in their order, "channel" in a name being "line" there; cut_refusal_words has the words for each no. */
enum cut_refusal {
    CUT_ACCEPTED = 0,
    /* "Is the state sound"? */
    CUT_REFUSED_UNSOUND = 1,
    /* "Is the zone count 2 to 8?" */
    CUT_REFUSED_ZONE_COUNT = 2,
    /* "Are there as many stocks as zones?", or none. */
    CUT_REFUSED_STOCK_COUNT = 3,
    /* "Is their sum at most 65,535?" */
    CUT_REFUSED_STOCK_SUM = 4,
    /* "Are the named zones on the site, and two named zones different?" */
    CUT_REFUSED_ZONE = 5,
    /* "Are there fewer than 1,000 records?" */
    CUT_REFUSED_RUN_FULL = 6,
    /* "Does the sender's stock cover the cars?" At an exit: does the zone's? */
    CUT_REFUSED_STOCK_TOO_LOW = 7,
    /* "Has the line a free place?" */
    CUT_REFUSED_CHANNEL_FULL = 8,
    /* "Does the line hold an item?" */
    CUT_REFUSED_CHANNEL_EMPTY = 9,
    /* "Has each line that must take a request a free place?" */
    CUT_REFUSED_REQUEST_CHANNEL_FULL = 10,
    /* "Has no recording been started?" */
    CUT_REFUSED_STARTED = 11,
    /* "Has one been started?" */
    CUT_REFUSED_NOT_STARTED = 12,
    /* "Is every line free of requests?" */
    CUT_REFUSED_REQUEST_UNDER_WAY = 13,
    /* "Are the lent bytes enough?" */
    CUT_REFUSED_TOO_FEW_BYTES = 14,
    /* "Has the journal two bytes and edition 1", 2 or 3? In an opening: is the edition that it names 1 to 3? At a gate: "does the run's edition
     * have gates?" In a conversion, before reading: is the journal's edition the one that it converts from? */
    CUT_REFUSED_EDITION = 15,
    /* "Is the zones field 1 to 7 and the record number at most 1,000?" */
    CUT_REFUSED_HEADER = 16,
    /* "Is the length 2 + 2 x zones + 2 x records?" */
    CUT_REFUSED_LENGTH = 17,
    /* "Is the record well formed (wrong zones alone meet 19)?" */
    CUT_REFUSED_RECORD_MALFORMED = 18,
    /* "Is its call accepted?" */
    CUT_REFUSED_RECORD_CALL = 19,
    /* "Does the zone's stock stay at or below 65,535?" */
    CUT_REFUSED_STOCK_TOO_HIGH = 20,
    /* Do "stocks plus cars on lines" stay at or below 65,535 with the cars of an entry? */
    CUT_REFUSED_SUM_TOO_HIGH = 21,
    /* Is the journal without "a hand-over of 0 cars"? */
    CUT_REFUSED_NO_CARS = 22,
    /* "On its way to edition 1": is the journal without "a gate record"? */
    CUT_REFUSED_GATE_RECORD = 23
};

/* The kinds of a checkpoint ("mark"): none, mutable ("provisional") or permanent ("firm"). Every other value of a field that holds one is
 * refused with 1. */
enum cut_mark_kind {
    CUT_MARK_NONE = 0,
    CUT_MARK_MUTABLE = 1,
    CUT_MARK_PERMANENT = 2
};

/* What makes the headers refuse a compiler that lays out their structs in another way than the library has them. */
#ifdef __cplusplus
#define CUT_STATIC_ASSERT(test, text) static_assert(test, text)
#define CUT_ALIGNOF(type) alignof(type)
#else
#define CUT_STATIC_ASSERT(test, text) _Static_assert(test, text)
#define CUT_ALIGNOF(type) _Alignof(type)
#endif

/* How a call that the headers themselves define is defined: inline in a program in C or C++. The library has these calls too, by the same text and
 * under the same names, for programs in other languages; its sources, and no program, define this as nothing before they include the header. */
#ifndef CUT_INLINE
#define CUT_INLINE static inline
#endif

#ifdef __cplusplus
extern "C" {
#endif

/* The version of the library that the program runs with, as CUT_VERSION_NUMBER is that of the header. */
uint32_t cut_version(void);

/* Whether that library has every call of this header, 1 or 0: its major number is the same and its minor number not lower. It is for programs that
 * may get header and library from different places. The dynamic linker starts no program on a libcut.so that lacks a call which the program makes:
 * it names the version that is missing. A library before 3.4.0 has no versions, and not this call; there it names the call, at the start where
 * the program is linked with -Wl,-z,now, as pkg-config says. */
static inline uint8_t cut_compatible(void)
{
    uint32_t library = cut_version();
    return library / 10000 == CUT_VERSION_MAJOR && library / 100 >= CUT_VERSION_NUMBER / 100;
}

/* The words of a refusal, as docs/RULES.md has them; for 0 and for a number that no call answers there are fixed words too, so that the answer is
 * never null. It is a constant, to be freed by nobody. */
CUT_INLINE const char *cut_refusal_words(uint8_t refusal)
{
    switch (refusal) {
    case CUT_ACCEPTED:
        return "accepted";
    case CUT_REFUSED_UNSOUND:
        return "the state is not sound, or (recording, journal) not what its journal replays to";
    case CUT_REFUSED_ZONE_COUNT:
        return "the zone count is not 2 to 8";
    case CUT_REFUSED_STOCK_COUNT:
        return "stocks are given, but not as many as zones";
    case CUT_REFUSED_STOCK_SUM:
        return "the stocks sum to more than 65,535";
    case CUT_REFUSED_ZONE:
        return "a named zone is not on the site, or two named zones are the same";
    case CUT_REFUSED_RUN_FULL:
        return "1,000 records (zone part: own events) are there";
    case CUT_REFUSED_STOCK_TOO_LOW:
        return "the sender's stock, or that of an exit's zone, does not cover the cars";
    case CUT_REFUSED_CHANNEL_FULL:
        return "the line is full";
    case CUT_REFUSED_CHANNEL_EMPTY:
        return "the line is empty";
    case CUT_REFUSED_REQUEST_CHANNEL_FULL:
        return "a line that must take a request is full";
    case CUT_REFUSED_STARTED:
        return "a recording has been started (zone part: the zone has a mark)";
    case CUT_REFUSED_NOT_STARTED:
        return "no recording has been started";
    case CUT_REFUSED_REQUEST_UNDER_WAY:
        return "a request is still under way";
    case CUT_REFUSED_TOO_FEW_BYTES:
        return "too few bytes were lent";
    case CUT_REFUSED_EDITION:
        return "the edition is not 1 to 3, or (gates) has none, or (conversion) is not the one converted from, or (reading) there is no header";
    case CUT_REFUSED_HEADER:
        return "the header's zones or records are out of range";
    case CUT_REFUSED_LENGTH:
        return "the length does not fit the header";
    case CUT_REFUSED_RECORD_MALFORMED:
        return "the record at the position is not well formed";
    case CUT_REFUSED_RECORD_CALL:
        return "the call of the record at the position is not accepted";
    case CUT_REFUSED_STOCK_TOO_HIGH:
        return "the zone's stock would exceed 65,535 (zone part alone)";
    case CUT_REFUSED_SUM_TOO_HIGH:
        return "an entry would lift stocks and cars on lines above 65,535";
    case CUT_REFUSED_NO_CARS:
        return "the journal to be converted holds a hand-over of 0 cars";
    case CUT_REFUSED_GATE_RECORD:
        return "the journal to be converted to edition 1 holds a gate record";
    default:
        return "not a number that a call answers";
    }
}

#ifdef __cplusplus
}
#endif

#endif
