/* A control room's desk: a whole run of three zones with 10, 20 and 30 cars, from the opening to the recording's bytes and its page, then the same
 * from the journal alone, the recording's words taken apart, line checks, street entrances, a sign controller, empty sites and journals converted to
 * another edition. Prints the recording with its total, and the page; exits 1 if a value is not as it must be. */
#include <inttypes.h>
#include <stdio.h>
#include <stdlib.h>
#include <string.h>

#include <cut/site.h>

static const uint8_t journal[] = {0x28, 0x09, 0x00, 0x0A, 0x00, 0x14, 0x00, 0x1E, 0x01, 0x04, 0x41, 0x00, 0x11,
                                  0x05, 0x02, 0x02, 0x88, 0x00, 0x0A, 0x07, 0x4A, 0x00, 0x42, 0x00, 0x48, 0x00};
static const uint8_t recording[] = {0x28, 0x01, 0x80, 0x02, 0x00, 0x04, 0x80, 0x01,
                                    0x00, 0x18, 0x00, 0x00, 0x00, 0x1E, 0x02, 0x02};

static const char page[] = "Z1 F    2      4\n"
                           "Z2 F    1     24\n"
                           "Z3 -    0     30\n"
                           "L13     1      2\n"
                           "T             60\n";

static cut_run run;

static void must(int holds, const char *what)
{
    if (!holds) {
        fprintf(stderr, "not as it must be: %s\n", what);
        exit(1);
    }
}

static void accepted(uint8_t refusal, const char *what)
{
    if (refusal != CUT_ACCEPTED) {
        fprintf(stderr, "refused: %s: %s\n", what, cut_refusal_words(refusal));
        exit(1);
    }
}

static void traffic(void)
{
    accepted(cut_send(&run, 1, 2, 4), "1 hands 4 cars to 2");
    accepted(cut_receive(&run, 1, 2).refusal, "2 takes them");
    accepted(cut_send(&run, 3, 2, 5), "3 hands 5 cars to 2");
    accepted(cut_send(&run, 1, 3, 2), "1 hands 2 cars to 3");
    accepted(cut_start(&run, 2), "2 starts");
    must(cut_start(&run, 1) == CUT_REFUSED_STARTED, "a second start is refused");
    accepted(cut_send(&run, 2, 3, 7), "2 hands 7 cars to 3");
    accepted(cut_receive(&run, 2, 3).refusal, "3 takes them");
    accepted(cut_receive(&run, 1, 3).refusal, "3 takes the 2 cars");
}

/* The journal read back, and one whose fourth record (at position 3) hands over more cars than zone 1 has. */
static void damaged(void)
{
    uint8_t other[sizeof journal];
    cut_reading r = cut_journal_read(journal, sizeof journal);
    must(r.refusal == CUT_ACCEPTED && r.run.head.records == 9 && r.run.head.zones[1].stock == 17, "the journal reads back");
    memcpy(other, journal, sizeof journal);
    other[15] = 200;
    r = cut_journal_read(other, sizeof other);
    must(r.refusal == CUT_REFUSED_RECORD_CALL && r.position == 3 && r.run.head.count == 2, "a wrong record is refused with its position");
}

/* Words of the recording, of the journal and of a line by their parts: zone 1 is firm with 2 events and 4 cars, and 2 cars are on the way from 1
 * to 3; the fifth record is the start by 2; 5 cars wait on the line from 3 to 2. */
static void taken_apart(void)
{
    uint16_t header = cut_word_at(recording), zone = cut_word_at(recording + 2);
    must(cut_header_edition(header) == 1 && cut_header_zones(header) == 3 && cut_header_number(header) == 1, "three zones and an item");
    must(cut_shown_permanent(zone) && cut_shown_events(zone) == 2 && cut_word_at(recording + 4) == 4, "zone 1 is firm");
    uint16_t item = cut_word_at(recording + 2 + 4 * cut_header_zones(header));
    must(cut_record_kind(item) == CUT_KIND_MESSAGE && cut_record_first(item) == 1 && cut_record_second(item) == 3, "the item is from 1 to 3");
    must(cut_record_cars(item) == 2, "of 2 cars");
    must(cut_record_kind(run.journal[4]) == CUT_KIND_START && cut_record_first(run.journal[4]) == 2, "2 has started");
    uint16_t waits = run.items[CUT_PLACES * (CUT_ZONES_MAX * (3 - 1) + (2 - 1))];
    must(!cut_item_is_request(waits) && cut_item_cars(waits) == 5 && cut_item_flag(waits) == 0, "5 cars wait, without the marked bit");
}

/* What nobody looks at may hold anything: the last place of the channel ("line") from 1 to 2, the channel from 1 to itself, zone 4. But a word
 * above 767 among a channel's items is refused, and so is a mark above 2 at any index. */
static void unlooked(void)
{
    uint8_t bytes[CUT_RECORDING_BYTES];
    cut_run other = run;
    other.items[CUT_PLACES + CUT_PLACES - 1] = CUT_ITEM_MAX + 1;
    other.items[0] = CUT_ITEM_MAX + 1;
    other.lens[0] = 200;
    other.head.zones[3].stock = 65535;
    other.head.opening[3] = 65535;
    accepted(cut_record(&other, bytes, sizeof bytes).refusal, "the run is recorded");
    must(memcmp(bytes, recording, sizeof recording) == 0, "the recording is the same");

    other.lens[1] = CUT_PLACES;
    must(cut_send(&other, 2, 1, 0) == CUT_REFUSED_UNSOUND, "a word above 767 is refused");
    other = run;
    other.head.zones[7].mark = 3;
    must(cut_send(&other, 1, 2, 1) == CUT_REFUSED_UNSOUND, "a mark above 2 is refused");
    must(other.head.zones[7].mark == 3 && other.head.records == run.head.records, "and left as it was");
}

/* Zone 1 checks its line to zone 2, which then starts: in edition 1 the check draws zone 1 into the recording, from edition 2 on nobody. */
static void checked(void)
{
    const uint16_t stocks[] = {5, 7};
    uint8_t shown[] = {0x44, 0x00, 0x00, 0x00, 0x00, 0x05, 0x80, 0x00, 0x00, 0x07};
    uint8_t bytes[CUT_RECORDING_BYTES];
    cut_run other;
    must(cut_open(&other, 4, 2, stocks, 2) == CUT_REFUSED_EDITION, "edition 4 is not known");
    for (uint8_t edition = CUT_EDITION_FIRST; edition <= CUT_EDITION_LAST; edition++) {
        accepted(cut_open(&other, edition, 2, stocks, 2), "a site opens");
        accepted(cut_send(&other, 1, 2, 0), "1 hands 0 cars to 2");
        accepted(cut_receive(&other, 1, 2).refusal, "2 takes them");
        accepted(cut_start(&other, 2), "2 starts");
        cut_written w = cut_record(&other, bytes, sizeof bytes);
        shown[0] = (uint8_t)((CUT_HEADER_EDITION * edition + CUT_HEADER_ZONES * (2 - 1)) / 256);
        if (edition == 1)
            must(w.refusal == CUT_REFUSED_REQUEST_UNDER_WAY, "1 is asked to take part");
        else
            must(w.written == sizeof shown && memcmp(bytes, shown, sizeof shown) == 0, "2 is recorded alone, without events");
    }
}

/* Zones 1 and 2 have street entrances, and 2 starts: what they count before their marks is in the recording and its total. */
static void counted(void)
{
    const uint16_t stocks[] = {10, 20, 30};
    const uint8_t shown[] = {0x68, 0x00, 0x80, 0x03, 0x00, 0x08, 0x80, 0x02, 0x00, 0x0F, 0x00, 0x00, 0x00, 0x1E};
    uint8_t bytes[CUT_RECORDING_BYTES];
    cut_run other;
    accepted(cut_open(&other, 2, 3, stocks, 3), "a site opens");
    must(cut_enter(&other, 1, 3) == CUT_REFUSED_EDITION, "edition 2 has no gates");
    accepted(cut_open(&other, 3, 3, stocks, 3), "a site with gates opens");
    accepted(cut_enter(&other, 1, 3), "3 cars drive in at 1");
    accepted(cut_send(&other, 1, 2, 4), "1 hands 4 cars to 2");
    accepted(cut_receive(&other, 1, 2).refusal, "2 takes them");
    accepted(cut_leave(&other, 2, 9), "9 cars drive out at 2");
    must(cut_leave(&other, 2, 16) == CUT_REFUSED_STOCK_TOO_LOW, "16 of 15 cars do not drive out");
    accepted(cut_start(&other, 2), "2 starts");
    accepted(cut_enter(&other, 2, 50), "50 cars drive in at 2, after its mark");
    accepted(cut_leave(&other, 1, 1), "1 car drives out at 1");
    accepted(cut_receive(&other, 2, 1).refusal, "1 takes the request");
    accepted(cut_enter(&other, 1, 7), "7 cars drive in at 1, after its mark");
    cut_written w = cut_record(&other, bytes, sizeof bytes);
    must(w.written == sizeof shown && memcmp(bytes, shown, sizeof shown) == 0, "the recording is as worked out by hand");
    must(w.total == 60 + 3 - 9 - 1, "its total is that of the opening, and of the gates inside the recording");
}

/* A full site lets cars in where as many have driven out. A recording that has the entries of one zone and not the exits of another has a
 * total above what the site ever held. */
static void full(void)
{
    const uint16_t stocks[] = {CUT_CARS_MAX, 0};
    uint8_t bytes[CUT_RECORDING_BYTES];
    cut_run other;
    accepted(cut_open(&other, 3, 2, stocks, 2), "a full site opens");
    must(cut_enter(&other, 2, 1) == CUT_REFUSED_SUM_TOO_HIGH, "no car drives in at 2");
    accepted(cut_leave(&other, 1, 255), "255 cars drive out at 1");
    accepted(cut_enter(&other, 2, 255), "255 cars drive in at 2");
    accepted(cut_start(&other, 2), "2 starts");
    must(cut_record(&other, bytes, sizeof bytes).total == CUT_CARS_MAX + 255, "the entry is recorded, the exit is not");
}

/* Zone 1 hands cars to zone 2 three times. The sign controller of zone 2 comes back soon as long as its receipts are accepted and something
 * remains on the channel ("line"): beside a refusal, 0 says nothing of it. The journal tells what remained at the last receipt. */
static void awaited(void)
{
    const uint16_t stocks[] = {9, 9};
    uint8_t bytes[CUT_JOURNAL_BYTES];
    cut_run other;
    accepted(cut_open(&other, 3, 2, stocks, 2), "a site opens");
    for (uint8_t cars = 1; cars <= 3; cars++)
        accepted(cut_send(&other, 1, 2, cars), "1 hands cars to 2");
    cut_received got = cut_receive(&other, 1, 2);
    must(got.refusal == CUT_ACCEPTED && got.remaining == 2, "2 takes the first, and two remain");
    cut_written w = cut_write(&other, bytes, sizeof bytes);
    must(cut_journal_read(bytes, w.written).remaining == 2, "the journal tells the same");
    while (got.refusal == CUT_ACCEPTED && got.remaining > 0)
        got = cut_receive(&other, 1, 2);
    must(got.refusal == CUT_ACCEPTED && other.head.zones[1].stock == 15, "2 takes the others, and nothing remains");
    got = cut_receive(&other, 1, 2);
    must(got.refusal == CUT_REFUSED_CHANNEL_EMPTY && got.remaining == 0, "so it need not have come back");
}

/* A site that is opened without stocks is empty, with a null pointer and with any valid one; a row of zeros must have one for each zone. */
static void empty(void)
{
    const uint16_t zeros[CUT_ZONES_MAX] = {0};
    const uint8_t opened[] = {0x28, 0x00, 0x00, 0x00, 0x00, 0x00, 0x00, 0x00};
    const uint16_t cars[CUT_ZONES_MAX] = {1, 2, 3, 4, 5, 6, 7, 8};
    cut_run other, same;
    uint8_t bytes[CUT_JOURNAL_BYTES];
    accepted(cut_open(&other, 1, 3, NULL, 0), "an empty site opens");
    accepted(cut_open(&same, 1, 3, zeros, 3), "and one with three zeros");
    must(memcmp(&other, &same, sizeof other) == 0, "they are the same");
    cut_written w = cut_write(&other, bytes, sizeof bytes);
    must(w.written == sizeof opened && memcmp(bytes, opened, sizeof opened) == 0, "the journal has a word for each zone");
    accepted(cut_open(&other, 1, 3, cars, 3), "a site with cars opens");
    accepted(cut_open(&other, 1, 3, NULL, 0), "the same, opened anew without stocks");
    must(memcmp(&other, &same, sizeof other) == 0, "is empty");
    for (uint8_t count = 2; count <= CUT_ZONES_MAX; count++) {
        accepted(cut_open(&other, 2, count, cars, 0), "an empty site opens, whatever words the pointer names");
        accepted(cut_open(&same, 2, count, zeros, count), "and one with as many zeros as zones");
        must(memcmp(&other, &same, sizeof other) == 0, "they are the same");
        must(cut_open(&other, 2, count, zeros, count - 1u) == CUT_REFUSED_STOCK_COUNT, "a row of zeros one too short is refused");
        must(memcmp(&other, &same, sizeof other) == 0, "and changes nothing");
    }
    must(cut_open(&other, 1, 9, NULL, 0) == CUT_REFUSED_ZONE_COUNT, "9 zones are refused without stocks too");
    must(cut_open(&other, 7, 3, NULL, 0) == CUT_REFUSED_EDITION, "and edition 7");
}

/* The page for the wall: lent enough bytes, one too few, and five more, which stay as they were; and from the journal. */
static void pinned_up(void)
{
    char text[CUT_PAGE_BYTES];
    const size_t size = sizeof page - 1;
    memset(text, '?', sizeof text);
    must(cut_page(&run, (uint8_t *)text, size - 1).refusal == CUT_REFUSED_TOO_FEW_BYTES && text[0] == '?', "a byte too few is refused");
    cut_written w = cut_page(&run, (uint8_t *)text, size + 5);
    must(w.refusal == CUT_ACCEPTED && w.written == size && w.total == 0, "the page is written");
    must(memcmp(text, page, size) == 0 && memcmp(text + size, "?????", 5) == 0, "as worked out by hand, and nothing behind it");
    memset(text, '?', sizeof text);
    w = cut_journal_page(journal, sizeof journal, (uint8_t *)text, sizeof text);
    must(w.refusal == CUT_ACCEPTED && w.written == size && memcmp(text, page, size) == 0, "the journal's page is the same");
    w = cut_journal_page(journal, sizeof journal - 1, (uint8_t *)text, sizeof text);
    must(w.refusal == CUT_REFUSED_LENGTH && w.written == 0, "a cut journal is refused");
    printf("%.*s", (int)size, text);
}

/* The journal for controllers of edition 3, and back: only the edition in its first byte changes, and the recording of both shows the same behind
 * it. Refused are another edition, a byte too few, a hand-over of 0 cars, and a gate on its way to edition 1. */
static void converted(void)
{
    uint8_t newer[sizeof journal + 1], older[sizeof journal], bytes[CUT_RECORDING_BYTES];
    newer[sizeof journal] = 0xEE;
    cut_written w = cut_journal_upgrade(journal, sizeof journal, newer, sizeof newer);
    must(w.refusal == CUT_ACCEPTED && w.written == sizeof journal, "the journal is converted");
    must(cut_header_edition(cut_word_at(newer)) == 3 && memcmp(newer + 1, journal + 1, sizeof journal - 1) == 0, "only its edition changes");
    must(newer[sizeof journal] == 0xEE, "and nothing behind it");
    w = cut_journal_record(newer, sizeof journal, bytes, sizeof bytes);
    must(w.refusal == CUT_ACCEPTED && w.written == sizeof recording && w.total == 60, "its recording is written");
    must(cut_header_edition(cut_word_at(bytes)) == 3, "in edition 3");
    must(memcmp(bytes + 1, recording + 1, sizeof recording - 1) == 0, "and shows the same");
    accepted(cut_journal_downgrade(newer, sizeof journal, older, sizeof older).refusal, "it is converted back");
    must(memcmp(older, journal, sizeof journal) == 0, "to the same bytes");
    must(cut_journal_upgrade(newer, sizeof journal, older, sizeof older).refusal == CUT_REFUSED_EDITION, "edition 3 is not converted from 1");
    w = cut_journal_upgrade(journal, sizeof journal, older, sizeof older - 1);
    must(w.refusal == CUT_REFUSED_TOO_FEW_BYTES && w.written == 0 && older[0] == 0x28, "a byte too few is refused");
    const uint8_t checks[] = {0x64, 0x01, 0x00, 0x05, 0x00, 0x07, 0x01, 0x00}, gates[] = {0x64, 0x01, 0x00, 0x05, 0x00, 0x07, 0xC0, 0x02};
    must(cut_journal_downgrade(checks, sizeof checks, older, sizeof older).refusal == CUT_REFUSED_NO_CARS, "0 cars are refused");
    must(cut_journal_downgrade(gates, sizeof gates, older, sizeof older).refusal == CUT_REFUSED_GATE_RECORD, "and a gate on its way to 1");
}

int main(void)
{
    const uint16_t stocks[] = {10, 20, 30};
    uint8_t bytes[CUT_RECORDING_BYTES];
    must(cut_compatible(), "the library has every call of the header");
    must(cut_open(&run, 1, 9, stocks, 3) == CUT_REFUSED_ZONE_COUNT, "9 zones are refused");
    accepted(cut_open(&run, 1, 3, stocks, 3), "the site opens");
    must(cut_record(&run, bytes, sizeof bytes).refusal == CUT_REFUSED_NOT_STARTED, "nothing was started");
    traffic();
    must(cut_record(&run, bytes, sizeof bytes).refusal == CUT_REFUSED_REQUEST_UNDER_WAY, "a request is under way");
    accepted(cut_receive(&run, 2, 1).refusal, "1 takes the request");

    cut_written w = cut_write(&run, bytes, sizeof bytes);
    must(w.refusal == CUT_ACCEPTED && w.written == sizeof journal && w.total == 0, "the journal is written");
    must(memcmp(bytes, journal, sizeof journal) == 0, "the journal is as worked out by hand");
    w = cut_record(&run, bytes, sizeof bytes);
    must(w.refusal == CUT_ACCEPTED && w.written == sizeof recording && w.total == 60, "the recording is written");
    must(memcmp(bytes, recording, sizeof recording) == 0, "the recording is as worked out by hand");

    memset(bytes, 0, sizeof bytes);
    w = cut_journal_record(journal, sizeof journal, bytes, sizeof bytes);
    must(w.refusal == CUT_ACCEPTED && w.written == sizeof recording && w.total == 60, "the journal's recording is written");
    must(memcmp(bytes, recording, sizeof recording) == 0, "it is the same");
    must(cut_journal_record(journal, sizeof journal - 1, bytes, sizeof bytes).refusal == CUT_REFUSED_LENGTH, "a cut journal is refused");
    damaged();
    taken_apart();
    unlooked();
    checked();
    counted();
    full();
    awaited();
    empty();
    converted();

    for (size_t i = 0; i < w.written; i++)
        printf(i == 0 ? "%02X" : " %02X", bytes[i]);
    printf(", total %" PRIu32 "\n", w.total);
    pinned_up();
    return 0;
}
