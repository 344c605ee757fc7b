// The headers from C++: a zone and a site are opened, the site without stocks too, cars drive in and out, one refusal of each is met, and a page
// is written. Exits 1 if a value is not as it must be.
#include <cstdio>
#include <cstdlib>
#include <cstring>
#include <string>

#include <cut/site.h>
#include <cut/zone.h>

static void must(bool holds, const char *what)
{
    if (!holds) {
        std::fprintf(stderr, "not as it must be: %s\n", what);
        std::exit(1);
    }
}

int main()
{
    const cut_opening opening = cut_zone_open(3, 3, 1, 10);
    must(opening.refusal == CUT_ACCEPTED && opening.zone.stock == 10 && opening.zone.edition == 3, "the zone opens");
    const cut_step step = cut_zone_send(opening.zone, 2, 11);
    must(step.refusal == CUT_REFUSED_STOCK_TOO_LOW && step.zone.stock == 10, "11 of 10 cars are refused");
    must(cut_zone_leave(cut_zone_enter(step.zone, 5).zone, 2).zone.stock == 13, "5 cars drive in and 2 out");

    cut_run run;
    must(cut_open(&run, 3, 8, nullptr, 0) == CUT_ACCEPTED && run.head.zones[7].stock == 0, "an empty site opens");
    const std::uint16_t stocks[] = {10, 20, 30};
    must(cut_open(&run, 3, 3, stocks, 3) == CUT_ACCEPTED && run.head.zones[2].stock == 30, "the site opens");
    must(cut_enter(&run, 3, 5) == CUT_ACCEPTED && cut_leave(&run, 3, 2) == CUT_ACCEPTED, "5 cars drive in at 3 and 2 out");
    must(run.head.zones[2].stock == 33 && run.head.zones[2].events == 2, "both are counted");
    must(cut_open(&run, 3, 8, nullptr, 0) == CUT_ACCEPTED && run.head.zones[2].stock == 0, "opened anew without stocks it is empty");
    const cut_received received = cut_receive(&run, 1, 2);
    must(received.refusal == CUT_REFUSED_CHANNEL_EMPTY && received.remaining == 0, "nothing is on the line from 1 to 2");
    must(std::strcmp(cut_refusal_words(received.refusal), "the line is empty") == 0, "its words");

    std::string page(CUT_PAGE_BYTES, '?');
    must(cut_start(&run, 1) == CUT_ACCEPTED, "zone 1 starts");
    const cut_written shown = cut_page(&run, reinterpret_cast<std::uint8_t *>(&page[0]), page.size());
    page.resize(shown.written);
    must(shown.refusal == CUT_ACCEPTED && page.substr(0, 17) == "Z1 F    0      0\n" && page.size() == 9 * 17, "its page has a line a zone, and the total");

    const std::uint8_t journal[] = {0x24, 0x01, 0x00, 0x05, 0x00, 0x07, 0x80, 0x00};
    std::uint8_t newer[sizeof journal];
    const cut_written upgraded = cut_journal_upgrade(journal, sizeof journal, newer, sizeof newer);
    must(upgraded.written == sizeof journal && newer[0] == 0x64, "a journal gets edition 3");
    must(cut_journal_downgrade(journal, sizeof journal, newer, sizeof newer).refusal == CUT_REFUSED_EDITION, "edition 1 is not converted from 3");

    const std::string version =
        std::to_string(CUT_VERSION_MAJOR) + "." + std::to_string(CUT_VERSION_MINOR) + "." + std::to_string(CUT_VERSION_PATCH);
    must(version == CUT_VERSION, "the version is the same in numbers and in words");
    must(cut_compatible() && cut_version() == CUT_VERSION_NUMBER, "the library is of the same version");
    std::printf("cut %s\n", CUT_VERSION);
    return 0;
}
