/* The calls of c/cut/site.h as a program has them, inline, the conversions as it declares them, the words of the refusals, the parts of words, and
 * sums over the fields of the headers' structs by their names, so that the headers themselves are compared. */
#include <stddef.h>

/* The header's cut_open calls the function below, which then calls the library's. */
#define cut_site_open passed_site_open
#include <cut/site.h>
#undef cut_site_open

cut_answer cut_site_open(uint8_t edition, uint8_t count, const uint16_t *stocks, size_t n);

/* What the library answers. It must not be passed a null pointer: one is answered with a number that no call gives. */
cut_answer passed_site_open(uint8_t edition, uint8_t count, const uint16_t *stocks, size_t n)
{
    cut_answer a = {0};
    if (stocks == NULL) {
        a.refusal = UINT8_MAX;
        return a;
    }
    return cut_site_open(edition, count, stocks, n);
}

uint8_t header_open(cut_run *run, uint8_t edition, uint8_t count, const uint16_t *stocks, size_t n)
{
    return cut_open(run, edition, count, stocks, n);
}

uint8_t header_send(cut_run *run, uint8_t from, uint8_t to, uint8_t cars)
{
    return cut_send(run, from, to, cars);
}

cut_received header_receive(cut_run *run, uint8_t from, uint8_t to)
{
    return cut_receive(run, from, to);
}

uint8_t header_start(cut_run *run, uint8_t zone)
{
    return cut_start(run, zone);
}

uint8_t header_enter(cut_run *run, uint8_t zone, uint8_t cars)
{
    return cut_enter(run, zone, cars);
}

uint8_t header_leave(cut_run *run, uint8_t zone, uint8_t cars)
{
    return cut_leave(run, zone, cars);
}

cut_written header_record(const cut_run *run, uint8_t *out, size_t size)
{
    return cut_record(run, out, size);
}

cut_written header_page(const cut_run *run, uint8_t *out, size_t size)
{
    return cut_page(run, out, size);
}

size_t header_page_bytes(void)
{
    return CUT_PAGE_BYTES;
}

cut_written header_write(const cut_run *run, uint8_t *out, size_t size)
{
    return cut_write(run, out, size);
}

cut_written header_upgrade(const uint8_t *bytes, size_t size, uint8_t *out, size_t room)
{
    return cut_journal_upgrade(bytes, size, out, room);
}

cut_written header_downgrade(const uint8_t *bytes, size_t size, uint8_t *out, size_t room)
{
    return cut_journal_downgrade(bytes, size, out, room);
}

const char *header_refusal_words(uint8_t refusal)
{
    return cut_refusal_words(refusal);
}

uint8_t header_compatible(void)
{
    return cut_compatible();
}

uint32_t header_version(void)
{
    return CUT_VERSION_NUMBER;
}

/* The kinds of a record and the directions through a gate, in the order of docs/RULES.md. */
const uint8_t header_kinds[] = {CUT_KIND_MESSAGE, CUT_KIND_RECEIPT, CUT_KIND_START, CUT_KIND_GATE};
const uint8_t header_directions[] = {CUT_DIRECTION_IN, CUT_DIRECTION_OUT};

/* The parts of a word: as an item, as a header, as a record and as a zone's first word in a recording. */
typedef struct {
    uint16_t is_request, is_above, cars, flag, set;
    uint16_t edition, zones, number;
    uint16_t kind, first, second, direction, record_cars;
    uint16_t permanent, events;
} word_parts;

word_parts header_parts(const uint8_t *bytes)
{
    uint16_t word = cut_word_at(bytes);
    return (word_parts){
        .is_request = cut_item_is_request(word),
        .is_above = word > CUT_ITEM_MAX,
        .cars = cut_item_cars(word),
        .flag = cut_item_flag(word),
        .set = cut_item_set(word),
        .edition = cut_header_edition(word),
        .zones = cut_header_zones(word),
        .number = cut_header_number(word),
        .kind = cut_record_kind(word),
        .first = cut_record_first(word),
        .second = cut_record_second(word),
        .direction = cut_record_direction(word),
        .record_cars = cut_record_cars(word),
        .permanent = cut_shown_permanent(word),
        .events = cut_shown_events(word),
    };
}

/* The four words of parts, by the names of what these weigh. */
typedef struct {
    uint16_t item, header, record, shown;
} part_words;

part_words header_words(const word_parts *of)
{
    int item = of->is_request ? CUT_ITEM_REQUEST + of->set : CUT_ITEM_FLAG * of->flag + of->cars;
    int header = CUT_HEADER_EDITION * of->edition + CUT_HEADER_ZONES * (of->zones - 1) + of->number;
    int record = CUT_RECORD_KIND * of->kind + CUT_RECORD_FIRST * (of->first - 1) + CUT_RECORD_SECOND * of->direction + of->record_cars;
    int shown = CUT_SHOWN_PERMANENT * of->permanent + of->events;
    return (part_words){(uint16_t)item, (uint16_t)header, (uint16_t)record, (uint16_t)shown};
}

static uint64_t add(uint64_t sum, uint64_t value)
{
    return sum * 1000003 + value + 1;
}

static uint64_t add_saved(uint64_t sum, cut_saved saved)
{
    return add(add(sum, saved.stock), saved.events);
}

static uint64_t add_zone(uint64_t sum, const cut_zone *zone)
{
    sum = add(add(sum, zone->number), zone->count);
    sum = add(add(sum, zone->deps), zone->edition);
    sum = add_saved(add(add(sum, zone->stock), zone->events), zone->saved);
    return add(sum, zone->mark);
}

uint64_t header_opening_sum(const cut_opening *opening)
{
    return add(add_zone(0, &opening->zone), opening->refusal);
}

uint64_t header_step_sum(const cut_step *step)
{
    uint64_t sum = add(add(add_zone(0, &step->zone), step->refusal), step->flag);
    return add(add(sum, step->to), step->carried);
}

static uint64_t add_head(uint64_t sum, const cut_head *head)
{
    sum = add(add(add(sum, head->count), head->edition), head->records);
    for (int k = 0; k < 8; k++) {
        const cut_local *zone = &head->zones[k];
        sum = add(add(add(add(sum, zone->stock), zone->events), zone->deps), zone->mark);
        sum = add_saved(sum, zone->saved);
    }
    for (int k = 0; k < 8; k++)
        sum = add(sum, head->opening[k]);
    return sum;
}

static uint64_t add_run(uint64_t sum, const cut_run *run)
{
    sum = add_head(sum, &run->head);
    for (int k = 0; k < 1024; k++)
        sum = add(sum, run->items[k]);
    for (int k = 0; k < 64; k++)
        sum = add(sum, run->lens[k]);
    for (int k = 0; k < 1000; k++)
        sum = add(sum, run->journal[k]);
    return sum;
}

uint64_t header_answer_sum(const cut_answer *answer)
{
    return add_run(add(add(0, answer->refusal), answer->remaining), &answer->run);
}

uint64_t header_head_answer_sum(const cut_head_answer *answer)
{
    return add_head(add(add(0, answer->refusal), answer->remaining), &answer->head);
}

uint64_t header_received_sum(const cut_received *received)
{
    return add(add(0, received->refusal), received->remaining);
}

uint64_t header_reading_sum(const cut_reading *reading)
{
    return add_run(add(add(add(0, reading->refusal), reading->remaining), reading->position), &reading->run);
}

uint64_t header_written_sum(const cut_written *written)
{
    return add(add(add(add(0, written->refusal), written->total), written->position), written->written);
}
