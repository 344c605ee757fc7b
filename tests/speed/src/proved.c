/* The proved code as a buyer calls it in C: by the header's inline calls, and by the exported functions where the header has none. What an
 * answer holds is given by field, so that only this file knows the layout of the answers. */
#include <cut/site.h>

uint8_t proved_open(cut_run *run, uint8_t edition, uint8_t count, const uint16_t *stocks, size_t n)
{
    return cut_open(run, edition, count, stocks, n);
}

/* The opening itself, which hands back a run when it is refused too. */
uint8_t proved_open_any(cut_run *run, uint8_t edition, uint8_t count, const uint16_t *stocks, size_t n)
{
    cut_answer a = cut_site_open(edition, count, stocks, n);
    *run = a.run;
    return a.refusal;
}

uint8_t proved_send(cut_run *run, uint8_t from, uint8_t to, uint8_t cars)
{
    return cut_send(run, from, to, cars);
}

uint8_t proved_receive(cut_run *run, uint8_t from, uint8_t to, uint8_t *remaining)
{
    cut_received r = cut_receive(run, from, to);
    *remaining = r.remaining;
    return r.refusal;
}

uint8_t proved_start(cut_run *run, uint8_t zone)
{
    return cut_start(run, zone);
}

uint8_t proved_enter(cut_run *run, uint8_t zone, uint8_t cars)
{
    return cut_enter(run, zone, cars);
}

uint8_t proved_leave(cut_run *run, uint8_t zone, uint8_t cars)
{
    return cut_leave(run, zone, cars);
}

/* What writing answers beside the refusal. */
typedef struct {
    uint32_t total;
    size_t position, written;
} write_told;

static uint8_t tell(write_told *told, cut_written w)
{
    *told = (write_told){w.total, w.position, w.written};
    return w.refusal;
}

uint8_t proved_record(const cut_run *run, uint8_t *out, size_t size, write_told *told)
{
    return tell(told, cut_record(run, out, size));
}

uint8_t proved_page(const cut_run *run, uint8_t *out, size_t size, write_told *told)
{
    return tell(told, cut_page(run, out, size));
}

uint8_t proved_write(const cut_run *run, uint8_t *out, size_t size, write_told *told)
{
    return tell(told, cut_write(run, out, size));
}

uint8_t proved_read_record(const uint8_t *bytes, size_t n, uint8_t *out, size_t size, write_told *told)
{
    return tell(told, cut_journal_record(bytes, n, out, size));
}

uint8_t proved_read_page(const uint8_t *bytes, size_t n, uint8_t *out, size_t size, write_told *told)
{
    return tell(told, cut_journal_page(bytes, n, out, size));
}

uint8_t proved_upgrade(const uint8_t *bytes, size_t n, uint8_t *out, size_t size, write_told *told)
{
    return tell(told, cut_journal_upgrade(bytes, n, out, size));
}

uint8_t proved_downgrade(const uint8_t *bytes, size_t n, uint8_t *out, size_t size, write_told *told)
{
    return tell(told, cut_journal_downgrade(bytes, n, out, size));
}

uint8_t proved_read(const uint8_t *bytes, size_t n, cut_run *run, size_t *position, uint8_t *remaining)
{
    cut_reading r = cut_journal_read(bytes, n);
    *run = r.run;
    *position = r.position;
    *remaining = r.remaining;
    return r.refusal;
}

/* A reading that is used where it is: nothing is copied out. */
uint8_t proved_read_here(const uint8_t *bytes, size_t n)
{
    cut_reading r = cut_journal_read(bytes, n);
    __asm__ volatile("" : : "r"(&r) : "memory");
    return r.refusal;
}

uint8_t proved_zone_open(cut_zone *zone, uint8_t edition, uint8_t count, uint8_t number, uint16_t stock)
{
    cut_opening o = cut_zone_open(edition, count, number, stock);
    *zone = o.zone;
    return o.refusal;
}

/* What a step answers beside the zone: its marked bit and both sets. */
typedef struct {
    uint8_t flag, to, carried;
} step_told;

static uint8_t step(cut_zone *zone, step_told *told, cut_step s)
{
    *zone = s.zone;
    *told = (step_told){s.flag, s.to, s.carried};
    return s.refusal;
}

uint8_t proved_zone_send(cut_zone *zone, step_told *told, uint8_t to, uint8_t cars)
{
    return step(zone, told, cut_zone_send(*zone, to, cars));
}

uint8_t proved_zone_receive(cut_zone *zone, step_told *told, uint8_t from, uint8_t cars, uint8_t flag)
{
    return step(zone, told, cut_zone_receive(*zone, from, cars, flag));
}

uint8_t proved_zone_request(cut_zone *zone, step_told *told, uint8_t set)
{
    return step(zone, told, cut_zone_request(*zone, set));
}

uint8_t proved_zone_start(cut_zone *zone, step_told *told)
{
    return step(zone, told, cut_zone_start(*zone));
}

uint8_t proved_zone_enter(cut_zone *zone, step_told *told, uint8_t cars)
{
    return step(zone, told, cut_zone_enter(*zone, cars));
}

uint8_t proved_zone_leave(cut_zone *zone, step_told *told, uint8_t cars)
{
    return step(zone, told, cut_zone_leave(*zone, cars));
}

/* Calls that do nothing: what measuring takes itself. */
uint8_t idle_run(cut_run *run, uint8_t first, uint8_t second, uint8_t third)
{
    (void)run, (void)first, (void)second, (void)third;
    return 0;
}

uint8_t idle_bytes(const void *in, size_t n, uint8_t *out, size_t size, write_told *told)
{
    (void)in, (void)n, (void)out, (void)size, (void)told;
    return 0;
}

uint8_t idle_zone(cut_zone *zone, step_told *told, uint8_t first, uint8_t second, uint8_t third)
{
    (void)zone, (void)told, (void)first, (void)second, (void)third;
    return 0;
}

/* The layout of a run and of a zone, by which the peer's own structs are held to these. */
const size_t proved_layout[] = {
    sizeof(cut_run),
    offsetof(cut_run, head.count),
    offsetof(cut_run, head.edition),
    offsetof(cut_run, head.records),
    offsetof(cut_run, head.zones),
    offsetof(cut_run, head.opening),
    offsetof(cut_run, items),
    offsetof(cut_run, lens),
    offsetof(cut_run, journal),
    sizeof(cut_local),
    offsetof(cut_local, stock),
    offsetof(cut_local, events),
    offsetof(cut_local, deps),
    offsetof(cut_local, mark),
    offsetof(cut_local, saved.stock),
    offsetof(cut_local, saved.events),
    sizeof(cut_zone),
    offsetof(cut_zone, number),
    offsetof(cut_zone, count),
    offsetof(cut_zone, deps),
    offsetof(cut_zone, mark),
    offsetof(cut_zone, stock),
    offsetof(cut_zone, events),
    offsetof(cut_zone, saved.stock),
    offsetof(cut_zone, saved.events),
    offsetof(cut_zone, edition),
};
