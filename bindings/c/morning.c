/* A morning at a tape library, whole: what the slot board is for. Two hundred checking streams are loaded in one batch. Restores come and go
 * while rounds run. The board is saved, all memory is lost, it is read back from its sheet, and a second drive joins. The drives are simulated:
 * a slot reads the next block of the stream that it serves. Every slot is logged, and at the end what was promised is checked from the log and
 * from what the calls answered, never from the board.
 *
 *   morning                                    prints an account
 *   morning waits.svg certificates.txt         also draws the waits, and writes a certificate of each stream
 *   morning forge                              also damages the log in one way after another, and prints what the check says of each
 *   morning forge waits.svg certificates.txt   all of it
 *
 * Nothing is allocated. It ends with status 1 at an answer that it does not expect, at what the check finds, and at a file that it cannot write.
 * bindings/rust/examples/morning.rs is the same program and prints the same. */
#include <inttypes.h>
#include <stdarg.h>
#include <stdbool.h>
#include <stdio.h>
#include <stdlib.h>
#include <string.h>

#include "mandrozsi.h"

/* The capacity; the laps of the morning, in each of which every drive runs one round, and how many of them the first drive runs alone; the checking
 * streams, and all names with 0; the lap in which many restores come at once, and how many. */
enum { C = 400, LAPS = 300, ALONE = 100, CHECKING = 200, NAMES = 512, DRIVES = 2, RUSH = 180, RUSHING = 80 };

/* The slots of the morning, the places of a waiting list, the bytes of the sheet, and what stands for no slot. */
enum { SLOTS = (ALONE + DRIVES * (LAPS - ALONE)) * C, PLACES = 64, NO_SLOT = 65535 };
enum { SHEET = (C + MANDROZSI_LEAVES_PER_BLOCK - 1) / MANDROZSI_LEAVES_PER_BLOCK * MANDROZSI_BLOCK_BYTES };

/* A stream: the weight that it wants, the least that will do, and the one that it holds, 0 for none; whether an order of its waits; the blocks of its
 * copy, and those that it read. */
struct stream {
    uint16_t wants, least, holds;
    bool asked;
    uint32_t length, read;
};

/* An order that waits. Weight 0 is a remove. */
struct order {
    uint64_t ticket;
    uint16_t name, weight;
};

/* A line of the log: what a slot served. Slots count from 0 in each round. Round numbers begin again where the board is read from a sheet, so that
 * a line also says the start: 1 since the board was opened, 2 since it was read. Block 0: none, since the slot is idle or the stream has read all
 * of its blocks. */
struct line {
    uint64_t round;
    uint32_t block;
    uint16_t slot, stream;
    uint8_t start, drive;
};

/* What is lent to the calls, and kept between them. Until the second drive joins, its record stays at the start of a round and holds nothing up. */
static uint16_t board[C];
static uint64_t list[MANDROZSI_LIST];
static mandrozsi_drive drives[DRIVES];
static uint8_t sheet[SHEET];
static size_t sheet_bytes;

static struct stream streams[NAMES];
static unsigned names = 1;
static struct order orders[PLACES];
static unsigned waiting, waited, fetched, lost;
static uint64_t answers[MANDROZSI_GROUP + 1];

static struct line lines[SLOTS];
static size_t logged;
static uint8_t start = 1;

/* The book: for each lap whether the board changed at its start, and what each stream then held, with the spacing that report gave; and whether
 * the board has changed since the book was last written. */
static bool changed[LAPS], change;
static uint16_t weights[LAPS][NAMES], spacings[LAPS][NAMES];

static void stop(const char *what, uint64_t number)
{
    fprintf(stderr, "morning: %s: %" PRIu64 "\n", what, number);
    exit(1);
}

/* A number below a limit, by xorshift from a fixed seed. */
static uint32_t draw(uint32_t below)
{
    static uint32_t state = 2099;
    state ^= state << 13;
    state ^= state >> 17;
    state ^= state << 5;
    return state % below;
}

/* ---- The desk: streams come, ask, are answered and go. ---- */

/* A new stream that wants a weight, for a copy of so many blocks. */
static uint16_t come(uint16_t weight, uint32_t length)
{
    if (names == NAMES)
        stop("too many streams", names);
    streams[names] = (struct stream){.wants = weight, .least = (uint16_t)(weight - weight / 2), .length = length};
    return (uint16_t)names++;
}

/* What a change was answered, at once or by its ticket. Where there is room for less, and it will do, that much is asked for next. */
static void answered(uint16_t name, uint16_t weight, uint64_t number, uint64_t value)
{
    struct stream *s = &streams[name];
    if (number > MANDROZSI_GROUP)
        stop("a change", number);
    answers[number]++;
    switch (number) {
    case MANDROZSI_DONE:
        s->holds = weight;
        change = true;
        return;
    case MANDROZSI_ROOM:
        if (s->wants != 0 && value >= s->least)
            s->wants = (uint16_t)value;
        return;
    case MANDROZSI_TAKEN: case MANDROZSI_ABSENT: case MANDROZSI_QUEUE: return;
    }
    stop("a change", number);
}

/* Asks for a weight, or with 0 for a remove. Where it waits, its answer is fetched when the next lap has begun. */
static void ask(uint16_t name, uint16_t weight)
{
    mandrozsi_reply r = weight != 0 ? mandrozsi_pair_add(drives[0], drives[1], board, C, list, MANDROZSI_LIST, name, weight)
                                    : mandrozsi_pair_remove(drives[0], drives[1], board, C, list, MANDROZSI_LIST, name);
    if (r.said.number != MANDROZSI_WAITING) {
        answered(name, weight, r.said.number, r.said.first);
    } else if (waiting == PLACES) {
        stop("an order beyond the list", r.said.number);
    } else {
        orders[waiting++] = (struct order){r.said.first, name, weight};
        streams[name].asked = true;
        waited++;
    }
}

/* Fetches the answer of every order: the first slot of a lap has carried them out. */
static void fetch_all(void)
{
    for (unsigned i = 0; i < waiting; i++) {
        mandrozsi_said said = mandrozsi_fetch(list, MANDROZSI_LIST, orders[i].ticket);
        streams[orders[i].name].asked = false;
        answered(orders[i].name, orders[i].weight, said.number, said.first);
    }
    fetched += waiting;
    waiting = 0;
}

/* The morning's batch: every checking stream, and by mistake one of them twice. */
static void load(void)
{
    static mandrozsi_entry table[CHECKING + 1];
    for (unsigned i = 0; i < CHECKING; i++) {
        uint16_t weight = (uint16_t)(1 + draw(2));
        uint16_t name = come(weight, weight * (150 + draw(400)));
        table[i] = (mandrozsi_entry){1, name, weight, 0, 0};
    }
    table[CHECKING] = table[6];
    mandrozsi_batch(drives[0], board, C, list, MANDROZSI_LIST, table, CHECKING + 1);
    for (unsigned i = 0; i <= CHECKING; i++)
        answered(table[i].name, table[i].weight, table[i].number, table[i].value);
}

/* Saves the board: the bytes of the sheet, or 0 where a round runs. */
static size_t save(void)
{
    mandrozsi_reply r = mandrozsi_pair_save(drives[0], drives[1], board, C, sheet, SHEET);
    if (r.said.number != MANDROZSI_DONE && r.said.number != MANDROZSI_MIDROUND)
        stop("save", r.said.number);
    if (r.said.number == MANDROZSI_MIDROUND)
        answers[MANDROZSI_MIDROUND]++;
    return (size_t)r.said.first;
}

/* At some moment of a lap a restore may come, or many; an operator may end one, which may have ended by itself; before the restart a save is
 * tried; and every stream that does not hold what it wants asks for it. */
static void desk(unsigned lap)
{
    unsigned small = lap == RUSH ? RUSHING : 0, large = draw(3) == 0;
    for (unsigned i = 0; i < small + large; i++) {
        uint16_t weight = (uint16_t)(4 + draw(i < small ? 4 : 45));
        come(weight, weight * (2 + draw(20)));
    }
    if (draw(8) == 0 && names > CHECKING + 1) {
        uint16_t name = (uint16_t)(CHECKING + 1 + draw(names - CHECKING - 1));
        streams[name].wants = 0;
        ask(name, 0);
    }
    if (lap == ALONE - 1)
        save();
    for (uint16_t name = 1; name < names; name++)
        if (!streams[name].asked && streams[name].wants != streams[name].holds)
            ask(name, streams[name].wants);
}

/* ---- The drives ---- */

/* Serves one slot of a drive, reads a block for it, and logs both. A stream that has read all of its blocks wants no more. */
static void serve(unsigned drive, uint16_t slot)
{
    mandrozsi_reply r = mandrozsi_pair_slot(drives[drive], drives[1 - drive], board, C, list, MANDROZSI_LIST);
    if (r.said.number != MANDROZSI_DONE || r.said.first >= NAMES || logged == SLOTS)
        stop("slot", r.said.number);
    drives[drive] = r.drive;
    struct stream *s = &streams[r.said.first];
    uint32_t block = s->read < s->length ? ++s->read : 0;
    if (s->read == s->length)
        s->wants = 0;
    lines[logged++] = (struct line){r.said.fourth, block, slot, (uint16_t)r.said.first, start, (uint8_t)drive};
}

/* Writes the book of a lap. A spacing is reported again where any stream came or went, since others may then have moved. */
static void write_book(unsigned lap)
{
    changed[lap] = change;
    for (uint16_t name = 1; name < names; name++) {
        uint16_t weight = streams[name].holds;
        weights[lap][name] = weight;
        if (weight == 0)
            continue;
        if (!change) {
            spacings[lap][name] = spacings[lap - 1][name];
            continue;
        }
        mandrozsi_reply r = mandrozsi_pair_report(drives[0], drives[1], board, C, name);
        if (r.said.number != MANDROZSI_DONE || r.said.first != weight)
            stop("report", r.said.number);
        spacings[lap][name] = (uint16_t)r.said.third;
    }
    change = false;
}

/* Runs a lap: one round of each drive, by turns as it happens. The drive that is first at the end is held back until the other is there too, so that
 * what waits is carried out by the first slot of the next lap. */
static void run(unsigned lap)
{
    uint16_t at[DRIVES] = {0, start == 1 ? C : 0};
    uint16_t moment = (uint16_t)(draw(4) == 0 ? 0 : draw(C));
    for (unsigned n = 0; at[0] < C || at[1] < C; n++) {
        unsigned drive = at[0] == C || (at[1] < C && draw(2) == 1);
        if (drive == 0 && at[0] == moment)
            desk(lap);
        serve(drive, at[drive]++);
        if (n == 0) {
            fetch_all();
            write_book(lap);
        }
    }
}

/* Saves at the start of a round, loses all memory, and reads the sheet. The orders that waited are lost with the list: they are asked for again, as
 * everything is that a stream wants and does not hold. */
static void restart(void)
{
    sheet_bytes = save();
    if (sheet_bytes == 0)
        stop("save", MANDROZSI_MIDROUND);
    memset(board, 0xff, sizeof board);
    memset(list, 0, sizeof list);
    memset(drives, 0, sizeof drives);
    mandrozsi_reply r = mandrozsi_read(sheet, sheet_bytes, board, C, list, MANDROZSI_LIST);
    if (r.said.number != MANDROZSI_DONE)
        stop("read", r.said.number);
    drives[0] = drives[1] = r.drive;
    start = 2;
    for (; waiting > 0; waiting--, lost++)
        streams[orders[waiting - 1].name].asked = false;
}

/* ---- The check: what was promised, from the log and the book ---- */

/* What it has seen of a drive: how many slots, and of each stream the number of its last one (0: none) and the serves of this round. */
static struct {
    uint32_t slots, last[NAMES];
    uint16_t serves[NAMES];
} seen[DRIVES];

/* And of each stream on both: its blocks and its weight; its longest wait on one board, with the spacing that it is held to; its longest wait of
 * all, since a spacing is of one board and says nothing of a wait from before a change to after it; and that of a plain weighted turn on the same
 * streams. */
static struct found {
    uint32_t blocks, weight, wait, spacing, longest, turned;
} found[NAMES];

static uint32_t larger(uint32_t a, uint32_t b)
{
    return a > b ? a : b;
}

/* What is wrong, with the line of the log at which it is seen. */
static bool complain(const struct line *e, const char *form, ...)
{
    va_list values;
    printf("start %u, drive %u, round %" PRIu64 ": ", e->start, e->drive + 1u, e->round);
    va_start(values, form);
    vprintf(form, values);
    va_end(values);
    printf("\n");
    return false;
}

/* Every slot of every round is there once, in its order; no block is without one. */
static bool check_slot(const struct line *e)
{
    if (e->drive >= DRIVES || e->stream >= NAMES)
        return complain(e, "there is no such drive or stream");
    if (e->slot == NO_SLOT)
        return complain(e, "block %u of stream %u has no slot", e->block, e->stream);
    uint32_t lap = seen[e->drive].slots / C, due = seen[e->drive].slots % C;
    bool round_due = lap < ALONE ? e->start == 1 && e->round == lap : e->start == 2 && e->round == lap - ALONE;
    if (round_due && e->slot < due)
        return complain(e, "slot %u is served twice", e->slot);
    if (!round_due || e->slot != due || lap == LAPS)
        return complain(e, "slot %u is logged where slot %u is due", e->slot, due);
    return true;
}

/* A wait on one board is at most the spacing that report gave for it. */
static bool check_wait(const struct line *e)
{
    uint32_t now = seen[e->drive].slots + 1, last = seen[e->drive].last[e->stream], lap = (now - 1) / C, wait = now - last;
    seen[e->drive].last[e->stream] = now;
    if (last == 0)
        return true;
    struct found *f = &found[e->stream];
    f->longest = larger(f->longest, wait);
    if ((last - 1) / C != lap && changed[lap])
        return true;
    uint32_t spacing = spacings[lap][e->stream];
    if (wait > spacing)
        return complain(e, "stream %u waits %u slots, and its spacing is %u", e->stream, wait, spacing);
    if (wait > f->wait) {
        f->wait = wait;
        f->spacing = spacing;
    }
    return true;
}

/* Only a stream that is held is served, and its blocks come one by one. */
static bool check_stream(const struct line *e)
{
    uint32_t lap = seen[e->drive].slots / C, next = found[e->stream].blocks + 1;
    if (e->stream == 0)
        return e->block == 0 || complain(e, "block %u has no stream", e->block);
    if (weights[lap][e->stream] == 0)
        return complain(e, "stream %u is served and not held", e->stream);
    if (e->block != (next <= streams[e->stream].length ? next : 0))
        return complain(e, "stream %u reads block %u where %u is due", e->stream, e->block, next);
    found[e->stream].weight = weights[lap][e->stream];
    found[e->stream].blocks += e->block != 0;
    seen[e->drive].serves[e->stream]++;
    return check_wait(e);
}

/* At the end of a round every stream that was held at its first slot has been served as often as it weighs. */
static bool check_round(const struct line *e)
{
    uint32_t lap = seen[e->drive].slots / C - 1;
    uint16_t *serves = seen[e->drive].serves;
    for (unsigned name = 1; name < NAMES; name++)
        if (serves[name] != weights[lap][name])
            return complain(e, "stream %u is served %u times, and its weight is %u", name, serves[name], weights[lap][name]);
    memset(serves, 0, sizeof seen[e->drive].serves);
    return true;
}

/* The whole log; that it is whole; and that it has every block that a stream says it read. */
static bool check(void)
{
    memset(seen, 0, sizeof seen);
    memset(found, 0, sizeof found);
    seen[1].slots = ALONE * C;
    for (size_t i = 0; i < logged; i++) {
        const struct line *e = &lines[i];
        if (!check_slot(e) || !check_stream(e))
            return false;
        if (++seen[e->drive].slots % C == 0 && !check_round(e))
            return false;
    }
    const struct line *end = &lines[logged - 1];
    for (unsigned drive = 0; drive < DRIVES; drive++)
        if (seen[drive].slots != LAPS * C)
            return complain(end, "the log of drive %u ends before slot %u", drive + 1, seen[drive].slots % C);
    for (unsigned name = 1; name < names; name++)
        if (streams[name].read != found[name].blocks)
            return complain(end, "stream %u says it read %u blocks, and the log has %u", name, streams[name].read, found[name].blocks);
    return true;
}

/* ---- What the check says of a log that is false ---- */

static const char *const forgeries[] = {
    "a block from a cache", "two streams in one slot", "a missed serve", "a late serve", "a stream that is not held", "a block left out",
    "a block without a line", "a slot left out", "a block of no stream", "a drive that is not there", "a log cut short",
};

/* A line from some line on in which a stream of weight 1 reads, while one drive runs, in a round at whose start the board did not change. */
static struct line *light_line(size_t from)
{
    for (size_t i = from; i < ALONE * C; i++)
        if (i >= C && !changed[i / C] && weights[i / C][lines[i].stream] == 1 && lines[i].block != 0)
            return &lines[i];
    stop("no line to forge", from);
    return NULL;
}

/* Damages the log, or what a stream says, in one of these ways; two lines of one round are given. */
static void damage(unsigned way, struct line *a, struct line *b)
{
    struct line first = *a;
    switch (way) {
    case 0: a->slot = NO_SLOT; return;
    case 1: b->slot = a->slot; return;
    case 2: a->stream = 0, a->block = 0; return;
    case 3: a->stream = b->stream, a->block = b->block, b->stream = first.stream, b->block = first.block; return;
    case 4: a->stream = (uint16_t)(names - 1); return;
    case 5: a->block++; return;
    case 6: streams[a->stream].read++; return;
    case 7: a->slot++; return;
    case 8: a->stream = 0; return;
    case 9: a->drive = DRIVES; return;
    case 10: logged--; return;
    }
}

/* Tries every way, and repairs the log after each: how many the check did not find. */
static int forge(void)
{
    int missed = 0;
    struct line *a = light_line(0), *b = light_line((size_t)(a - lines) + 1), first = *a, second = *b;
    uint32_t read = streams[first.stream].read;
    for (unsigned way = 0; way < sizeof forgeries / sizeof *forgeries; way++) {
        printf("%s: ", forgeries[way]);
        damage(way, a, b);
        if (check()) {
            printf("NOT FOUND\n");
            missed++;
        }
        *a = first;
        *b = second;
        streams[first.stream].read = read;
        logged = SLOTS;
    }
    return missed;
}

/* ---- What is handed over: certificates, the account, the picture ---- */

/* Which copy did you verify? The slot of each block that a stream read. */
static void certify(FILE *out, unsigned name)
{
    fprintf(out, "Certificate of stream %u: %u of its %u blocks were read\n", name, found[name].blocks, streams[name].length);
    fprintf(out, "block  start  drive  round  slot\n");
    for (size_t i = 0; i < logged; i++) {
        const struct line *e = &lines[i];
        if (e->stream == name && e->block != 0)
            fprintf(out, "%5u  %5u  %5u  %5" PRIu64 "  %4u\n", e->block, e->start, e->drive + 1u, e->round, e->slot);
    }
    fprintf(out, "\n");
}

static void certify_all(FILE *out)
{
    for (unsigned name = 1; name < names; name++)
        certify(out, name);
}

/* The waits of a plain weighted turn on the same streams: each takes its whole weight, one slot after another, and then the next does. */
static void turn(void)
{
    static uint32_t last[NAMES];
    for (uint32_t lap = 0; lap < LAPS; lap++) {
        uint32_t now = lap * C + 1;
        for (unsigned name = 1; name < names; name++) {
            uint32_t weight = weights[lap][name];
            if (weight == 0)
                continue;
            found[name].turned = larger(found[name].turned, last[name] != 0 ? now - last[name] : weight > 1);
            last[name] = now + weight - 1;
            now += weight;
        }
    }
}

/* The largest of each kind of wait, of several streams. */
static void enlarge(struct found *most, const struct found *f)
{
    if (f->wait > most->wait) {
        most->wait = f->wait;
        most->spacing = f->spacing;
    }
    most->longest = larger(most->longest, f->longest);
    most->turned = larger(most->turned, f->turned);
}

static void account_waits(const char *whose, unsigned from, unsigned to)
{
    struct found m = {0};
    for (unsigned name = from; name < to; name++)
        enlarge(&m, &found[name]);
    printf("longest wait of a %s, in slots: %u on one board, spacing %u; %u across a change; by plain weighted turn %u\n", whose, m.wait, m.spacing,
           m.longest, m.turned);
}

static void account_refusals(void)
{
    static const char *const words[] = {"DONE", "CAPACITY", "SHORT", "POSITION", "MIDROUND", "DAMAGED", "NAME", "WEIGHT", "TAKEN", "ABSENT",
                                        "ROOM", "OUTPUT", "BLOCK", "WAITING", "QUEUE", "TICKET", "POWER", "KIND", "GROUP"};
    printf("refusals:");
    for (unsigned number = 1; number <= MANDROZSI_GROUP; number++)
        if (answers[number] != 0)
            printf(" %u %s %" PRIu64 ";", number, words[number], answers[number]);
    printf(" changes done: %" PRIu64 "\n", answers[MANDROZSI_DONE]);
}

static void account(void)
{
    unsigned held = 0, whole = 0, blocks = 0;
    for (unsigned name = 1; name < names; name++) {
        held += name > CHECKING && found[name].blocks > 0;
        whole += found[name].blocks == streams[name].length;
        blocks += found[name].blocks;
    }
    printf("streams: %u checking, in one batch; %u restores came, and %u of them read\n", CHECKING, names - 1 - CHECKING, held);
    printf("rounds: %u of one drive; a restart from a sheet of %zu bytes; %u of each of two drives; C = %u\n", ALONE, sheet_bytes, LAPS - ALONE, C);
    printf("slots: %zu; blocks read: %u\n", logged, blocks);
    printf("orders that waited: %u; fetched by ticket: %u; lost at the restart and asked for again: %u; waiting still: %u\n", waited, fetched, lost,
           waiting);
    account_refusals();
    account_waits("checking stream", 1, CHECKING + 1);
    account_waits("restore", CHECKING + 1, names);
    printf("certificates: %u, of which %u have every block of their copy\n", names - 1, whole);
    printf("checked from the log: in each round every stream is served its weight; while the board stands it waits at most its spacing;");
    printf(" each block has its slot\n");
}

/* Where a weight and a wait stand in the picture, and the largest weight in it. */
enum { WIDEST = 50 };

static unsigned right(unsigned weight)
{
    return 80 + 15 * weight;
}

static unsigned high(unsigned wait)
{
    return 480 - wait / 2;
}

static void text(FILE *out, unsigned x, unsigned y, const char *rest, const char *words)
{
    fprintf(out, "<text x='%u' y='%u' fill='#222'%s>%s</text>\n", x, y, rest, words);
}

static void line(FILE *out, unsigned x, unsigned y, unsigned to_x, unsigned to_y, const char *rest)
{
    fprintf(out, "<line x1='%u' y1='%u' x2='%u' y2='%u' %s/>\n", x, y, to_x, to_y, rest);
}

static void draw_axes(FILE *out)
{
    char number[12];
    line(out, right(0), high(0), right(WIDEST), high(0), "stroke='#222'");
    line(out, right(0), high(0), right(0), high(2 * C), "stroke='#222'");
    for (unsigned weight = 0; weight <= WIDEST; weight += 10) {
        snprintf(number, sizeof number, "%u", weight);
        line(out, right(weight), high(0), right(weight), high(0) + 6, "stroke='#222'");
        text(out, right(weight), high(0) + 20, " text-anchor='middle'", number);
    }
    for (unsigned wait = 0; wait <= 2 * C; wait += 100) {
        snprintf(number, sizeof number, "%u", wait);
        line(out, right(0) - 6, high(wait), right(0), high(wait), "stroke='#222'");
        text(out, right(0) - 10, high(wait) + 4, " text-anchor='end'", number);
    }
    text(out, 455, 528, " text-anchor='middle'", "weight of the stream, in slots a round (linear)");
    text(out, 24, 280, " text-anchor='middle' transform='rotate(-90 24 280)'", "longest wait, in slots (linear)");
    fprintf(out, "<polyline fill='none' stroke='#777' stroke-dasharray='5 4' points='");
    for (unsigned weight = 1; weight <= WIDEST; weight++)
        fprintf(out, "%u,%u ", right(weight), high(C / weight));
    fprintf(out, "'/>\n");
}

/* The marks: a disc on one board, a ring across a change, a square by plain weighted turn. */
static void disc(FILE *out, unsigned x, unsigned y, const char *fill)
{
    fprintf(out, "<circle cx='%u' cy='%u' r='3' fill='%s' stroke='#1b3a57'/>\n", x, y, fill);
}

static void square(FILE *out, unsigned x, unsigned y)
{
    fprintf(out, "<rect x='%u' y='%u' width='10' height='10' fill='#f5cba7' stroke='#7e3b00'/>\n", x - 5, y - 5);
}

static void draw_legend(FILE *out)
{
    disc(out, 404, 100, "#1b3a57");
    text(out, 428, 104, "", "slot board, from serve to serve on one board");
    disc(out, 404, 124, "#fff");
    text(out, 428, 128, "", "slot board, from before a change of the board to after it");
    square(out, 404, 148);
    text(out, 428, 152, "", "plain weighted turn on the same streams");
    line(out, 390, 172, 418, 172, "stroke='#777' stroke-dasharray='5 4'");
    text(out, 428, 176, "", "C / weight");
}

/* For each weight the longest waits of its streams. */
static void draw_waits(FILE *out)
{
    static struct found of[WIDEST + 1];
    for (unsigned name = 1; name < names; name++)
        if (found[name].weight <= WIDEST)
            enlarge(&of[found[name].weight], &found[name]);
    fprintf(out, "<svg xmlns='http://www.w3.org/2000/svg' viewBox='0 0 860 550' width='860' height='550'");
    fprintf(out, " font-family='sans-serif' font-size='13'>\n<rect width='860' height='550' fill='#fff'/>\n");
    text(out, 24, 36, " font-size='18'", "The longest waits by weight: a morning of 300 rounds, 400 slots in each");
    draw_axes(out);
    for (unsigned weight = 1; weight <= WIDEST; weight++) {
        if (of[weight].turned > 0)
            square(out, right(weight), high(of[weight].turned));
        if (of[weight].longest > of[weight].wait)
            disc(out, right(weight), high(of[weight].longest), "#fff");
        if (of[weight].wait > 0)
            disc(out, right(weight), high(of[weight].wait), "#1b3a57");
    }
    draw_legend(out);
    fprintf(out, "</svg>\n");
}

/* Writes a file: whether every byte of it went out. */
static bool write_file(const char *path, void (*content)(FILE *))
{
    FILE *out = fopen(path, "w");
    if (out == NULL)
        return false;
    content(out);
    bool written = ferror(out) == 0;
    return fclose(out) == 0 && written;
}

int main(int words, char **word)
{
    mandrozsi_reply r = mandrozsi_open(C, board, C, list, MANDROZSI_LIST);
    if (r.said.number != MANDROZSI_DONE)
        stop("open", r.said.number);
    drives[0] = drives[1] = r.drive;
    load();
    for (unsigned lap = 0; lap < LAPS; lap++) {
        if (lap == ALONE)
            restart();
        run(lap);
    }
    if (!check())
        return 1;
    turn();
    account();
    int forging = words > 1 && strcmp(word[1], "forge") == 0;
    if (words - forging == 3 && !(write_file(word[1 + forging], draw_waits) && write_file(word[2 + forging], certify_all))) {
        fprintf(stderr, "morning: a file cannot be written\n");
        return 1;
    }
    if (forging && forge() != 0)
        return 1;
    return fflush(stdout) != 0;
}
