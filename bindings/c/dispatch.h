/* A call of the library by its number, with what it is lent: for serve.c, limits.c and stack.c. A new call gets a number here, and a line in the
 * tables of the other two. */
#ifndef MANDROZSI_DISPATCH_H
#define MANDROZSI_DISPATCH_H

#include <stdio.h>
#include <stdlib.h>

#include "mandrozsi.h"

/* The function of a call; stack.c puts something between. */
#ifndef CALL
#define CALL(name) mandrozsi_##name
#endif

/* What the compiler tests, in C99 too: an array of -1 elements is none. */
#define HOLDS(name, condition) typedef char name[(condition) ? 1 : -1]

enum { OPEN, ADD, REMOVE, SLOT, ROUND, REPORT, SAVE, READ, FETCH };
enum { PAIR_ADD = 9, PAIR_REMOVE, PAIR_SLOT, PAIR_ROUND, PAIR_REPORT, PAIR_SAVE, PAIR_BATCH, PAIR_SLOT_HERE };
enum { WALK = 17, FRESH, PAIR_FRESH };
enum { SAVE_PIECES = 20, READ_PIECES, TO_PIECES, TO_LEAVES, PAIR_SAVE_PIECES, IMPORT };
enum { SHARE_OPEN = 26, SHARE_READ, SHARE_ADD, SHARE_OVER, SHARE_REMOVE, SHARE_SLOT, SHARE_ROUND, SHARE_REPORT, SHARE_SAVE, SHARE_FRESH };
enum { SHARE_BATCH = 36, SHARE_SLOT_HERE, SHARE_IMPORT, SHARE_SAVE_PIECES, SHARE_READ_PIECES };

/* The slices that a call can be lent: OTHER is the output, sheet, marks or table of changes; then come the tables, and what is only read beside an
 * output: a sheet, or the starts and names of a group table. */
enum { BOARD, LIST, OTHER, RATES, OWED, OWED_OTHER, GIVEN, NAMES, SLICES };

/* What is called, with what; the record, or the ticket in place of its round, and that of the other drive; and the bytes of each slice, 0 where the
 * call has none. */
struct call {
    uint16_t number, name, weight, capacity, position, other_capacity, other_position, unused;
    uint64_t round, other_round, bytes[SLICES];
};
/* Eight 16-bit numbers, and then numbers of 64 bits. */
HOLDS(call_layout, sizeof(struct call) == 32 + 8 * SLICES);

/* Says why a program ends; the status that it ends with. */
static int failed(const char *why)
{
    fprintf(stderr, "%s\n", why);
    return 1;
}

/* The calls with tables. */
static mandrozsi_reply share(const struct call *c, uint8_t *lent[SLICES])
{
    uint16_t *board = (uint16_t *)(void *)lent[BOARD], *rates = (uint16_t *)(void *)lent[RATES], *owed = (uint16_t *)(void *)lent[OWED];
    uint16_t *owed_other = (uint16_t *)(void *)lent[OWED_OTHER], *names = (uint16_t *)(void *)lent[OTHER];
    uint16_t *starts = (uint16_t *)(void *)lent[GIVEN], *streams = (uint16_t *)(void *)lent[NAMES];
    uint64_t *list = (uint64_t *)(void *)lent[LIST];
    uint8_t *other = lent[OTHER];
    mandrozsi_entry *table = (mandrozsi_entry *)(void *)other;
    size_t entries = c->bytes[BOARD] / 2, rated = c->bytes[RATES] / 2, owing = c->bytes[OWED] / 2, other_owing = c->bytes[OWED_OTHER] / 2;
    size_t numbers = c->bytes[LIST] / sizeof *list, length = c->bytes[OTHER];
    mandrozsi_drive own = {c->capacity, c->position, c->round}, partner = {c->other_capacity, c->other_position, c->other_round};
    mandrozsi_said said;
    switch (c->number) {
    case SHARE_OPEN: return CALL(share_open)(c->capacity, board, entries, list, numbers, rates, rated, owed, owing, owed_other, other_owing);
    case SHARE_READ: return CALL(share_read)(other, length, board, entries, list, numbers, rates, rated, owed, owing, owed_other, other_owing);
    case SHARE_ADD:
        return CALL(share_add)(own, partner, board, entries, list, numbers, rates, rated, owed, owing, owed_other, other_owing, c->name, c->weight);
    case SHARE_OVER:
        return CALL(share_over)(own, partner, board, entries, list, numbers, rates, rated, owed, owing, owed_other, other_owing, c->name, c->weight);
    case SHARE_REMOVE:
        return CALL(share_remove)(own, partner, board, entries, list, numbers, rates, rated, owed, owing, owed_other, other_owing, c->name);
    case SHARE_SLOT: return CALL(share_slot)(own, partner, board, entries, list, numbers, rates, rated, owed, owing, owed_other, other_owing);
    case SHARE_ROUND:
        return CALL(share_round)(own, partner, board, entries, rates, rated, owed, owing, owed_other, other_owing, names, length / 2);
    case SHARE_REPORT: return CALL(share_report)(own, partner, board, entries, rates, rated, owed, owing, owed_other, other_owing, c->name);
    case SHARE_SAVE: return CALL(share_save)(own, partner, board, entries, rates, rated, owed, owing, owed_other, other_owing, other, length);
    case SHARE_SAVE_PIECES:
        return CALL(share_save_pieces)(own, partner, board, entries, rates, rated, owed, owing, owed_other, other_owing, other, length);
    case SHARE_READ_PIECES:
        return CALL(share_read_pieces)(other, length, board, entries, list, numbers, rates, rated, owed, owing, owed_other, other_owing);
    case SHARE_FRESH: return CALL(share_fresh)(own, partner, board, entries, rates, rated, owed, owing, owed_other, other_owing);
    case SHARE_BATCH:
        own = CALL(share_batch)(own, partner, board, entries, list, numbers, rates, rated, owed, owing, owed_other, other_owing, table,
                                length / sizeof *table);
        return (mandrozsi_reply){own, {0}};
    case SHARE_IMPORT:
        return CALL(share_import)(c->capacity, starts, c->bytes[GIVEN] / 2, streams, c->bytes[NAMES] / 2, board, entries, list, numbers, rates,
                                  rated, owed, owing, owed_other, other_owing, names, length / 2);
    case SHARE_SLOT_HERE:
        said = CALL(share_slot_here)(&own, partner, board, entries, list, numbers, rates, rated, owed, owing, owed_other, other_owing);
        return (mandrozsi_reply){own, said};
    }
    exit(failed("there is no such call"));
}

static mandrozsi_reply make(const struct call *c, uint8_t *lent[SLICES])
{
    uint16_t *board = (uint16_t *)(void *)lent[BOARD];
    uint64_t *list = (uint64_t *)(void *)lent[LIST];
    uint8_t *other = lent[OTHER];
    size_t entries = c->bytes[BOARD] / sizeof *board, numbers = c->bytes[LIST] / sizeof *list, length = c->bytes[OTHER];
    mandrozsi_drive drive = {c->capacity, c->position, c->round}, partner = {c->other_capacity, c->other_position, c->other_round};
    uint16_t *names = (uint16_t *)(void *)other;
    mandrozsi_entry *table = (mandrozsi_entry *)(void *)other;
    uint8_t *given = lent[GIVEN];
    uint16_t *starts = (uint16_t *)(void *)given, *streams = (uint16_t *)(void *)lent[NAMES];
    mandrozsi_said said;
    switch (c->number) {
    case OPEN: return CALL(open)(c->capacity, board, entries, list, numbers);
    case ADD: return CALL(add)(drive, board, entries, list, numbers, c->name, c->weight);
    case REMOVE: return CALL(remove)(drive, board, entries, list, numbers, c->name);
    case SLOT: return CALL(slot)(drive, board, entries, list, numbers);
    case ROUND: return CALL(round)(drive, board, entries, names, length / sizeof *names);
    case REPORT: return CALL(report)(drive, board, entries, c->name);
    case SAVE: return CALL(save)(drive, board, entries, other, length);
    case READ: return CALL(read)(other, length, board, entries, list, numbers);
    case FETCH: return (mandrozsi_reply){{0, 0, 0}, CALL(fetch)(list, numbers, c->round)};
    case PAIR_ADD: return CALL(pair_add)(drive, partner, board, entries, list, numbers, c->name, c->weight);
    case PAIR_REMOVE: return CALL(pair_remove)(drive, partner, board, entries, list, numbers, c->name);
    case PAIR_SLOT: return CALL(pair_slot)(drive, partner, board, entries, list, numbers);
    case PAIR_ROUND: return CALL(pair_round)(drive, partner, board, entries, names, length / sizeof *names);
    case PAIR_REPORT: return CALL(pair_report)(drive, partner, board, entries, c->name);
    case PAIR_SAVE: return CALL(pair_save)(drive, partner, board, entries, other, length);
    case PAIR_BATCH:
        return (mandrozsi_reply){CALL(pair_batch)(drive, partner, board, entries, list, numbers, table, length / sizeof *table), {0}};
    case PAIR_SLOT_HERE:
        said = CALL(pair_slot_here)(&drive, partner, board, entries, list, numbers);
        return (mandrozsi_reply){drive, said};
    case WALK: return (mandrozsi_reply){{0, 0, 0}, CALL(walk)(c->capacity, board, entries, names, length / sizeof *names)};
    case FRESH: return CALL(fresh)(drive, board, entries);
    case PAIR_FRESH: return CALL(pair_fresh)(drive, partner, board, entries);
    case SAVE_PIECES: return CALL(save_pieces)(drive, board, entries, other, length);
    case READ_PIECES: return CALL(read_pieces)(other, length, board, entries, list, numbers);
    case TO_PIECES: return (mandrozsi_reply){{0, 0, 0}, CALL(to_pieces)(given, c->bytes[GIVEN], other, length)};
    case TO_LEAVES: return (mandrozsi_reply){{0, 0, 0}, CALL(to_leaves)(given, c->bytes[GIVEN], other, length)};
    case PAIR_SAVE_PIECES: return CALL(pair_save_pieces)(drive, partner, board, entries, other, length);
    case IMPORT:
        return CALL(import)(c->capacity, starts, c->bytes[GIVEN] / sizeof *starts, streams, c->bytes[NAMES] / sizeof *streams, board, entries, list,
                            numbers, names, length / sizeof *names);
    }
    return share(c, lent);
}

#endif
