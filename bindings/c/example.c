/* Opens a board, admits two streams, serves a round slot by slot while a change waits, and again by the tree walk, fetches the answer, saves the
 * board and reads it back. It prints what it does, and ends with status 1 at the first answer that is not the one expected. */
#include <inttypes.h>
#include <stdio.h>
#include <string.h>

#include "mandrozsi.h"

static int wrong(const char *what, mandrozsi_reply got)
{
    const mandrozsi_said *s = &got.said;
    printf("%s: answered %" PRIu64 ", values %" PRIu64 " %" PRIu64 " %" PRIu64 " %" PRIu64 "\n", what, s->number, s->first, s->second, s->third,
           s->fourth);
    return 1;
}

int main(void)
{
    uint16_t board[8], again[8], names[8];
    uint64_t list[MANDROZSI_LIST] = {0}, other_list[MANDROZSI_LIST] = {0};
    uint8_t sheet[MANDROZSI_SHEET_BYTES(8)];
    static const uint16_t expected[8] = {7, 7, 7, 2, 7, 2, 7, 2};

    mandrozsi_reply r = mandrozsi_open(8, board, 8, list, MANDROZSI_LIST);
    if (r.said.number != MANDROZSI_DONE || r.drive.capacity != 8 || r.drive.position != 1 || r.drive.round != 0)
        return wrong("open", r);
    mandrozsi_drive drive = r.drive;

    r = mandrozsi_add(drive, board, 8, list, MANDROZSI_LIST, 7, 5);
    if (r.said.number != MANDROZSI_DONE || r.said.first != 3)
        return wrong("add 7", r);
    r = mandrozsi_add(drive, board, 8, list, MANDROZSI_LIST, 2, 4);
    if (r.said.number != MANDROZSI_ROOM || r.said.first != 3)
        return wrong("add 2 with too large a weight", r);
    r = mandrozsi_add(drive, board, 8, list, MANDROZSI_LIST, 2, (uint16_t)r.said.first);
    if (r.said.number != MANDROZSI_DONE || r.said.first != 0)
        return wrong("add 2", r);

    r = mandrozsi_report(drive, board, 8, 7);
    if (r.said.number != MANDROZSI_DONE || r.said.first != 5 || r.said.second != 2 || r.said.third != 2)
        return wrong("report", r);

    printf("round:");
    uint64_t ticket = 0;
    for (size_t i = 0; i < 8; i++) {
        r = mandrozsi_slot(drive, board, 8, list, MANDROZSI_LIST);
        if (r.said.number != MANDROZSI_DONE || r.said.first != expected[i] || r.said.fourth != 0)
            return wrong("slot", r);
        drive = r.drive;
        printf(" %" PRIu64, r.said.first);
        if (i == 2) {
            r = mandrozsi_remove(drive, board, 8, list, MANDROZSI_LIST, 2);
            if (r.said.number != MANDROZSI_WAITING || r.said.first != 1)
                return wrong("remove in the middle of a round", r);
            ticket = r.said.first;
        }
    }
    printf("\n");
    if (drive.position != 1 || drive.round != 1)
        return wrong("the round's end", r);

    r = mandrozsi_round(drive, board, 8, names, 8);
    if (r.said.number != MANDROZSI_DONE || memcmp(names, expected, sizeof names) != 0)
        return wrong("round", r);

    uint16_t marks[7] = {0};
    mandrozsi_said said;
    for (size_t i = 0; i < 16; i++) {
        said = mandrozsi_walk(8, board, 8, marks, 7);
        if (said.number != MANDROZSI_DONE || said.first != expected[i % 8])
            return wrong("walk", (mandrozsi_reply){drive, said});
    }
    for (size_t i = 0; i < 7; i++)
        if (marks[i] != 0)
            return wrong("a mark after two rounds of walks", (mandrozsi_reply){drive, said});
    said = mandrozsi_walk(7, board, 8, marks, 7);
    if (said.number != MANDROZSI_POWER)
        return wrong("walk of a capacity that is no power of two", (mandrozsi_reply){drive, said});
    printf("two rounds by the tree walk: the same\n");

    said = mandrozsi_fetch(list, MANDROZSI_LIST, ticket);
    if (said.number != MANDROZSI_WAITING || said.first != ticket)
        return wrong("fetch before the round starts", (mandrozsi_reply){drive, said});
    r = mandrozsi_slot(drive, board, 8, list, MANDROZSI_LIST);
    if (r.said.number != MANDROZSI_DONE || r.said.first != 7 || r.said.fourth != 1)
        return wrong("the slot that carries the order out", r);
    said = mandrozsi_fetch(list, MANDROZSI_LIST, ticket);
    if (said.number != MANDROZSI_DONE || said.first != 3)
        return wrong("fetch", (mandrozsi_reply){drive, said});
    said = mandrozsi_fetch(list, MANDROZSI_LIST, ticket);
    if (said.number != MANDROZSI_TICKET)
        return wrong("fetch a second time", (mandrozsi_reply){drive, said});
    printf("stream 2 removed at the start of round 1: 3 leaves idle\n");

    r = mandrozsi_save(r.drive, board, 8, sheet, sizeof sheet);
    if (r.said.number != MANDROZSI_MIDROUND)
        return wrong("save in the middle of a round", r);
    r = mandrozsi_save(drive, board, 8, sheet, sizeof sheet);
    if (r.said.number != MANDROZSI_DONE || r.said.first != sizeof sheet)
        return wrong("save", r);
    r = mandrozsi_read(sheet, sizeof sheet, again, 8, other_list, MANDROZSI_LIST);
    if (r.said.number != MANDROZSI_DONE || r.drive.capacity != 8 || memcmp(board, again, sizeof board) != 0)
        return wrong("read", r);
    sheet[4] ^= 1;
    r = mandrozsi_read(sheet, sizeof sheet, again, 8, other_list, MANDROZSI_LIST);
    if (r.said.number != MANDROZSI_BLOCK || r.drive.capacity != 0)
        return wrong("read of a damaged sheet", r);

    /* The same slots on the record where it lies: from the start of round 1 to its end. */
    for (size_t i = 0; i < 8; i++) {
        said = mandrozsi_slot_here(&drive, board, 8, list, MANDROZSI_LIST);
        if (said.number != MANDROZSI_DONE || said.first != (expected[i] == 2 ? 0 : expected[i]) || said.fourth != 1)
            return wrong("slot where the record lies", (mandrozsi_reply){drive, said});
    }
    drive.position = 16;
    said = mandrozsi_slot_here(&drive, board, 8, list, MANDROZSI_LIST);
    if (said.number != MANDROZSI_POSITION || drive.position != 16 || drive.round != 2)
        return wrong("slot at a position out of range", (mandrozsi_reply){drive, said});
    drive.position = 1;

    /* A table of changes in one call: one that is done, one without room, one of no kind. */
    mandrozsi_entry table[3] = {{1, 3, 2, 0, 0}, {1, 4, 9, 0, 0}, {9, 5, 1, 0, 0}};
    drive = mandrozsi_batch(drive, board, 8, list, MANDROZSI_LIST, table, 3);
    if (table[0].number != MANDROZSI_DONE || table[0].value != 1 || table[1].number != MANDROZSI_ROOM || table[1].value != 1 ||
        table[2].number != MANDROZSI_WEIGHT || table[2].value != 0 || drive.position != 1)
        return wrong("a table of changes", (mandrozsi_reply){drive, {table[0].number, table[0].value, table[1].number, table[1].value, 0}});
    r = mandrozsi_remove(drive, board, 8, list, MANDROZSI_LIST, 3);
    if (r.said.number != MANDROZSI_DONE || r.said.first != 3)
        return wrong("remove 3", r);

    r = mandrozsi_remove(drive, board, 8, list, MANDROZSI_LIST, 7);
    if (r.said.number != MANDROZSI_DONE || r.said.first != 8)
        return wrong("remove", r);
    printf("saved, read back, removed: ok\n");
    return 0;
}
