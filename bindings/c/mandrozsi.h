/* The slot board of one tape drive, or of two that share it: the functions of a static library for x86-64, by the C calling convention of Linux.
 * It is target/staticlib/libexports.a where it is built, and libmandrozsi.a where it is installed (pkg-config: mandrozsi).
 *
 * Words. A drive reads one block in each slot, and C slots are a round: C is the capacity. A board has C leaves, and each leaf gets one slot of
 * every round. A leaf holds 0 (idle) or a stream's name, 1 to 65,535. A stream's weight is the number of leaves that hold its name, and so of
 * its slots in a round. A piece is 2^l leaves, the first at a multiple of 2^l, that hold one name or are all idle and lie in no larger such run;
 * the pieces cover every leaf once. A board is good if no two pieces of one name, or two idle ones, have equal size: a stream of weight w then
 * has as many pieces as w has ones in binary. These calls leave every good board good.
 *
 * What is lent. The caller keeps everything and lends it: a board is an array of 16-bit numbers, of which the first C are the leaves. Entries
 * beyond C are never changed, and no answer hangs on them. The same holds of tables beyond C, of marks beyond C - 1, of a list beyond
 * MANDROZSI_LIST, and of an output beyond what is written there. Let only these calls write the board, the list, the tables and the record, and
 * give each call what the last one left: keep the record that slot returns.
 *
 * Changes that wait. An add or a remove is made at once where a round starts (p = 1) and no order waits. At any other position, and behind
 * orders that wait, it goes on the waiting list: an array of MANDROZSI_LIST 64-bit numbers or more that the caller keeps beside the board and
 * lends. The slot call at p = 1 carries out the orders that wait, in the order of their arrival, before it picks its leaf, and leaves each
 * answer to be fetched once by its ticket. The list holds 64 places, each taken by an order that waits or by an answer that was not fetched. As
 * many zeros are an empty list; open, read, read_pieces and import empty it, answers too, and tickets count on. They count up from 1, and none
 * is given twice.
 *
 * Answers. Whatever stands in what is lent, and whatever the numbers and lengths are, every function answers with a number: 0 for done. The
 * lowest number that applies is the answer, but where a function's text below gives another order. A refusal gives its number, zeros for values
 * (but 10 the idle leaves there are) and the record it was given (open, read, read_pieces and import, which are given none: a record of zeros),
 * and changes no lent entry. 13 is no refusal: the order waits, and of all that is lent the list alone has changed (and its entry in a table of
 * changes).
 *
 * What only the caller can get right, since no function can see it:
 * - A length counts elements, and there are as many behind its pointer. A null pointer goes with length 0, and is then an empty slice as any
 *   other pointer is; the record of a slot_here call is never null. A pointer is aligned for its elements, as an array of them is.
 * - What a call may write (a pointer that is not const) overlaps nothing else that the same call is lent, the record of slot_here included.
 *   Arrays that are only read may overlap each other.
 * - While a call runs nobody else writes what it is lent, or reads what it may write. The functions keep no pointer, allocate nothing and have
 *   no state, so calls on different boards may run in any threads at once; those on one board, of two drives too, go one after another. Nothing
 *   is locked.
 * - There is stack enough. Measured, in bytes from the return address down, so without the caller's own for arguments and reply (C = 4,095 with
 *   200 streams; docs/MEASURED.md says how):
 *     walk, fetch; open; round; import                32, 48; 56; 113; 2,256
 *     slot away from p = 1; at p = 1; with 64 orders        168; 200; 34,840
 *     slot_here, the same three                             360; 392; 35,032
 *     report, save, read                              25,448, 25,512, 33,528
 *     add, remove, batch                              26,736, 26,176, 26,848
 *     to_pieces, save_pieces                                  41,752, 49,480
 *     fresh, read_pieces, to_leaves                   59,408, 58,744, 67,032
 *     pair_slot, the same three                             296; 328; 34,968
 *     any other call for two drives                          32 more at most
 *     with tables: open, import                                   104, 2,304
 *     slot; with 64 adds; with 64 removes             25,768; 25,768; 39,592
 *     slot_here, the same three                       25,832; 25,832; 39,656
 *     save, add, over                                 25,544, 25,752, 25,752
 *     read, round, report                             33,560, 33,608, 41,800
 *     remove, batch, fresh                            39,576, 39,656, 43,088
 *     read_pieces, save_pieces                                58,792, 49,992
 *
 * Of a C library the archive needs memcpy and memset, and nothing else. */
#ifndef MANDROZSI_H
#define MANDROZSI_H

#include <stddef.h>
#include <stdint.h>

#ifdef __cplusplus
extern "C" {
#endif

/* The version of this header, and of the library that it goes with. */
#define MANDROZSI_VERSION "0.1.0"
#define MANDROZSI_VERSION_MAJOR 0
#define MANDROZSI_VERSION_MINOR 1
#define MANDROZSI_VERSION_PATCH 0

/* The largest capacity; the bytes of a sheet's block, and the leaves or the pieces in it. */
#define MANDROZSI_LARGEST 4095
#define MANDROZSI_BLOCK_BYTES 512
#define MANDROZSI_LEAVES_PER_BLOCK 253
#define MANDROZSI_PIECES_PER_BLOCK 84

/* The bytes of a sheet, which are whole blocks, and the most there are of each form. Save, and to_leaves, write one of leaves, whose bytes
 * follow from C. save_pieces, and to_pieces, write one that lists the pieces that are not idle, one block at least: a board has at most C of
 * them, and a stream as many as report says, so that the bytes for C pieces are always enough. */
#define MANDROZSI_SHEET_BYTES(capacity) \
    (MANDROZSI_BLOCK_BYTES * (((capacity) + (MANDROZSI_LEAVES_PER_BLOCK - 1)) / MANDROZSI_LEAVES_PER_BLOCK))
#define MANDROZSI_PIECE_SHEET_BYTES(pieces) \
    (MANDROZSI_BLOCK_BYTES * (((pieces) + ((pieces) == 0) + (MANDROZSI_PIECES_PER_BLOCK - 1)) / MANDROZSI_PIECES_PER_BLOCK))
#define MANDROZSI_MOST_SHEET_BYTES 8704
#define MANDROZSI_MOST_PIECE_SHEET_BYTES 25088

/* The numbers of a waiting list: the last ticket given, how many answers are to be fetched, how many orders wait, and 64 places of four. */
#define MANDROZSI_LIST 259

/* The drive record: the capacity C; the position p, 1 to 2^k - 1, where C has k binary digits; and the number of the round that the slot at p
 * belongs to, one more each time p returns to 1, and 0 again after the largest. A round starts at p = 1. open, read and import make a record at
 * p = 1 and read_pieces one at the p of its sheet, each of round 0; only slot moves one on. Every other call, the fresh layout too, hands back
 * the record it was given. */
typedef struct mandrozsi_drive {
    uint16_t capacity;
    uint16_t position;
    uint64_t round;
} mandrozsi_drive;

/* What a call says: the number (0 for done), and the values in the order named below; a value that it does not have is 0. */
typedef struct mandrozsi_said {
    uint64_t number;
    uint64_t first;
    uint64_t second;
    uint64_t third;
    uint64_t fourth;
} mandrozsi_said;

/* What a function gives back: the record, and what the call says. */
typedef struct mandrozsi_reply {
    mandrozsi_drive drive;
    mandrozsi_said said;
} mandrozsi_reply;

/* An entry of a table of changes: what is asked (kind 1: add, 2: remove, which looks at no weight; with tables 3: over-allocated add), and the
 * place for its answer, the number and its value: the idle leaves of 0 and 10, the ticket of 13, and else 0. */
typedef struct mandrozsi_entry {
    uint16_t kind;
    uint16_t name;
    uint16_t weight;
    uint16_t number;
    uint64_t value;
} mandrozsi_entry;

/* The numbers of an answer. "With tables" is of the calls for over-allocated streams, mandrozsi_share_*. */
enum mandrozsi_number {
    MANDROZSI_DONE = 0,
    MANDROZSI_CAPACITY = 1,  /* C is 0 or above 4,095 */
    MANDROZSI_SHORT = 2,     /* the board or a table has fewer than C entries, the list fewer than MANDROZSI_LIST, the marks fewer than C - 1 */
    MANDROZSI_POSITION = 3,  /* p is 0 or above 2^k - 1; of two drives also: their capacities differ */
    MANDROZSI_MIDROUND = 4,  /* p is not 1 (save, fresh, to_leaves), of two drives that of either; save_pieces: their positions differ */
    MANDROZSI_DAMAGED = 5,   /* the board, or that of a sheet, is not good: two pieces of one name, or two idle ones, have equal size;
                                with tables also: they do not fit the board */
    MANDROZSI_NAME = 6,      /* the name is 0 */
    MANDROZSI_WEIGHT = 7,    /* the weight is 0; of an entry in a table of changes also: it has no such kind, whatever else is wrong */
    MANDROZSI_TAKEN = 8,     /* a leaf holds the name */
    MANDROZSI_ABSENT = 9,    /* no leaf holds the name */
    MANDROZSI_ROOM = 10,     /* the weight, of an over-allocated add R, exceeds the number of idle leaves: first = that number */
    MANDROZSI_OUTPUT = 11,   /* the lent output is too short: for the C names of a round, or for the bytes of the sheet */
    MANDROZSI_BLOCK = 12,    /* a sheet breaks its layout, its length too, or is of the other form */
    MANDROZSI_WAITING = 13,  /* the order waits under a ticket: first = the ticket */
    MANDROZSI_QUEUE = 14,    /* no order can wait: the 64 places are taken, or the tickets are used up */
    MANDROZSI_TICKET = 15,   /* no order and no answer on the list has the ticket */
    MANDROZSI_POWER = 16,    /* C is no power of two (walk and import) */
    MANDROZSI_KIND = 17,     /* an over-allocated stream is held, and no sheet can hold it (save and save_pieces with tables) */
    MANDROZSI_GROUP = 18     /* starts and names are no group table (import): not k + 1 starts from 0 that rise to C at most by whole streams,
                                not as many names as the lists hold, or a name that is 0 or stands there twice */
};

/* Makes the first `capacity` entries idle and empties the list. Done: a record at p = 1, of round 0. Refused: 1, 2. */
mandrozsi_reply mandrozsi_open(uint16_t capacity, uint16_t *board, size_t entries, uint64_t *list, size_t numbers);

/* Admits a stream: its weight in leaves, each power of two at the low end of the smallest idle piece. Made at once: first = the idle leaves
 * left. Waiting (13): first = the ticket.
 * Refused: 1 to 3, 5 to 7; then 14 where it would wait; where it is made at once 8 and 10, first = the idle leaves there are. An order that
 * waits is looked at again when it is carried out: its answer may then be any that is given at once. */
mandrozsi_reply mandrozsi_add(mandrozsi_drive drive, uint16_t *board, size_t entries, uint64_t *list, size_t numbers, uint16_t name,
                              uint16_t weight);

/* Makes a stream's leaves idle and tidies the board. Made at once: first = the idle leaves left. Waiting (13): first = the ticket.
 * Refused: 1 to 3, 5, 6; then 14 where it would wait, 9 where it is made at once. */
mandrozsi_reply mandrozsi_remove(mandrozsi_drive drive, uint16_t *board, size_t entries, uint64_t *list, size_t numbers, uint16_t name);

/* Serves the slot at p, on any board. At p = 1 the orders that wait are carried out first, and their answers left on the list. Done: first = the
 * name (0: idle), second = the leaf, third = the positions passed over, 0 or 1, fourth = the number of the round that the slot belongs to. The
 * record that comes back has moved on: keep it, and lend it to the next call. With the old one the same slot would be served again.
 * Refused: 1 to 3. */
mandrozsi_reply mandrozsi_slot(mandrozsi_drive drive, uint16_t *board, size_t entries, uint64_t *list, size_t numbers);

/* Writes the C names of a full round from p = 1 to the start of the output, of C entries or more, and nothing beyond them; p is unchanged.
 * Refused: 1 to 3, 11. */
mandrozsi_reply mandrozsi_round(mandrozsi_drive drive, const uint16_t *board, size_t entries, uint16_t *output, size_t length);

/* Reports on a stream. Done: first = its weight, second = its number of pieces, third = its spacing: the largest number of slots from one serve
 * to the next over two rounds of the board, the end of the round included; C for a stream that is served once a round. It goes through the whole
 * round. Refused: 1 to 3, 5, 6, 9. */
mandrozsi_reply mandrozsi_report(mandrozsi_drive drive, const uint16_t *board, size_t entries, uint16_t name);

/* Writes the board's sheet, MANDROZSI_SHEET_BYTES(C), to the start of the output and nothing beyond it. Done: first = the bytes written.
 * Refused: 1 to 5, 11. */
mandrozsi_reply mandrozsi_save(mandrozsi_drive drive, const uint16_t *board, size_t entries, uint8_t *output, size_t length);

/* Sets the leaves of a board to those of a sheet and empties the list. `length` is that of the sheet, what save said and not a byte more: a
 * sheet with anything after it is 12. Done: a record at p = 1, of round 0.
 * Refused, looked for in this order: 12 (under 512 bytes), 1 (the sheet's C), 2, 12 (anything else of the layout), 5 (the sheet's board). */
mandrozsi_reply mandrozsi_read(const uint8_t *sheet, size_t length, uint16_t *board, size_t entries, uint64_t *list, size_t numbers);

/* A second form of sheet, which lists the pieces that are not idle, by start: a block has its number plus 32,768, C, p, up to
 * MANDROZSI_PIECES_PER_BLOCK entries (name, start, exponent of the size), zeros after them, and the sum. It is saved at any p. It has
 * MANDROZSI_PIECE_SHEET_BYTES of its pieces, and MANDROZSI_PIECE_SHEET_BYTES(C) at most. Done: first = the bytes written. Refused: 1 to 3, 5,
 * 11. */
mandrozsi_reply mandrozsi_save_pieces(mandrozsi_drive drive, const uint16_t *board, size_t entries, uint8_t *output, size_t length);

/* Sets the leaves of a board to those of a sheet that lists pieces and empties the list. Done: a record at the p of the sheet, of round 0. Where
 * that is not 1 the round that runs is cut: what is promised of full rounds begins at the next p = 1.
 * Refused, and the length exact, as for mandrozsi_read; 12 also for a p out of range. It answers 12 to a sheet of the other form, as
 * mandrozsi_read does to one of this. */
mandrozsi_reply mandrozsi_read_pieces(const uint8_t *sheet, size_t length, uint16_t *board, size_t entries, uint64_t *list, size_t numbers);

/* Write the sheet of the same board in the other form to the start of the output, and nothing beyond it. Done: first = the bytes written. What
 * is read is refused as by its read, in the same order, but for 2; then 4 where the sheet's p is not 1 (to_leaves), and 11. */
mandrozsi_said mandrozsi_to_pieces(const uint8_t *sheet, size_t bytes, uint8_t *output, size_t length);
mandrozsi_said mandrozsi_to_leaves(const uint8_t *sheet, size_t bytes, uint8_t *output, size_t length);

/* Fetches what an order was answered when it was carried out: that answer's number, and first = its value. Its place is then free, and the
 * ticket is known no longer. It looks at nothing but the list.
 * 13, first = the ticket: the order waits, and nothing changes. 15: no such ticket, or a list that is too short. */
mandrozsi_said mandrozsi_fetch(uint64_t *list, size_t numbers, uint64_t ticket);

/* Lays the board out afresh: as if every stream had been added to an opened board by falling weight, then rising name. Two boards of one
 * capacity with the same streams and weights are then alike, whatever their histories. It is no change that could wait: it is made at once, at p
 * = 1, and leaves the orders that wait as they are. Refused: 1 to 5. */
mandrozsi_reply mandrozsi_fresh(mandrozsi_drive drive, uint16_t *board, size_t entries);

/* Two drives on one board. They share board and list; each has its own record, with its own position and round number. `own` is the record of
 * the drive that a call is for, and comes back; `other` is that of the other drive as its last call returned it, and is only looked at.
 * mandrozsi_open, mandrozsi_read, mandrozsi_read_pieces and mandrozsi_import give the record that both drives start with; mandrozsi_fetch and
 * the conversions of sheets take no record.
 *
 * Each call is that of one drive, with these differences. A change is made at once only where both records are at p = 1 and no order waits, and
 * the orders that wait are carried out by the slot call, of either drive, that finds both there. 1 and 3 are for either record, 2 goes by the
 * larger C and comes before 3, and unequal capacities are 3. Save and fresh are 4 where either drive is away from p = 1, save_pieces where their
 * positions differ, since mandrozsi_read_pieces gives both one p.
 *
 * Drives that run out of step may never both be at p = 1: then the orders wait on, and once 64 places are taken a change is 14. Hold the drive
 * that is first at p = 1 back until the other is there too. With one record in both places each call is that of one drive. */
mandrozsi_reply mandrozsi_pair_add(mandrozsi_drive own, mandrozsi_drive other, uint16_t *board, size_t entries, uint64_t *list, size_t numbers,
                                   uint16_t name, uint16_t weight);
mandrozsi_reply mandrozsi_pair_remove(mandrozsi_drive own, mandrozsi_drive other, uint16_t *board, size_t entries, uint64_t *list,
                                      size_t numbers, uint16_t name);
mandrozsi_reply mandrozsi_pair_slot(mandrozsi_drive own, mandrozsi_drive other, uint16_t *board, size_t entries, uint64_t *list, size_t numbers);
mandrozsi_reply mandrozsi_pair_round(mandrozsi_drive own, mandrozsi_drive other, const uint16_t *board, size_t entries, uint16_t *output,
                                     size_t length);
mandrozsi_reply mandrozsi_pair_report(mandrozsi_drive own, mandrozsi_drive other, const uint16_t *board, size_t entries, uint16_t name);
mandrozsi_reply mandrozsi_pair_save(mandrozsi_drive own, mandrozsi_drive other, const uint16_t *board, size_t entries, uint8_t *output,
                                    size_t length);
mandrozsi_reply mandrozsi_pair_save_pieces(mandrozsi_drive own, mandrozsi_drive other, const uint16_t *board, size_t entries, uint8_t *output,
                                           size_t length);
mandrozsi_reply mandrozsi_pair_fresh(mandrozsi_drive own, mandrozsi_drive other, uint16_t *board, size_t entries);

/* Carries out a table of changes from the first entry to the last, each as the single call would, and writes each one's answer to its place;
 * nothing else of the table changes. An empty table changes nothing. A refused entry does not stop the rest. A kind that is neither 1 nor 2 is
 * answered 7, whatever else is wrong. The record comes back as it was. */
mandrozsi_drive mandrozsi_pair_batch(mandrozsi_drive own, mandrozsi_drive other, uint16_t *board, size_t entries, uint64_t *list, size_t numbers,
                                     mandrozsi_entry *table, size_t changes);

/* The same for one drive, with its record in both places. */
static inline mandrozsi_drive mandrozsi_batch(mandrozsi_drive drive, uint16_t *board, size_t entries, uint64_t *list, size_t numbers,
                                              mandrozsi_entry *table, size_t changes)
{
    return mandrozsi_pair_batch(drive, drive, board, entries, list, numbers, table, changes);
}

/* Serves a slot as mandrozsi_pair_slot does, on the record where it lies: it is moved on there, and left as it was where the slot is refused.
 * Board, list and what is said are those of the call by value.
 *
 * It takes little stack but where it carries orders out (above), since the board is then tested for damage. A caller with less can see it
 * coming: the list's third number, list[2], is not 0 while orders wait. Make the slot call that finds both drives at p = 1 and list[2] not 0
 * from a task with more stack, lending it the same record, board and list; or let the host, which has the stack, call the changes where both
 * drives are at p = 1, so that none ever waits. */
mandrozsi_said mandrozsi_pair_slot_here(mandrozsi_drive *own, mandrozsi_drive other, uint16_t *board, size_t entries, uint64_t *list,
                                        size_t numbers);

/* The same for one drive, with its record in both places. */
static inline mandrozsi_said mandrozsi_slot_here(mandrozsi_drive *drive, uint16_t *board, size_t entries, uint64_t *list, size_t numbers)
{
    return mandrozsi_pair_slot_here(drive, *drive, board, entries, list, numbers);
}

/* Over-allocated streams. A stream that asks for it has one piece of R leaves, the smallest power of two not below its weight r, and is served r
 * times a round, as evenly as one piece lies: at the other R - r of its leaves the slot goes to name 0. These calls are for two drives, as those
 * above; a single drive has its record in both places. They are lent three tables beside the board and the list, arrays with an entry for each
 * leaf that the caller keeps: `rates` has r at a stream's lowest leaf, and 0 everywhere else; `owed` has for the own drive, and `owed_other` for
 * the other one, how far the stream's deficit is below 0, at the same leaf. (A call for the other drive is lent the two in the other order. A
 * single drive keeps a second array, of zeros: the two do not overlap.)
 *
 * Each call is that of two drives without tables, with these differences. 2 is also for a table with fewer than C entries. Every call that is
 * given records answers 5, slot and round too, where the board is not good, where r is above 0 anywhere but at the lowest leaf of a stream that
 * is one piece of R leaves, where a deficit is outside its range (0 to R - 1 in the table), or not 0 where r is 0. So each of them looks at the
 * whole board and every table: where no stream is over-allocated, the calls without tables are the ones to take. Open, read, read_pieces and
 * import look at neither the old board nor the old tables; the two reads answer 5 where the sheet's board is not good, import never.
 *
 * mandrozsi_share_open, _read, _read_pieces and _import also clear the first C entries of the tables; the record is for both drives. Fetch and
 * the conversions of sheets are those without tables. */
mandrozsi_reply mandrozsi_share_open(uint16_t capacity, uint16_t *board, size_t entries, uint64_t *list, size_t numbers, uint16_t *rates,
                                     size_t rated, uint16_t *owed, size_t owing, uint16_t *owed_other, size_t other_owing);
mandrozsi_reply mandrozsi_share_read(const uint8_t *sheet, size_t length, uint16_t *board, size_t entries, uint64_t *list, size_t numbers,
                                     uint16_t *rates, size_t rated, uint16_t *owed, size_t owing, uint16_t *owed_other, size_t other_owing);

/* Add, the over-allocated add, and remove. An over-allocated add asks for R leaves: 10, first = the idle leaves, where there are fewer (which
 * may be r or more), and so always where r is above 2,048. A remove clears the entries of its stream, and those of every stream that tidying
 * moves go with it. */
mandrozsi_reply mandrozsi_share_add(mandrozsi_drive own, mandrozsi_drive other, uint16_t *board, size_t entries, uint64_t *list, size_t numbers,
                                    uint16_t *rates, size_t rated, uint16_t *owed, size_t owing, uint16_t *owed_other, size_t other_owing,
                                    uint16_t name, uint16_t weight);
mandrozsi_reply mandrozsi_share_over(mandrozsi_drive own, mandrozsi_drive other, uint16_t *board, size_t entries, uint64_t *list, size_t numbers,
                                     uint16_t *rates, size_t rated, uint16_t *owed, size_t owing, uint16_t *owed_other, size_t other_owing,
                                     uint16_t name, uint16_t weight);
mandrozsi_reply mandrozsi_share_remove(mandrozsi_drive own, mandrozsi_drive other, uint16_t *board, size_t entries, uint64_t *list, size_t numbers,
                                       uint16_t *rates, size_t rated, uint16_t *owed, size_t owing, uint16_t *owed_other, size_t other_owing,
                                       uint16_t name);

/* Serves a slot of the own drive. Where the leaf is that of an over-allocated stream: if its deficit exceeds -r, it is served and r - R is
 * added; else the slot goes to name 0, and r is added. Refused: 1 to 3, 5; then no order has been carried out. */
mandrozsi_reply mandrozsi_share_slot(mandrozsi_drive own, mandrozsi_drive other, uint16_t *board, size_t entries, uint64_t *list, size_t numbers,
                                     uint16_t *rates, size_t rated, uint16_t *owed, size_t owing, uint16_t *owed_other, size_t other_owing);

/* Round takes every deficit as 0 and changes none. Report gives of an over-allocated stream r for the weight, and one piece; of any other what
 * it gives without tables. Its spacing is over serves as round writes them. Refused: round 1 to 3, 5, 11; report 1 to 3, 5, 6, 9. */
mandrozsi_reply mandrozsi_share_round(mandrozsi_drive own, mandrozsi_drive other, const uint16_t *board, size_t entries, const uint16_t *rates,
                                      size_t rated, const uint16_t *owed, size_t owing, const uint16_t *owed_other, size_t other_owing,
                                      uint16_t *output, size_t length);
mandrozsi_reply mandrozsi_share_report(mandrozsi_drive own, mandrozsi_drive other, const uint16_t *board, size_t entries, const uint16_t *rates,
                                       size_t rated, const uint16_t *owed, size_t owing, const uint16_t *owed_other, size_t other_owing,
                                       uint16_t name);

/* Neither form of sheet can hold an over-allocated stream: 17, last, while one is held. Refused: 1 to 5, 11, 17; 4 of save where either drive is
 * away from p = 1, of save_pieces where they are at different positions. The reads are refused as those without tables. */
mandrozsi_reply mandrozsi_share_save(mandrozsi_drive own, mandrozsi_drive other, const uint16_t *board, size_t entries, const uint16_t *rates,
                                     size_t rated, const uint16_t *owed, size_t owing, const uint16_t *owed_other, size_t other_owing,
                                     uint8_t *output, size_t length);

mandrozsi_reply mandrozsi_share_save_pieces(mandrozsi_drive own, mandrozsi_drive other, const uint16_t *board, size_t entries, const uint16_t *rates,
                                            size_t rated, const uint16_t *owed, size_t owing, const uint16_t *owed_other, size_t other_owing,
                                            uint8_t *output, size_t length);
mandrozsi_reply mandrozsi_share_read_pieces(const uint8_t *sheet, size_t length, uint16_t *board, size_t entries, uint64_t *list, size_t numbers,
                                            uint16_t *rates, size_t rated, uint16_t *owed, size_t owing, uint16_t *owed_other, size_t other_owing);

/* Over-allocated streams count with R and keep r and their deficits. Refused: 1 to 5. */
mandrozsi_reply mandrozsi_share_fresh(mandrozsi_drive own, mandrozsi_drive other, uint16_t *board, size_t entries, uint16_t *rates, size_t rated,
                                      uint16_t *owed, size_t owing, uint16_t *owed_other, size_t other_owing);

/* In a table of changes kind 3 is the over-allocated add; a kind that is none of the three is answered 7, whatever else is wrong. */
mandrozsi_drive mandrozsi_share_batch(mandrozsi_drive own, mandrozsi_drive other, uint16_t *board, size_t entries, uint64_t *list, size_t numbers,
                                      uint16_t *rates, size_t rated, uint16_t *owed, size_t owing, uint16_t *owed_other, size_t other_owing,
                                      mandrozsi_entry *table, size_t changes);

/* The slot on the record where it lies. Every slot with tables tests the board for damage, and takes the stack of that test whether orders wait
 * or not. */
mandrozsi_said mandrozsi_share_slot_here(mandrozsi_drive *own, mandrozsi_drive other, uint16_t *board, size_t entries, uint64_t *list,
                                         size_t numbers, uint16_t *rates, size_t rated, uint16_t *owed, size_t owing, uint16_t *owed_other,
                                         size_t other_owing);

/* Takes a neighbour's table of groups, for C = 2^k: streams in lists by rate, highest first, list i of rate 2^(k - i - 1). `starts` has the k +
 * 1 starting timeslots, and `names` the streams in the order of the lists: list i holds (start i + 1 less start i) over its rate. It writes the
 * table's own round, by its rule, to the start of the output, in which each stream of rate 2^n is served once in each aligned 2^(k - n) slots;
 * opens the board and admits the streams in the order of the table, each with its rate as weight; and empties the list. Done: a record at p = 1,
 * of round 0. The output has C entries or more. The round of the imported board need not be the table's: both serve each stream as often, in
 * another order.
 * Refused, looked for in this order: 1; 16; 2; 18; 11. A refusal leaves the board, the list and the output as they were. */
mandrozsi_reply mandrozsi_import(uint16_t capacity, const uint16_t *starts, size_t given, const uint16_t *names, size_t streams, uint16_t *board,
                                 size_t entries, uint64_t *list, size_t numbers, uint16_t *output, size_t length);

/* The same where tables are lent: their first C entries are cleared, since none of the streams is over-allocated. */
mandrozsi_reply mandrozsi_share_import(uint16_t capacity, const uint16_t *starts, size_t given, const uint16_t *names, size_t streams,
                                       uint16_t *board, size_t entries, uint64_t *list, size_t numbers, uint16_t *rates, size_t rated,
                                       uint16_t *owed, size_t owing, uint16_t *owed_other, size_t other_owing, uint16_t *output, size_t length);

/* Serves a slot by a second engine, for C a power of two: a walk down a tree over the leaves, from the root. At every inner node a mark of 0
 * becomes 1 and leads left, any other becomes 0 and leads right. `marks` has one mark for each of the C - 1 inner nodes, by level, root first:
 * those of node i's left and right child stand at 2 i + 1 and 2 i + 2. The caller keeps the marks and lends each walk what the last one left;
 * what is beyond the C - 1 is never changed. From marks that are all 0 the walks serve the leaves of mandrozsi_slot from p = 1, for any number
 * of rounds, and after each C walks all are 0 again. There is no record and no list, and the board is only read, good or not. Done: first = the
 * name, second = the leaf.
 * Refused, looked for in this order: 1, 16, 2. */
mandrozsi_said mandrozsi_walk(uint16_t capacity, const uint16_t *board, size_t entries, uint16_t *marks, size_t length);

#ifdef __cplusplus
}
#endif

#endif
