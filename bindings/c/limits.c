/* The sizes that the header gives, tested by the compiler; and what a caller may lend at the limits, tried on every call: a null pointer with
 * length 0 in place of an array, or of several, which must be answered as an empty array is that lies somewhere; and the largest sheets, in
 * outputs of just their bytes and of one less, and read with one byte more or less. It ends with status 1 at the first answer that is not the
 * one expected. */
#include <string.h>

#include "dispatch.h"

HOLDS(record_layout, sizeof(mandrozsi_drive) == 16 && offsetof(mandrozsi_drive, position) == 2 && offsetof(mandrozsi_drive, round) == 8);
HOLDS(said_layout, sizeof(mandrozsi_said) == 40 && offsetof(mandrozsi_said, fourth) == 32);
HOLDS(entry_layout, sizeof(mandrozsi_entry) == 16 && offsetof(mandrozsi_entry, value) == 8);
HOLDS(reply_layout, sizeof(mandrozsi_reply) == 56 && offsetof(mandrozsi_reply, said) == 16);
HOLDS(leaf_sheets, MANDROZSI_SHEET_BYTES(1) == 512 && MANDROZSI_SHEET_BYTES(253) == 512 && MANDROZSI_SHEET_BYTES(254) == 1024 &&
                       MANDROZSI_SHEET_BYTES(MANDROZSI_LARGEST) == MANDROZSI_MOST_SHEET_BYTES);
HOLDS(piece_sheets, MANDROZSI_PIECE_SHEET_BYTES(0) == 512 && MANDROZSI_PIECE_SHEET_BYTES(84) == 512 && MANDROZSI_PIECE_SHEET_BYTES(85) == 1024 &&
                        MANDROZSI_PIECE_SHEET_BYTES(MANDROZSI_LARGEST) == MANDROZSI_MOST_PIECE_SHEET_BYTES);

/* Arrays that a call can be lent, as digits of a number, and the three tables. */
enum { B = 1 << BOARD, L = 1 << LIST, O = 1 << OTHER, T = 1 << RATES | 1 << OWED | 1 << OWED_OTHER, G = 1 << GIVEN, N = 1 << NAMES };
enum { C = 8, CALLS = SHARE_READ_PIECES + 1, HELD = 5, FREE = 6 };

/* What each call is lent, and the number that answers an empty O: 11 for an output, 12 for a sheet, 2 for marks, 0 for a table of changes. */
static const struct {
    uint16_t lent, other;
} calls[CALLS] = {
    [OPEN] = {B | L, 0}, [ADD] = {B | L, 0}, [REMOVE] = {B | L, 0}, [SLOT] = {B | L, 0}, [ROUND] = {B | O, 11}, [REPORT] = {B, 0},
    [SAVE] = {B | O, 11}, [READ] = {B | L | O, 12}, [FETCH] = {L, 0}, [PAIR_ADD] = {B | L, 0}, [PAIR_REMOVE] = {B | L, 0},
    [PAIR_SLOT] = {B | L, 0}, [PAIR_ROUND] = {B | O, 11}, [PAIR_REPORT] = {B, 0}, [PAIR_SAVE] = {B | O, 11}, [PAIR_BATCH] = {B | L | O, 0},
    [PAIR_SLOT_HERE] = {B | L, 0}, [WALK] = {B | O, 2}, [FRESH] = {B, 0}, [PAIR_FRESH] = {B, 0}, [SAVE_PIECES] = {B | O, 11},
    [READ_PIECES] = {B | L | O, 12}, [TO_PIECES] = {O | G, 11}, [TO_LEAVES] = {O | G, 11}, [PAIR_SAVE_PIECES] = {B | O, 11},
    [IMPORT] = {B | L | O | G | N, 11}, [SHARE_OPEN] = {B | L | T, 0}, [SHARE_READ] = {B | L | O | T, 12}, [SHARE_ADD] = {B | L | T, 0},
    [SHARE_OVER] = {B | L | T, 0}, [SHARE_REMOVE] = {B | L | T, 0}, [SHARE_SLOT] = {B | L | T, 0}, [SHARE_ROUND] = {B | O | T, 11},
    [SHARE_REPORT] = {B | T, 0}, [SHARE_SAVE] = {B | O | T, 11}, [SHARE_FRESH] = {B | T, 0}, [SHARE_BATCH] = {B | L | O | T, 0},
    [SHARE_SLOT_HERE] = {B | L | T, 0}, [SHARE_IMPORT] = {B | L | O | T | G | N, 11}, [SHARE_SAVE_PIECES] = {B | O | T, 11},
    [SHARE_READ_PIECES] = {B | L | O | T, 12},
};

/* Everything that is lent, whole 64-bit numbers so that any element is aligned; and the bytes of each. */
struct lent {
    uint64_t places[SLICES][MANDROZSI_LIST];
    size_t bytes[SLICES];
};

static int is_batch(uint16_t number) { return number == PAIR_BATCH || number == SHARE_BATCH; }
static int is_import(uint16_t number) { return number == IMPORT || number == SHARE_IMPORT; }

/* The number that answers a call some of whose arrays are empty, by the order of its refusals. */
static uint64_t expected(uint16_t number, unsigned empty)
{
    if (number == FETCH)
        return empty ? MANDROZSI_TICKET : MANDROZSI_WAITING;
    if (is_batch(number))
        return MANDROZSI_DONE;
    if (((empty & O) && calls[number].other == MANDROZSI_BLOCK) || ((empty & G) && !is_import(number)))
        return MANDROZSI_BLOCK;
    if (empty & (B | L | T))
        return MANDROZSI_SHORT;
    if (empty & (G | N))
        return MANDROZSI_GROUP;
    return empty & O ? calls[number].other : 0;
}

static void put(struct lent *all, int slice, const void *what, size_t bytes)
{
    memcpy(all->places[slice], what, bytes);
    all->bytes[slice] = bytes;
}

/* What a call is lent so that it is done: a board of C leaves with one stream, and what else it looks at. */
static void prepare(struct lent *all, uint16_t number)
{
    static const uint16_t board[C] = {HELD}, zeros[C] = {0}, starts[4] = {0, 4, 4, 4}, names[1] = {9};
    static const mandrozsi_entry entry = {1, FREE, 1, 99, 99};
    static const uint64_t none[MANDROZSI_LIST] = {0};
    const mandrozsi_drive drive = {C, 1, 0}, running = {C, 2, 0};
    uint16_t same[C] = {HELD};
    uint8_t leaves[MANDROZSI_SHEET_BYTES(C)] = {0}, pieces[MANDROZSI_PIECE_SHEET_BYTES(C)] = {0};
    if (mandrozsi_save(drive, board, C, leaves, sizeof leaves).said.number != 0 ||
        mandrozsi_save_pieces(drive, board, C, pieces, sizeof pieces).said.number != 0)
        exit(failed("limits: a sheet cannot be saved"));
    memset(all, 0, sizeof *all);
    put(all, BOARD, board, sizeof board);
    put(all, LIST, none, sizeof none);
    for (int table = RATES; table <= OWED_OTHER; table++)
        put(all, table, zeros, sizeof zeros);
    put(all, OTHER, none, MANDROZSI_BLOCK_BYTES);
    if (number == READ || number == SHARE_READ)
        put(all, OTHER, leaves, sizeof leaves);
    if (number == READ_PIECES || number == SHARE_READ_PIECES)
        put(all, OTHER, pieces, sizeof pieces);
    if (is_batch(number))
        put(all, OTHER, &entry, sizeof entry);
    put(all, GIVEN, number == TO_PIECES ? leaves : pieces, sizeof leaves);
    if (is_import(number))
        put(all, GIVEN, starts, sizeof starts);
    put(all, NAMES, names, sizeof names);
    if (number == FETCH)
        mandrozsi_add(running, same, C, all->places[LIST], MANDROZSI_LIST, FREE, 1);
}

/* Makes a call with some of its arrays empty, null or not. */
static mandrozsi_reply try_call(struct lent *all, uint16_t number, unsigned empty, int null)
{
    struct call c = {number, FREE, 1, C, 1, C, 1, 0, 0, 0, {0}};
    uint8_t *lent[SLICES];
    prepare(all, number);
    if (number == REMOVE || number == PAIR_REMOVE || number == SHARE_REMOVE)
        c.name = HELD;
    if (number == REPORT || number == PAIR_REPORT || number == SHARE_REPORT)
        c.name = HELD;
    if (number == FETCH)
        c.round = 1;
    for (int i = 0; i < SLICES; i++) {
        int left_out = (empty >> i & 1) != 0;
        c.bytes[i] = left_out ? 0 : all->bytes[i];
        lent[i] = left_out && null ? NULL : (uint8_t *)all->places[i];
    }
    return make(&c, lent);
}

static int same_reply(const mandrozsi_reply *a, const mandrozsi_reply *b)
{
    return a->drive.capacity == b->drive.capacity && a->drive.position == b->drive.position && a->drive.round == b->drive.round &&
           memcmp(&a->said, &b->said, sizeof a->said) == 0;
}

/* One call with some arrays empty: null and not null, the same number, the same reply, and the same in every array; the entry of a table is
 * answered 2 where something else is too short, and is done else. */
static int try_nulls(uint16_t number, unsigned empty)
{
    static struct lent with, without;
    mandrozsi_reply a = try_call(&with, number, empty, 1), b = try_call(&without, number, empty, 0);
    int right = a.said.number == expected(number, empty) && same_reply(&a, &b) && memcmp(&with, &without, sizeof with) == 0;
    if (is_batch(number) && !(empty & O)) {
        mandrozsi_entry entry;
        memcpy(&entry, with.places[OTHER], sizeof entry);
        right = right && entry.number == (empty ? MANDROZSI_SHORT : MANDROZSI_DONE);
    }
    if (!right)
        fprintf(stderr, "limits: call %u with the arrays %#x null answered %lu\n", (unsigned)number, empty, (unsigned long)a.said.number);
    return right;
}

/* The largest sheets, of a board with a name of its own on each leaf: 0 where one is not saved or read as the header says. */
static int try_sheets(void)
{
    static uint16_t board[MANDROZSI_LARGEST], again[MANDROZSI_LARGEST];
    static uint64_t list[MANDROZSI_LIST];
    static uint8_t leaves[MANDROZSI_MOST_SHEET_BYTES + 1], pieces[MANDROZSI_MOST_PIECE_SHEET_BYTES + 1];
    const mandrozsi_drive drive = {MANDROZSI_LARGEST, 1, 0};
    const size_t most = MANDROZSI_MOST_SHEET_BYTES, most_pieces = MANDROZSI_MOST_PIECE_SHEET_BYTES;
    for (size_t i = 0; i < MANDROZSI_LARGEST; i++)
        board[i] = (uint16_t)(i + 1);
    int right = mandrozsi_save(drive, board, MANDROZSI_LARGEST, leaves, most - 1).said.number == MANDROZSI_OUTPUT &&
                mandrozsi_save(drive, board, MANDROZSI_LARGEST, leaves, most).said.first == most &&
                mandrozsi_save_pieces(drive, board, MANDROZSI_LARGEST, pieces, most_pieces - 1).said.number == MANDROZSI_OUTPUT &&
                mandrozsi_save_pieces(drive, board, MANDROZSI_LARGEST, pieces, most_pieces).said.first == most_pieces;
    for (int off = -1; off <= 1; off++) {
        uint64_t number = off == 0 ? MANDROZSI_DONE : MANDROZSI_BLOCK;
        right = right && mandrozsi_read(leaves, most + (size_t)off, again, MANDROZSI_LARGEST, list, MANDROZSI_LIST).said.number == number &&
                mandrozsi_read_pieces(pieces, most_pieces + (size_t)off, again, MANDROZSI_LARGEST, list, MANDROZSI_LIST).said.number == number;
    }
    return right && memcmp(board, again, sizeof board) == 0;
}

int main(void)
{
    unsigned tried = 0;
    for (uint16_t number = 0; number < CALLS; number++)
        for (unsigned empty = 0; empty < 1u << SLICES; empty++)
            if ((empty & calls[number].lent) == empty) {
                if (!try_nulls(number, empty))
                    return 1;
                tried++;
            }
    if (!try_sheets())
        return failed("limits: the largest sheets are not saved and read as the header says");
    printf("null arrays of length 0 in %u ways, the largest sheets: ok\n", tried);
    return 0;
}
