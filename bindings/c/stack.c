/* How many bytes of stack each call takes, its own frame and all below it: each is made on a painted stack, and the lowest byte is looked for that it
 * has written. C = 4,095 with 200 streams of weight 18; the import and the walk have C = 2,048. It is for x86-64 alone.
 *
 *   bindings/c/build bindings/c/stack.c target/stack && .ci/start target/stack */
#define _DEFAULT_SOURCE
#include <string.h>
#include <ucontext.h>

#include "mandrozsi.h"

/* Every call goes by way of a mark, which notes the stack as the call finds it and changes nothing else. */
void *found;
#define MARKED(name) \
    extern __typeof__(mandrozsi_##name) marked_##name; \
    __asm__(".text\nmarked_" #name ": mov %rsp, found(%rip)\n jmp mandrozsi_" #name "\n");
#define ONE(do) do(open) do(add) do(remove) do(slot) do(round) do(report) do(save) do(read) do(fetch)
#define PAIR(do) \
    do(pair_add) do(pair_remove) do(pair_slot) do(pair_round) do(pair_report) do(pair_save) do(pair_batch) do(pair_slot_here)
#define MORE(do) \
    do(walk) do(fresh) do(pair_fresh) do(save_pieces) do(read_pieces) do(to_pieces) do(to_leaves) do(pair_save_pieces) do(import)
#define SHARE(do) \
    do(share_open) do(share_read) do(share_add) do(share_over) do(share_remove) do(share_slot) do(share_round) do(share_report) \
    do(share_save) do(share_fresh) do(share_batch) do(share_slot_here) do(share_import) do(share_save_pieces) do(share_read_pieces)
ONE(MARKED) PAIR(MARKED) MORE(MARKED) SHARE(MARKED)

#define CALL(name) marked_##name
#include "dispatch.h"

/* The names of the calls, in the order of their numbers. */
#define TEXT(name) #name,
static const char *const texts[] = {ONE(TEXT) PAIR(TEXT) MORE(TEXT) SHARE(TEXT)};

enum { C = MANDROZSI_LARGEST, POWER = 2048, STREAMS = 200, WEIGHT = 18, PAINT = 0xA5, BYTES = 32768, STACK = 1 << 18 };

static uint64_t places[SLICES][BYTES / 8];
static uint8_t leaves[MANDROZSI_MOST_SHEET_BYTES], pieces[MANDROZSI_MOST_PIECE_SHEET_BYTES];
static uint16_t full[C];
static uint64_t answers[MANDROZSI_LIST];
static struct call call;
static uint8_t *lent[SLICES];

static void put(int slice, const void *what, size_t bytes)
{
    memcpy(places[slice], what, bytes);
    call.bytes[slice] = bytes;
}

/* Puts 64 adds (kind 1) or removes on a list. */
static void order(uint64_t *list, int kind)
{
    const mandrozsi_drive running = {C, 2, 0};
    for (uint16_t i = 0; i < 64; i++)
        if (kind == 1)
            mandrozsi_add(running, full, C, list, MANDROZSI_LIST, (uint16_t)(1000 + i), 1);
        else
            mandrozsi_remove(running, full, C, list, MANDROZSI_LIST, (uint16_t)(1 + i));
}

/* A board with its streams, its sheets, and a list of 64 answers. */
static size_t start(void)
{
    static uint16_t changed[C];
    uint64_t list[MANDROZSI_LIST] = {0};
    mandrozsi_drive drive = mandrozsi_open(C, full, C, list, MANDROZSI_LIST).drive;
    for (uint16_t name = 1; name <= STREAMS; name++)
        mandrozsi_add(drive, full, C, list, MANDROZSI_LIST, name, WEIGHT);
    order(answers, 1);
    memcpy(changed, full, sizeof full);
    mandrozsi_slot(drive, changed, C, answers, MANDROZSI_LIST);
    mandrozsi_save(drive, full, C, leaves, sizeof leaves);
    return mandrozsi_save_pieces(drive, full, C, pieces, sizeof pieces).said.first;
}

static int is(const char *text) { return strstr(texts[call.number], text) != NULL; }

/* What is lent beside the board and the list: sheets, a table of changes, a group table. */
static void prepare_rest(size_t piece_bytes)
{
    static const uint16_t zeros[C] = {0};
    static const mandrozsi_entry table[] = {{1, 999, WEIGHT, 0, 0}, {2, 100, 0, 0, 0}, {3, 998, WEIGHT, 0, 0}};
    uint16_t starts[12] = {0}, names[POWER];
    for (int slice = RATES; slice <= OWED_OTHER; slice++)
        put(slice, zeros, sizeof zeros);
    memset(places[OTHER], 0, BYTES);
    call.bytes[OTHER] = BYTES;
    if (is("batch"))
        put(OTHER, table, sizeof table);
    if (is("read"))
        put(OTHER, is("pieces") ? pieces : leaves, is("pieces") ? piece_bytes : sizeof leaves);
    put(GIVEN, is("to_leaves") ? pieces : leaves, is("to_leaves") ? piece_bytes : sizeof leaves);
    starts[11] = POWER;
    for (size_t i = 0; i < POWER; i++)
        names[i] = (uint16_t)(i + 1);
    if (is("import"))
        put(GIVEN, starts, sizeof starts);
    put(NAMES, names, sizeof names);
}

/* A call at p, with 64 orders of a kind on the list where one is given. */
static void prepare(uint16_t number, uint16_t position, int kind, size_t piece_bytes)
{
    uint64_t list[MANDROZSI_LIST] = {0};
    memset(&call, 0, sizeof call);
    call.number = number;
    call.capacity = call.other_capacity = is("walk") || is("import") ? POWER : C;
    call.position = call.other_position = position;
    call.round = is("fetch");
    call.name = is("remove") || is("report") ? 100 : 999;
    call.weight = WEIGHT;
    if (kind != 0)
        order(list, kind);
    put(BOARD, full, sizeof full);
    put(LIST, is("fetch") ? answers : list, sizeof list);
    prepare_rest(piece_bytes);
    for (int i = 0; i < SLICES; i++)
        lent[i] = (uint8_t *)places[i];
}

static uint64_t answer;
static void run(void) { answer = make(&call, lent).said.number; }

/* Makes the call on a painted stack: the bytes that it took. */
static size_t taken(void)
{
    static uint8_t stack[STACK];
    static ucontext_t here, there;
    size_t low = 0;
    memset(stack, PAINT, sizeof stack);
    if (getcontext(&there) != 0)
        exit(failed("stack: there is no context"));
    there.uc_stack.ss_sp = stack;
    there.uc_stack.ss_size = sizeof stack;
    there.uc_link = &here;
    makecontext(&there, run, 0);
    swapcontext(&here, &there);
    while (low < STACK && stack[low] == PAINT)
        low++;
    return (size_t)((uint8_t *)found + sizeof(void *) - (stack + low));
}

static void show(const char *how, uint16_t number, uint16_t position, int kind, size_t piece_bytes)
{
    prepare(number, position, kind, piece_bytes);
    size_t bytes = taken();
    if (answer != MANDROZSI_DONE && answer != MANDROZSI_WAITING)
        exit(failed("stack: a call was refused"));
    printf("%6zu  %s %s\n", bytes, texts[number], how);
}

int main(void)
{
    static const uint16_t slots[] = {SLOT, PAIR_SLOT, PAIR_SLOT_HERE, SHARE_SLOT, SHARE_SLOT_HERE};
    size_t piece_bytes = start();
    for (uint16_t number = 0; number < sizeof texts / sizeof *texts; number++)
        show("", number, 1, 0, piece_bytes);
    for (size_t i = 0; i < sizeof slots / sizeof *slots; i++) {
        show("away from p = 1", slots[i], 2, 0, piece_bytes);
        show("with 64 adds", slots[i], 1, 1, piece_bytes);
        show("with 64 removes", slots[i], 1, 2, piece_bytes);
    }
    show("that waits", ADD, 2, 0, piece_bytes);
    show("that waits", SHARE_ADD, 2, 0, piece_bytes);
    return 0;
}
