/* Makes the library's calls for another process: for the comparison from Rust (bindings/rust/tests/boundary/served.rs) on a machine whose
 * Rust cannot link the archive. It reads calls on standard input until it ends, and answers each on standard output:
 *
 *   a call    struct call of dispatch.h, then the bytes of its slices
 *   an answer mandrozsi_reply, then the same bytes as the call left them
 *
 * Numbers lie as in memory, so both ends must keep the low byte first. Every slice is lent where it ends against a page that cannot be
 * touched, and with marked bytes before it: a call that reads or writes beyond a slice, or writes before it, ends this program, and with it
 * the comparison. It needs mmap, which C alone does not have. */
#define _DEFAULT_SOURCE
#include <string.h>
#include <sys/mman.h>

#include "dispatch.h"

/* The most bytes of a slice and of the page behind it (a multiple of any page size in use), and the marked bytes before a slice. */
enum { ROOM = 65536, MARKED = 64, MARK = 0xA5 };

/* Room for one slice: the place where it ends. */
static uint8_t *room(void)
{
    uint8_t *start = mmap(NULL, 2 * ROOM, PROT_READ | PROT_WRITE, MAP_PRIVATE | MAP_ANONYMOUS, -1, 0);
    if (start == MAP_FAILED || mprotect(start + ROOM, ROOM, PROT_NONE) != 0)
        exit(failed("serve: no memory"));
    return start + ROOM;
}

/* Reads a slice of some bytes to where it ends at a place, and marks what stands before it. */
static uint8_t *lend(uint8_t *place, size_t bytes)
{
    if (bytes > ROOM - MARKED)
        exit(failed("serve: a slice is too long"));
    uint8_t *slice = place - bytes;
    memset(slice - MARKED, MARK, MARKED);
    if (fread(slice, 1, bytes, stdin) != bytes)
        exit(failed("serve: a call is cut short"));
    return slice;
}

static void give_back(const uint8_t *slice, size_t bytes)
{
    for (size_t i = 1; i <= MARKED; i++)
        if (slice[-(ptrdiff_t)i] != MARK)
            exit(failed("serve: a call wrote before a slice"));
    if (fwrite(slice, 1, bytes, stdout) != bytes)
        exit(failed("serve: an answer cannot be written"));
}

int main(void)
{
    uint8_t *rooms[SLICES], *lent[SLICES];
    for (int i = 0; i < SLICES; i++)
        rooms[i] = room();
    struct call c;
    while (fread(&c, sizeof c, 1, stdin) == 1) {
        for (int i = 0; i < SLICES; i++)
            lent[i] = lend(rooms[i], c.bytes[i]);
        mandrozsi_reply reply = make(&c, lent);
        if (fwrite(&reply, sizeof reply, 1, stdout) != 1)
            exit(failed("serve: an answer cannot be written"));
        for (int i = 0; i < SLICES; i++)
            give_back(lent[i], c.bytes[i]);
        if (fflush(stdout) != 0)
            exit(failed("serve: an answer cannot be written"));
    }
    return 0;
}
