#include "lent.h"
#include <stdio.h>
#include <stdlib.h>
#include <string.h>
#include <sys/mman.h>
#include <unistd.h>

enum { GUARD_BYTES = 256, GUARD = 0x9c };

void lent_open(struct lent *lent, size_t most)
{
    size_t page = (size_t)sysconf(_SC_PAGESIZE);
    lent->room_bytes = (most + GUARD_BYTES + page - 1) / page * page;
    uint8_t *pages = mmap(NULL, lent->room_bytes + 2 * page, PROT_NONE, MAP_PRIVATE | MAP_ANONYMOUS, -1, 0);
    if (pages == MAP_FAILED || mprotect(pages + page, lent->room_bytes, PROT_READ | PROT_WRITE) != 0) {
        perror("fuzz: no memory to lend");
        exit(2);
    }
    lent->room = pages + page;
}

static uint8_t *guard_of(const struct lent *lent)
{
    return lent->edge == AT_START ? lent->bytes + lent->length : lent->bytes - GUARD_BYTES;
}

static void place(struct lent *lent, enum edge edge, size_t length)
{
    if (length + GUARD_BYTES > lent->room_bytes) {
        fprintf(stderr, "fuzz: no room for %zu bytes\n", length);
        abort();
    }
    lent->edge = edge;
    lent->length = length;
    lent->bytes = edge == AT_START ? lent->room : lent->room + lent->room_bytes - length;
    memset(guard_of(lent), GUARD, GUARD_BYTES);
}

void lent_filled(struct lent *lent, enum edge edge, size_t length, uint8_t value)
{
    place(lent, edge, length);
    memset(lent->bytes, value, length);
}

void lent_copied(struct lent *lent, enum edge edge, const uint8_t *bytes, size_t length)
{
    place(lent, edge, length);
    if (length > 0)
        memcpy(lent->bytes, bytes, length);
}

int lent_guards_hold(const struct lent *lent)
{
    return all_are(guard_of(lent), GUARD_BYTES, GUARD);
}

/* Each byte is the one before it, and the first has the value. */
int all_are(const uint8_t *bytes, size_t count, uint8_t value)
{
    return count == 0 || (bytes[0] == value && memcmp(bytes, bytes + 1, count - 1) == 0);
}
