/* A buffer of an exact length, lent to the library. It stands against a page that nobody may touch, at its end or at its
 * start; on the other side are guard bytes. So a byte read or written past that page's edge ends the program at once, and
 * one written on the other side shows afterwards. */
#ifndef LENT_H
#define LENT_H

#include <stddef.h>
#include <stdint.h>

enum edge { AT_END, AT_START };

struct lent {
    uint8_t *bytes;
    size_t length;
    enum edge edge;
    uint8_t *room; /* the pages that may be touched */
    size_t room_bytes;
};

/* Makes room for buffers of at most so many bytes. */
void lent_open(struct lent *lent, size_t most);

/* A buffer filled with one value, or with a copy of some bytes. */
void lent_filled(struct lent *lent, enum edge edge, size_t length, uint8_t value);
void lent_copied(struct lent *lent, enum edge edge, const uint8_t *bytes, size_t length);

int lent_guards_hold(const struct lent *lent);

/* So many bytes all have this value. */
int all_are(const uint8_t *bytes, size_t count, uint8_t value);

#endif
