/* Small changes of a certificate, after which it may still be accepted. */
#ifndef EDIT_H
#define EDIT_H

#include <stddef.h>
#include <stdint.h>

/* Bytes of a record of this kind: 16 and 18 list positions, 17 and 19 an attack and rounds beside each. */
size_t record_bytes(uint32_t kind);

/* Drops a record, puts one in the place of the next with a history size of one more, or makes a byte of one, but not its
 * kind, one more or one less. The number says which. Returns the length that is left. */
size_t edit_certificate(uint8_t *certificate, size_t length, uint32_t number);

#endif
