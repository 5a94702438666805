#include "edit.h"
#include "../../include/nuldopa.h"
#include "task.h"
#include <string.h>

size_t record_bytes(uint32_t kind)
{
    return kind == NULDOPA_EQUAL || kind == NULDOPA_FOLLOWS ? NULDOPA_KEPT_BYTES : NULDOPA_LOST_BYTES;
}

static size_t drop_record(uint8_t *records, size_t length, size_t bytes, uint32_t number)
{
    size_t at = number % (length / bytes) * bytes;
    memmove(records + at, records + at + bytes, length - at - bytes);
    return length - bytes;
}

static void step_byte(uint8_t *records, size_t length, size_t bytes, uint32_t number)
{
    size_t record = number / 32 % (length / bytes), field = 1 + number / 2 % 16 % (bytes - 1);
    uint8_t *byte = records + record * bytes + field;
    *byte = (uint8_t)(*byte + (number % 2 == 0 ? 1 : UINT8_MAX));
}

static void twin_record(uint8_t *records, size_t length, size_t bytes, uint32_t number)
{
    size_t count = length / bytes;
    if (count < 2)
        return;
    uint8_t *record = records + number % (count - 1) * bytes;
    memcpy(record + bytes, record, bytes);
    record[bytes + 1 + HISTORY_AT]++;
}

size_t edit_certificate(uint8_t *certificate, size_t length, uint32_t number)
{
    if (length == 0 || length < record_bytes(certificate[0]))
        return length;
    size_t bytes = record_bytes(certificate[0]);
    switch (number % 8) {
    case 0:
    case 1:
        return drop_record(certificate, length, bytes, number / 8);
    case 2:
        twin_record(certificate, length, bytes, number / 8);
        return length;
    default:
        step_byte(certificate, length, bytes, number / 8);
        return length;
    }
}
