#include "numbers.h"

uint32_t from_bytes(const uint8_t *bytes, size_t count)
{
    uint32_t number = 0;
    for (size_t i = 0; i < count; i++)
        number = number << 8 | bytes[i];
    return number;
}

void to_bytes(uint8_t *bytes, size_t count, uint32_t number)
{
    for (size_t i = count; i > 0; i--) {
        bytes[i - 1] = (uint8_t)(number & 255);
        number >>= 8;
    }
}

int compare_numbers(int64_t a, int64_t b)
{
    return (a > b) - (a < b);
}
