// The checksums of what the runtimes write; scripts/mte_scripts/checksum.py has the same.
#ifndef CHECKSUM_H
#define CHECKSUM_H
#include <stddef.h>
#include <stdint.h>

#define ODD 0x9E3779B97F4A7C15u

// of some numbers
static inline uint64_t folded(const uint64_t *numbers, int count) {
  uint64_t check = 0;
  for (int i = 0; i < count; i++) check = (check ^ numbers[i]) * ODD;
  return check;
}

// The CRC-32 of zlib, of a text that goes on: eight bytes at a time. The processor has the least byte of a word first.
static inline uint32_t crc(uint32_t value, const char *at, size_t size) {
  typedef uint64_t __attribute__((may_alias, aligned(1))) eight;
  static uint32_t table[8][256];
  if (!table[7][255]) {
    for (uint32_t i = 0; i < 256; i++) {
      uint32_t entry = i;
      for (int bit = 0; bit < 8; bit++) entry = entry >> 1 ^ (entry & 1) * 0xEDB88320u;
      table[0][i] = entry;
    }
    for (int k = 1; k < 8; k++)
      for (int i = 0; i < 256; i++) table[k][i] = table[k - 1][i] >> 8 ^ table[0][table[k - 1][i] & 255];
  }
#define CRC_OF(k) table[7 - k][next >> 8 * k & 255]
  for (value = ~value; size >= 8; size -= 8, at += 8) {
    uint64_t next = *(const eight *)at ^ value;
    value = CRC_OF(0) ^ CRC_OF(1) ^ CRC_OF(2) ^ CRC_OF(3) ^ CRC_OF(4) ^ CRC_OF(5) ^ CRC_OF(6) ^ CRC_OF(7);
  }
#undef CRC_OF
  while (size--) value = value >> 8 ^ table[0][(value ^ *at++) & 255];
  return ~value;
}
#endif
