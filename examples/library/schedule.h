/* A driver's structures in guest memory, as words (EHCI 1.0, 3.5 and 3.6), and the bytes of a buffer. */
#ifndef SCHEDULE_H
#define SCHEDULE_H

#include <stdint.h>

static uint32_t ram[8192]; /* 32 KiB */

static inline void set(uint32_t at, uint32_t word) { ram[at / 4] = word; }
static inline uint32_t get(uint32_t at) { return ram[at / 4]; }
static inline uint8_t byte_at(uint32_t at) { return (uint8_t)(ram[at / 4] >> 8 * (at % 4)); }
static inline void set_byte(uint32_t at, uint8_t byte) {
    ram[at / 4] = (ram[at / 4] & ~(0xffu << 8 * (at % 4))) | (uint32_t)byte << 8 * (at % 4);
}

/* A queue head whose overlay has nothing: its link, its characteristics and capabilities, its first qTD (1: none). */
static inline void queue_head(uint32_t at, uint32_t link, uint32_t characteristics, uint32_t capabilities, uint32_t first) {
    set(at, link);
    set(at + 4, characteristics);
    set(at + 8, capabilities);
    set(at + 12, 0);
    set(at + 16, first);
    set(at + 20, 1);
    set(at + 24, first == 1 ? 0x40 : 0);
}

/* A qTD: the next one (1: none), its token, its buffer within two pages. */
static inline void qtd(uint32_t at, uint32_t next, uint32_t token, uint32_t buffer) {
    set(at, next);
    set(at + 4, 1);
    set(at + 8, token);
    set(at + 12, buffer);
    set(at + 16, (buffer & ~0xfffu) + 0x1000);
}

#endif
