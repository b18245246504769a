/* The world of the emulators: guest memory with a driver's schedule in it, a high-speed device with address 3, and a hub with address 2
 * below whose port 1 stands a full-speed keyboard with address 5.
 *
 * Device 3 takes a while for what it is asked: its bulk IN endpoint has its 600 bytes from microframe 3 on, and the answer to the control
 * request is there in microframe 5. Until then it answers NAK, and no call waits. The hub is played here: a start-split begins the
 * transaction on the bus below, a complete-split fetches its result once it is there (USB 2.0, 11.18). */
#ifndef WORLD_H
#define WORLD_H

#include "ehci_bus.h"
#include "schedule.h"

#include <stdio.h>

enum { DESCRIPTOR = 0x1400, REPORT = 0x1440, IN_BUFFER = 0x2000, OUT_BUFFER = 0x3000, MICROFRAMES = 16 };

static const uint32_t tokens[4] = {0x1248, 0x1268, 0x1288, 0x12a8}; /* of the control request, bulk IN and OUT, the interrupt endpoint */

static const uint8_t descriptor[18] = {18, 1, 0, 2, 0, 0, 0, 64, 0x34, 0x12, 0x78, 0x56, 0, 1, 1, 2, 3, 1};
static const uint8_t setup[8] = {0x80, 6, 0, 1, 0, 0, 18, 0};
static const uint8_t report[8] = {1, 2, 3, 4, 5, 6, 7, 8};

struct world {
    unsigned microframe;      /* counted from 1 */
    uint8_t toggle_in;        /* DATA0 or DATA1 of the bulk IN endpoint's next packet */
    uint8_t toggle_out;       /* the same of the bulk OUT endpoint's */
    unsigned sent, taken;     /* bytes that the bulk endpoints moved */
    uint8_t got[1024];        /* what the OUT endpoint took */
    bool asked;               /* the SETUP was seen */
    unsigned started;         /* the microframe of the start-split */
};

static uint8_t other(uint8_t toggle) { return toggle == EHCI_DATA0 ? EHCI_DATA1 : EHCI_DATA0; }

static struct ehci_answer control(struct world *world, const struct ehci_ask *ask, const uint8_t *out, uint8_t *data) {
    if (ask->pid == EHCI_SETUP) {
        world->asked = ask->out_len == 8 && memcmp(out, setup, 8) == 0;
        return ehci_handshake(EHCI_ACK);
    }
    if (!world->asked)
        return ehci_handshake(EHCI_STALL);
    if (ask->pid != EHCI_IN)
        return ehci_handshake(EHCI_ACK); /* the status stage */
    if (world->microframe < 5)
        return ehci_handshake(EHCI_NAK);
    memcpy(data, descriptor, sizeof descriptor);
    return ehci_data(EHCI_DATA1, sizeof descriptor);
}

static struct ehci_answer bulk_in(struct world *world, uint8_t *data) {
    unsigned len = world->sent < 600 ? 600 - world->sent : 0;
    if (world->microframe < 3 || len == 0)
        return ehci_handshake(EHCI_NAK);
    if (len > 512)
        len = 512;
    for (unsigned i = 0; i < len; i++)
        data[i] = (uint8_t)(world->sent + i);
    struct ehci_answer answer = ehci_data(world->toggle_in, (uint16_t)len);
    world->sent += len;
    world->toggle_in = other(world->toggle_in);
    return answer;
}

static struct ehci_answer bulk_out(struct world *world, const struct ehci_ask *ask, const uint8_t *out) {
    if (ask->pid == EHCI_PING || ask->toggle != world->toggle_out)
        return ehci_handshake(EHCI_ACK);
    if (world->taken + ask->out_len > sizeof world->got)
        return ehci_handshake(EHCI_NAK);
    memcpy(world->got + world->taken, out, ask->out_len);
    world->taken += ask->out_len;
    world->toggle_out = other(world->toggle_out);
    return ehci_handshake(EHCI_ACK);
}

/* The hub's translator: the result of the transaction below is there in the third microframe after the start-split. */
static struct ehci_answer translator(struct world *world, const struct ehci_ask *ask, uint8_t *data) {
    if (ask->hub != 2 || ask->port != 1 || ask->address != 5 || ask->speed != EHCI_FULL)
        return ehci_silent();
    if (ask->split == EHCI_START) {
        world->started = world->microframe;
        return ehci_silent(); /* a periodic start-split has no handshake */
    }
    if (world->started == 0 || world->microframe < world->started + 3)
        return ehci_handshake(EHCI_NYET);
    memcpy(data, report, sizeof report);
    return ehci_data(EHCI_DATA0, sizeof report);
}

static inline struct ehci_answer bus(void *user, const struct ehci_ask *ask, const uint8_t *out, uint8_t *data) {
    struct world *world = user;
    if (ask->split != EHCI_PLAIN)
        return translator(world, ask, data);
    if (ask->address != 3)
        return ehci_silent();
    switch (ask->endpoint) {
    case 0: return control(world, ask, out, data);
    case 1: return bulk_in(world, data);
    case 2: return bulk_out(world, ask, out);
    default: return ehci_silent();
    }
}

/* What a guest's driver would have written: the frame list at 0, the ring at 1000h. */
static inline void write_schedule(void) {
    for (uint32_t frame = 0; frame < 1024; frame++)
        set(4 * frame, 0x1100 | 2);
    queue_head(0x1000, 0x1042, 0x0040a000, 0x40000000, 1);      /* the head of the ring */
    queue_head(0x1040, 0x1082, 0x40406003, 0x40000000, 0x1200); /* device 3, endpoint 0: control, packets of 64, four NAKs a round */
    queue_head(0x1080, 0x10c2, 0x42002103, 0x40000000, 0x1260); /* endpoint 1: bulk IN, packets of 512 */
    queue_head(0x10c0, 0x1002, 0x42002203, 0x40000000, 0x1280); /* endpoint 2: bulk OUT */
    queue_head(0x1100, 1, 0x00080105, 0x40821c01, 0x12a0);      /* device 5, endpoint 1, behind port 1 of hub 2: start 0, complete 2 to 4 */
    qtd(0x1200, 0x1220, 8u << 16 | 0x0e80, 0x1480);              /* SETUP */
    qtd(0x1220, 0x1240, 0x80000d80 | 18u << 16, DESCRIPTOR);     /* data stage: IN of 18 bytes, DATA1 */
    qtd(0x1240, 1, 0x80008c80, 0);                               /* status stage: OUT of no bytes, DATA1, IOC */
    qtd(0x1260, 1, 600u << 16 | 0x8d80, IN_BUFFER);              /* IN, IOC */
    qtd(0x1280, 1, 700u << 16 | 0x0c80, OUT_BUFFER);             /* OUT */
    qtd(0x12a0, 1, 8u << 16 | 0x8d80, REPORT);                   /* IN, IOC */
    for (uint32_t i = 0; i < 8; i++)
        set_byte(0x1480 + i, setup[i]);
    for (uint32_t i = 0; i < 700; i++)
        set_byte(OUT_BUFFER + i, (uint8_t)(200 + i));
}

static inline void print_bytes(uint32_t at, uint32_t len) {
    for (uint32_t i = 0; i < len; i++)
        printf(" %02x", byte_at(at + i));
    printf("\n");
}

static inline bool is_same(const struct world *world) {
    bool same = world->taken == 700;
    for (uint32_t i = 0; i < 600; i++)
        same = same && byte_at(IN_BUFFER + i) == (uint8_t)i;
    for (uint32_t i = 0; i < 700; i++)
        same = same && world->got[i] == (uint8_t)(200 + i);
    return same;
}

/* In which microframe each transfer was done, and what was moved. */
static inline void print_done(const unsigned done[4], const struct world *world) {
    printf("bulk out done in microframe %u: token %08x\n", done[2], get(0x1288));
    printf("bulk in done in microframe %u: token %08x\n", done[1], get(0x1268));
    printf("control done in microframe %u:", done[0]);
    print_bytes(DESCRIPTOR, 18);
    printf("interrupt done in microframe %u:", done[3]);
    print_bytes(REPORT, 8);
    printf("bytes of both bulk endpoints: %s\n", is_same(world) ? "same" : "different");
}

#endif
