/* ehci_bus.h: a microframe over a bus that is a C function; plain C above ehci.h, nothing of it is proved. */
#ifndef EHCI_BUS_H
#define EHCI_BUS_H

#include "ehci.h"

#include <string.h>

enum { EHCI_MOST_ANSWERS = 512, EHCI_MOST_EVENTS = 100000 };

/* What the bus answers to one transaction: it puts the bytes of a data packet into `data` (1,024 of room), and needn't set `start`. It is
 * called once for each transaction, in their order. */
typedef struct ehci_answer ehci_bus(void *user, const struct ehci_ask *, const uint8_t *out, uint8_t *data);

static inline struct ehci_answer ehci_silent(void) {
    struct ehci_answer answer = {EHCI_SILENT, 0, 0, 0};
    return answer;
}

static inline struct ehci_answer ehci_handshake(uint8_t pid) {
    struct ehci_answer answer = {EHCI_HANDSHAKE, pid, 0, 0};
    return answer;
}

static inline struct ehci_answer ehci_data(uint8_t pid, uint16_t len) {
    struct ehci_answer answer = {EHCI_DATA, pid, len, 0};
    return answer;
}

/* Makes one microframe, and answers as ehci_microframe does. EHCI_WANTS_BUS: there were more transactions than EHCI_MOST_ANSWERS, or more
 * bytes than there is room for; then nothing changed. */
static inline uint32_t ehci_microframe_on(struct ehci *hc, uint32_t *words, size_t n, ehci_bus *bus, void *user, uint32_t *events) {
    struct ehci_answer answers[EHCI_MOST_ANSWERS];
    uint8_t bytes[32 * 1024], out[1024];
    struct ehci_ask ask;
    size_t count = 0;
    uint32_t len = 0;
    memset(&ask, 0, sizeof ask);
    for (;;) {
        uint32_t made = EHCI_MOST_EVENTS;
        uint32_t ran = ehci_microframe(hc, words, n, answers, count, bytes, len, &made, &ask, out, sizeof out);
        if (ran != EHCI_WANTS_BUS || count == EHCI_MOST_ANSWERS || len + 1024 > sizeof bytes) {
            *events = made;
            return ran;
        }
        answers[count] = bus(user, &ask, out, bytes + len);
        answers[count].start = len;
        len += answers[count].kind == EHCI_DATA ? answers[count].len : 0;
        count++;
    }
}

/* Makes one event of a bus that answers at once, and answers as ehci_step does. */
static inline uint32_t ehci_step_on(struct ehci_whole *hc, uint32_t *words, size_t n, ehci_bus *bus, void *user) {
    struct ehci_answer answer = ehci_silent();
    uint8_t bytes[1024], out[1024];
    struct ehci_ask ask;
    memset(&ask, 0, sizeof ask);
    bytes[0] = 0;
    uint32_t kind = ehci_step(hc, words, n, &answer, 0, bytes, 0, &ask, out, sizeof out);
    if (kind != EHCI_STEP_WANTS_BUS)
        return kind;
    answer = bus(user, &ask, out, bytes);
    answer.start = 0;
    return ehci_step(hc, words, n, &answer, 1, bytes, sizeof bytes, &ask, out, sizeof out);
}

/* Makes events to the end of the microframe, or as many as are allowed, of a bus that answers at once, and answers as ehci_run does;
 * `*events` tells how many were made. */
static inline uint32_t ehci_run_on(struct ehci_whole *hc, uint32_t *words, size_t n, ehci_bus *bus, void *user, uint32_t *events) {
    struct ehci_answer answer = ehci_silent();
    uint8_t bytes[1024], out[1024];
    struct ehci_ask ask;
    uint32_t left = *events;
    size_t used, count = 0;
    memset(&ask, 0, sizeof ask);
    bytes[0] = 0;
    for (;;) {
        uint32_t made = left;
        uint32_t ran = ehci_run(hc, words, n, &answer, count, bytes, sizeof bytes, &made, &used, &ask, out, sizeof out);
        left -= made;
        if (ran != EHCI_STEP_WANTS_BUS) {
            *events -= left;
            return ran;
        }
        answer = bus(user, &ask, out, bytes);
        answer.start = 0;
        count = 1;
    }
}

#endif
