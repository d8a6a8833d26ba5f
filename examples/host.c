/* Two controllers in one program: what one signs, the other is given. Each sends one notice, and both deliver both. `host.rs` is the same host in Rust.
 *
 *     (cd crates/pekdrav && rt lib)
 *     cc -Iinclude examples/host.c crates/pekdrav/out/libpekdrav.a -o crates/pekdrav/out/host && crates/pekdrav/out/host
 */
#include <inttypes.h>
#include <stdio.h>

#include "pekdrav.h"

/* A controller with a pool of its own. */
struct seat {
    struct pekdrav_controller controller;
    struct pekdrav_pool pool;
};

static struct seat ring[2];

/* A host would sign this text and send it; here it goes straight to the other controller. */
static void pass_on(int from, uint64_t number) {
    uint8_t text[PEKDRAV_TEXT_MAX];
    struct pekdrav_value value;
    size_t length = pekdrav_pool_text(&ring[from].pool, (uint16_t)number, text, sizeof text);
    struct seat *to = &ring[1 - from];
    printf("%d signed %.*s\n", from, (int)length, (const char *)text);
    pekdrav_controller_add(&to->controller, &to->pool, text, length, &value);
}

/* What was delivered, who stored it, and after how many statements of its record the controller had the stores of a quorum. */
static void tell(int k, const struct pekdrav_value *value) {
    const struct pekdrav_controller *controller = &ring[k].controller;
    struct pekdrav_count stores =
        pekdrav_controller_count_stores(controller, &ring[k].pool, controller->fields.initial, (uint8_t)value->notice, value->number);
    printf("%d delivered %" PRIu64 ", notice %" PRIu64 ", stored by", k, value->number, value->notice);
    for (int signer = 0; signer < PEKDRAV_CONTROLLERS; signer++) {
        if (value->signers >> signer & 1) {
            printf(" %d", signer);
        }
    }
    printf(" after %" PRIu64 " statements\n", stores.read);
}

/* The minute of the week, which a host has from its clock; here it is always 9:30 of weekday 2. Only leaves depend on it, and here nobody leaves. */
static uint16_t minute_of_the_week(void) { return 2 * 1440 + 9 * 60 + 30; }

/* One turn. Answers 0 where there was nothing to do. */
static int turn(int k) {
    struct pekdrav_value value;
    switch (pekdrav_controller_turn(&ring[k].controller, &ring[k].pool, minute_of_the_week(), &value)) {
    case PEKDRAV_ANSWER_SIGNED:
        pass_on(k, value.number);
        return 1;
    case PEKDRAV_ANSWER_ENTERED:
        printf("%d entered %04" PRIx32 "%04" PRIx32 "\n", k, pekdrav_view_joined(value.number), pekdrav_view_left(value.number));
        return 1;
    case PEKDRAV_ANSWER_DELIVERED:
        tell(k, &value);
        return 1;
    case PEKDRAV_ANSWER_REFUSED:
        printf("%d refused %" PRIu64 "\n", k, value.number);
        return 0;
    default:
        return 0;
    }
}

int main(void) {
    /* Notice 0 is sent by controller 0, notice 1 by controller 1. */
    static const uint8_t senders[PEKDRAV_NOTICES] = {0, 1};
    /* Who asks to leave may do so on weekday 2 from 8:00 to 12:00. */
    const uint64_t windows[PEKDRAV_WINDOWS] = {pekdrav_window(2, 480, 720)};
    struct pekdrav_value value;
    for (int k = 0; k < 2; k++) {
        pekdrav_pool_clear(&ring[k].pool);
        pekdrav_controller_init(&ring[k].controller);
        pekdrav_controller_setup(&ring[k].controller, (uint8_t)k, 0x0003, 2, senders, 1, windows, &value);
    }
    pekdrav_controller_send(&ring[0].controller, 0, 7, &value);
    pekdrav_controller_send(&ring[1].controller, 1, 8, &value);
    while (turn(0) | turn(1)) {
    }
    /* What the screen of a service engineer shows of controller 0. */
    static uint8_t screen[PEKDRAV_SCREEN_BYTES];
    size_t length = pekdrav_controller_screen(&ring[0].controller, &ring[0].pool, screen, sizeof screen);
    printf("%.*s", (int)length, (const char *)screen);
    return 0;
}
