/* What include/pekdrav.h adds to the library: each member of its structs is the word that the library has there, and each wrapper makes its call. */
#include <stddef.h>
#include <stdio.h>
#include <string.h>

#include "pekdrav.h"

static int failed;

static void check(int holds, int line) {
    if (!holds) {
        printf("header.c:%d does not hold\n", line);
        failed = 1;
    }
}

#define CHECK(claim) check(claim, __LINE__)

/* A ring of controller 3 alone, who is the sender of notice 1; notice 0 is sent by 1. */
static struct pekdrav_controller controller, joiner;
static struct pekdrav_pool pool;
static const char join_line[] = "1,1,00000000,00000000,0,0,0,0,0,0";
static const uint8_t senders[PEKDRAV_NOTICES] = {1, 3};
static const uint64_t no_windows[PEKDRAV_WINDOWS] = {0};

/* The minute of the week in which the turns are made that do not look at it. */
static const uint16_t now = 5000;

static const uint8_t *bytes(const char *text) { return (const uint8_t *)text; }

static void check_setup(void) {
    const struct pekdrav_fields *fields = &controller.fields;
    struct pekdrav_value value;
    pekdrav_pool_clear(&pool);
    pekdrav_controller_init(&controller);
    CHECK(pekdrav_controller_turn(&controller, &pool, now, &value) == PEKDRAV_ANSWER_REFUSED && value.number == PEKDRAV_REFUSAL_OUT_OF_PLACE);
    CHECK(pekdrav_controller_setup(&controller, 16, 8, 2, senders, 0, no_windows, &value) == PEKDRAV_ANSWER_REFUSED && value.number == PEKDRAV_REFUSAL_BAD_SETUP);
    CHECK(pekdrav_controller_setup(&controller, 3, 8, 0, senders, 0, no_windows, &value) == PEKDRAV_ANSWER_REFUSED && value.number == PEKDRAV_REFUSAL_BAD_SETUP);
    CHECK(pekdrav_controller_setup(&controller, 3, 8, 65, senders, 0, no_windows, &value) == PEKDRAV_ANSWER_REFUSED && value.number == PEKDRAV_REFUSAL_BAD_SETUP);
    CHECK(!fields->ready);
    CHECK(pekdrav_controller_setup(&controller, 3, 8, 2, senders, 0, no_windows, &value) == PEKDRAV_ANSWER_TAKEN && value.number == 0);
    CHECK(fields->ready && fields->number == 3 && fields->initial == pekdrav_view(8, 0) && fields->notice_count == 2);
    CHECK(fields->senders[0] == 1 && fields->senders[1] == 3 && fields->window_count == 0);
    CHECK(fields->entered_count == 1 && fields->entered[0] == pekdrav_view(8, 0));
    CHECK(pekdrav_controller_binding(&controller, 1) == PEKDRAV_BINDING_UNBOUND && !pekdrav_controller_delivered(&controller, 1));
    CHECK(controller.record.count == 0);
}

/* Each number of a window has its bits, and the words of a controller have their places. */
static void check_window(void) {
    uint64_t window = pekdrav_window(6, 480, 1440);
    CHECK(window == UINT64_C(0x000005a001e00006));
    CHECK(pekdrav_window_weekday(window) == 6 && pekdrav_window_first(window) == 480 && pekdrav_window_end(window) == 1440);
    CHECK(pekdrav_window(0xffff, 0, 0) == UINT64_C(0xffff) && pekdrav_window(0, 0xffff, 0) == UINT64_C(0xffff0000));
    CHECK(pekdrav_window(0, 0, 0xffff) == UINT64_C(0xffff00000000) && pekdrav_window_end(UINT64_MAX) == UINT32_MAX);
    CHECK(pekdrav_window_weekday(UINT64_MAX) == 0xffff && pekdrav_window_first(UINT64_MAX) == 0xffff);
    CHECK(offsetof(struct pekdrav_fields, window_count) == 10 * sizeof(uint64_t));
    CHECK(offsetof(struct pekdrav_fields, entered_count) == 12 * sizeof(uint64_t));
    CHECK(offsetof(struct pekdrav_fields, windows) == 224 * sizeof(uint64_t));
}

/* What a setup of controller 3 with these windows answers: 0 if it is taken, else the refusal. */
static uint64_t setup_with(struct pekdrav_controller *host, uint16_t members, uint8_t window_count, const uint64_t *windows) {
    struct pekdrav_value value;
    enum pekdrav_answer answer = pekdrav_controller_setup(host, 3, members, 2, senders, window_count, windows, &value);
    return answer == PEKDRAV_ANSWER_TAKEN ? 0 : answer == PEKDRAV_ANSWER_REFUSED ? value.number : UINT64_MAX;
}

/* Setups refused for their windows; the first 8 alone are read. */
static void check_bad_windows(void) {
    static const uint64_t end_above[PEKDRAV_WINDOWS] = {UINT64_C(1441) << 32};
    static const uint64_t end_high[PEKDRAV_WINDOWS] = {UINT64_C(0x10001) << 32};
    static struct pekdrav_controller host;
    uint64_t windows[PEKDRAV_WINDOWS];
    pekdrav_controller_init(&host);
    for (int i = 0; i < PEKDRAV_WINDOWS; i++) {
        windows[i] = pekdrav_window(2, 480, 540);
    }
    CHECK(setup_with(&host, 8, PEKDRAV_WINDOWS + 1, windows) == PEKDRAV_REFUSAL_BAD_WINDOW);
    CHECK(setup_with(&host, 8, 255, windows) == PEKDRAV_REFUSAL_BAD_WINDOW && setup_with(&host, 0, 9, windows) == PEKDRAV_REFUSAL_BAD_SETUP);
    CHECK(setup_with(&host, 8, 1, end_above) == PEKDRAV_REFUSAL_BAD_WINDOW && setup_with(&host, 8, 1, end_high) == PEKDRAV_REFUSAL_BAD_WINDOW);
    windows[7] = pekdrav_window(7, 480, 540);
    CHECK(setup_with(&host, 8, 8, windows) == PEKDRAV_REFUSAL_BAD_WINDOW);
    windows[7] = pekdrav_window(6, 540, 540);
    CHECK(setup_with(&host, 8, 8, windows) == PEKDRAV_REFUSAL_BAD_WINDOW && !host.fields.ready);
    CHECK(setup_with(&host, 8, 7, windows) == 0 && host.fields.ready && host.fields.window_count == 7);
    CHECK(setup_with(&host, 8, 8, windows) == PEKDRAV_REFUSAL_BAD_SETUP);
}

/* A leave outside its windows and inside, in a ring of controller 3 alone: weekday 2 from 480 to 540, and the last minute of the week. */
static void check_windows(void) {
    static struct pekdrav_controller host;
    static struct pekdrav_pool leaves;
    uint64_t windows[PEKDRAV_WINDOWS] = {pekdrav_window(2, 480, 540), pekdrav_window(6, 1439, 1440)};
    static const uint16_t outside[] = {0, 480, 3359, 3420, 4800, 10078};
    static const uint16_t inside[] = {3360, 3419, 10079};
    struct pekdrav_value value;
    for (int i = 0; i < 3; i++) {
        pekdrav_pool_clear(&leaves);
        pekdrav_controller_init(&host);
        CHECK(setup_with(&host, 8, 2, windows) == 0);
        CHECK(host.fields.window_count == 2 && host.fields.windows[0] == windows[0] && host.fields.windows[1] == windows[1]);
        CHECK(pekdrav_controller_leave(&host, &value) == PEKDRAV_ANSWER_TAKEN);
        for (int j = 0; j < 6; j++) {
            CHECK(pekdrav_controller_turn(&host, &leaves, outside[j], &value) == PEKDRAV_ANSWER_QUIET);
        }
        CHECK(pekdrav_controller_turn(&host, &leaves, 10080, &value) == PEKDRAV_ANSWER_REFUSED && value.number == PEKDRAV_REFUSAL_BAD_MINUTE);
        CHECK(pekdrav_controller_turn(&host, &leaves, 65535, &value) == PEKDRAV_ANSWER_REFUSED && value.number == PEKDRAV_REFUSAL_BAD_MINUTE);
        CHECK(pekdrav_controller_turn(&host, &leaves, inside[i], &value) == PEKDRAV_ANSWER_SIGNED && value.number == 0);
    }
    /* A stored count above 8 counts as 8. */
    pekdrav_controller_init(&host);
    for (int i = 0; i < PEKDRAV_WINDOWS; i++) {
        windows[i] = pekdrav_window(0, (uint16_t)i, (uint16_t)(i + 1));
    }
    CHECK(setup_with(&host, 8, PEKDRAV_WINDOWS, windows) == 0 && pekdrav_controller_leave(&host, &value) == PEKDRAV_ANSWER_TAKEN);
    CHECK(host.fields.window_count == PEKDRAV_WINDOWS && memcmp(host.fields.windows, windows, sizeof windows) == 0);
    pekdrav_pool_clear(&leaves);
    host.fields.window_count = UINT64_MAX;
    CHECK(pekdrav_controller_turn(&host, &leaves, 8, &value) == PEKDRAV_ANSWER_QUIET);
    CHECK(pekdrav_controller_turn(&host, &leaves, 7, &value) == PEKDRAV_ANSWER_SIGNED);
}

static void check_requests(void) {
    struct pekdrav_value value;
    pekdrav_controller_init(&joiner);
    pekdrav_controller_setup(&joiner, 1, 8, 2, senders, 0, no_windows, &value);
    CHECK(pekdrav_controller_leave(&joiner, &value) == PEKDRAV_ANSWER_REFUSED && value.number == PEKDRAV_REFUSAL_BAD_REQUEST);
    CHECK(pekdrav_controller_join(&joiner, &value) == PEKDRAV_ANSWER_TAKEN);
    CHECK(joiner.fields.join_requested && !joiner.fields.leave_requested && !pekdrav_controller_send_requested(&joiner, 0));
    CHECK(pekdrav_controller_send(&controller, 2, 7, &value) == PEKDRAV_ANSWER_REFUSED && value.number == PEKDRAV_REFUSAL_UNKNOWN_NOTICE);
    CHECK(pekdrav_controller_send(&controller, 0, 7, &value) == PEKDRAV_ANSWER_REFUSED && value.number == PEKDRAV_REFUSAL_BAD_REQUEST);
    CHECK(pekdrav_controller_send(&controller, 1, 7, &value) == PEKDRAV_ANSWER_TAKEN);
    CHECK(pekdrav_controller_send_requested(&controller, 1) && controller.fields.send_payloads[1] == 7);
    CHECK(!pekdrav_controller_send_requested(&controller, 0) && !controller.fields.join_requested);
}

static void check_turns(void) {
    uint8_t text[PEKDRAV_TEXT_MAX];
    struct pekdrav_value value;
    for (uint64_t number = 0; number < 3; number++) {
        CHECK(pekdrav_controller_turn(&controller, &pool, now, &value) == PEKDRAV_ANSWER_SIGNED && value.number == number);
    }
    CHECK(pekdrav_pool_text(&pool, 0, text, sizeof text) == 33 && memcmp(text, "6,3,00000000,00000000,1,0,7,0,0,0", 33) == 0);
    CHECK(controller.fields.bound == 2 && controller.fields.barred == 0 && controller.fields.payloads[1] == 7);
    CHECK(pekdrav_controller_binding(&controller, 1) == PEKDRAV_BINDING_BOUND && pekdrav_controller_binding(&controller, 0) == PEKDRAV_BINDING_UNBOUND);
    CHECK(pekdrav_controller_turn(&controller, &pool, now, &value) == PEKDRAV_ANSWER_DELIVERED && value.number == 7 && value.notice == 1 && value.signers == 8);
    CHECK(pekdrav_controller_delivered(&controller, 1) && !pekdrav_controller_delivered(&controller, 0));
    CHECK(controller.record.count == 3 && controller.record.ids[2] == 2);
    CHECK(pekdrav_controller_turn(&controller, &pool, now, &value) == PEKDRAV_ANSWER_QUIET && value.notice == 0 && value.signers == 0);
    CHECK(pekdrav_controller_leave(&controller, &value) == PEKDRAV_ANSWER_TAKEN && controller.fields.leave_requested);
}

static void check_record(void) {
    static const char screen[] = "wished,000a0000\ncandidates,1,00080000\ngreatest,1,00080000\ncertificate,1,7,stored,2\n";
    struct pekdrav_evidence told;
    uint8_t text[PEKDRAV_SCREEN_MAX];
    struct pekdrav_value value;
    uint64_t initial = pekdrav_view(8, 0);
    CHECK(pekdrav_controller_add(&controller, &pool, bytes(join_line), strlen(join_line), &value) == PEKDRAV_ANSWER_TAKEN);
    pekdrav_controller_evidence(&controller, &pool, &told);
    CHECK(!told.conflict && !told.many && pekdrav_view_joined(told.wished) == 10 && pekdrav_view_left(told.wished) == 0);
    CHECK(told.candidate_count == 1 && told.candidates[0] == initial && told.candidates[1] == 0);
    CHECK(told.greatest_count == 1 && told.greatest[0] == initial);
    CHECK(told.certified == 2 && told.payloads[1] == 7 && told.payloads[0] == 0 && told.stored == 2);
    CHECK(pekdrav_controller_signers(&controller, &pool, PEKDRAV_KIND_ACK, initial) == 8);
    CHECK(pekdrav_controller_signers(&controller, &pool, PEKDRAV_KIND_REPORT, initial) == 0);
    CHECK(pekdrav_record_screen(&controller.record, &pool, initial, 2, senders, text, sizeof text) == strlen(screen));
    CHECK(memcmp(text, screen, strlen(screen)) == 0);
}

/* Whether a controller's service screen is this text, in memory of which no byte after it is written; and nothing is written into less memory. */
static int shows(const struct pekdrav_controller *host, const struct pekdrav_pool *statements, const char *expected) {
    static uint8_t text[PEKDRAV_SCREEN_BYTES], untouched[PEKDRAV_SCREEN_BYTES];
    size_t length;
    memset(text, 0xa5, sizeof text);
    memset(untouched, 0xa5, sizeof untouched);
    if (pekdrav_controller_screen(host, statements, text, sizeof text - 1) != 0 || memcmp(text, untouched, sizeof text) != 0) {
        return 0;
    }
    length = pekdrav_controller_screen(host, statements, text, sizeof text);
    if (length != strlen(expected) || memcmp(text, expected, length) != 0) {
        printf("%.*s", (int)length, (const char *)text);
        return 0;
    }
    return memcmp(text + length, untouched, sizeof text - length) == 0;
}

/* The screens of a controller before its setup, of the one of the other checks, and of one that waits for a window. */
static void check_screen(void) {
    static struct pekdrav_controller host;
    static struct pekdrav_pool empty;
    uint64_t windows[PEKDRAV_WINDOWS] = {pekdrav_window(2, 480, 540)};
    struct pekdrav_value value;
    pekdrav_pool_clear(&empty);
    pekdrav_controller_init(&host);
    CHECK(shows(&host, &empty, "not set up\n"));
    CHECK(setup_with(&host, 8, 1, windows) == 0 && pekdrav_controller_leave(&host, &value) == PEKDRAV_ANSWER_TAKEN);
    CHECK(shows(&host, &empty,
                "controller 3\nstands in 00080000: 3\nwished 00080000: 3\ncandidates 00080000\n"
                "notice 0: unbound; no certificate; not stored; not delivered\nnotice 1: unbound; no certificate; not stored; not delivered\n"
                "waits for a window to leave\n"));
    CHECK(shows(&controller, &pool,
                "controller 3\nstands in 00080000: 3\nwished 000a0000: 1 3\ncandidates 00080000\n"
                "notice 0: unbound; no certificate; not stored; not delivered\n"
                "notice 1: bound to 7; certificate for 7 acked by 0008: 3; stored by 0008: 3; delivered\nwaits for nothing\n"));
}

/* The screens after a schedule; nothing is written for a controller that there is not. */
static void check_schedule_screen(void) {
    static const char line[] = "setup,0001,1,0,0000,0\nsend,0,0,7\nturn,0,0\n";
    static const char first[] = "controller 0\nstands in 00010000: 0\nwished 00010000: 0\ncandidates 00010000\n"
                                "notice 0: unbound; no certificate; not stored; not delivered\nwaits for nothing\n";
    static uint8_t text[PEKDRAV_SCREEN_BYTES];
    CHECK(pekdrav_schedule_screen(bytes(line), strlen(line), 0, text, sizeof text) == strlen(first));
    CHECK(memcmp(text, first, strlen(first)) == 0);
    memset(text, 0xa5, sizeof text);
    CHECK(pekdrav_schedule_screen(bytes(line), strlen(line), 16, text, sizeof text) == 0 && text[0] == 0xa5);
    CHECK(pekdrav_schedule_screen(bytes(line), strlen(line), 255, text, sizeof text) == 0 && text[0] == 0xa5);
    CHECK(pekdrav_schedule_screen(bytes(line), strlen(line), 0, text, sizeof text - 1) == 0 && text[0] == 0xa5);
    CHECK(pekdrav_schedule_screen(bytes(""), 0, 15, text, sizeof text) == 11 && memcmp(text, "not set up\n", 11) == 0);
}

/* Any memory is some controller's: counts above their limits count as these, and the text has room. */
static void check_any_screen(void) {
    static struct pekdrav_controller host;
    static uint8_t text[PEKDRAV_SCREEN_BYTES];
    size_t length;
    memset(&host, 0xff, sizeof host);
    length = pekdrav_controller_screen(&host, &pool, text, sizeof text);
    CHECK(length > 0 && length <= sizeof text && text[length - 1] == '\n');
    host.record.count = 0;
    length = pekdrav_controller_screen(&host, &pool, text, sizeof text);
    CHECK(length > 0 && length <= sizeof text && text[length - 1] == '\n');
}

static int is_count(struct pekdrav_count count, uint64_t reached, uint64_t read) { return count.reached == reached && count.read == read; }

/* The controller's record: its prepare, ack and store of notice 1, and the join of 1. */
static void check_counts(void) {
    static const uint64_t views[17] = {8};
    struct pekdrav_count out = {5, 6};
    uint64_t initial = pekdrav_view(8, 0), wider = pekdrav_view(10, 0);
    CHECK(is_count(pekdrav_controller_count_acks(&controller, &pool, initial, 1, 7), 1, 2));
    CHECK(is_count(pekdrav_controller_count_stores(&controller, &pool, initial, 1, 7), 1, 3));
    CHECK(is_count(pekdrav_controller_count_acks(&controller, &pool, initial, 0, 7), 0, 4));
    CHECK(is_count(pekdrav_controller_count_acks(&controller, &pool, initial, 1, 8), 0, 4));
    CHECK(is_count(pekdrav_controller_count_stores(&controller, &pool, wider, 1, 7), 0, 4));
    CHECK(is_count(pekdrav_controller_count_agree_view(&controller, &pool, initial, wider), 0, 4));
    CHECK(is_count(pekdrav_controller_count_agree_history(&controller, &pool, initial, views, 1), 0, 4));
    CHECK(is_count(pekdrav_controller_count_agree_history(&controller, &pool, initial, views, 17), 0, 4));
    CHECK(pekdrav_controller_count_reports(&controller, &pool, initial, &out) && is_count(out, 0, 4));
    for (int kind = 0; kind < 256; kind++) {
        pekdrav_raw_record_count(&controller.record, &pool, (uint8_t)kind, 1, initial, 7, views, 1, &out);
        CHECK(kind == PEKDRAV_KIND_ACK ? is_count(out, 1, 2) : kind == PEKDRAV_KIND_STORE ? is_count(out, 1, 3) : is_count(out, 0, 4));
    }
}

/* The same record: who signed what the counts are of. */
static void check_who(void) {
    static const uint64_t views[17] = {8};
    uint32_t out = 5;
    uint64_t initial = pekdrav_view(8, 0), wider = pekdrav_view(10, 0);
    CHECK(pekdrav_controller_who_acked(&controller, &pool, initial, 1, 7) == 8 && pekdrav_controller_who_stored(&controller, &pool, initial, 1, 7) == 8);
    CHECK(pekdrav_controller_who_acked(&controller, &pool, initial, 0, 7) == 0 && pekdrav_controller_who_acked(&controller, &pool, initial, 1, 8) == 0);
    CHECK(pekdrav_controller_who_stored(&controller, &pool, wider, 1, 7) == 0);
    CHECK(pekdrav_controller_who_agreed_view(&controller, &pool, initial, wider) == 0);
    CHECK(pekdrav_controller_who_agreed_history(&controller, &pool, initial, views, 1) == 0);
    CHECK(pekdrav_controller_who_agreed_history(&controller, &pool, initial, views, 17) == 0);
    CHECK(pekdrav_controller_who_reported(&controller, &pool, initial, &out) && out == 0);
    CHECK(pekdrav_controller_ack_set(&controller, &pool, 1, 7) == 8 && pekdrav_controller_store_set(&controller, &pool, 1, 7) == 8);
    CHECK(pekdrav_controller_ack_set(&controller, &pool, 0, 7) == 0 && pekdrav_controller_store_set(&controller, &pool, 1, 8) == 0);
    CHECK(pekdrav_controller_ack_set(&controller, &pool, 2, 7) == 0 && pekdrav_controller_store_set(&controller, &pool, 255, 7) == 0);
    for (int kind = 0; kind < 256; kind++) {
        uint32_t signers = pekdrav_raw_record_who(&controller.record, &pool, (uint8_t)kind, 1, initial, 7, views, 1);
        CHECK(signers == (kind == PEKDRAV_KIND_ACK || kind == PEKDRAV_KIND_STORE ? 8u : 0u));
    }
}

/* Votes of controller 3, who is a quorum of its view by itself: for two views, of which the second is then not comparable, and for a history. */
static void check_votes(void) {
    static const char *const lines[] = {
        "1,0,00000000,00000000,0,0,0,0,0,0",
        "1,1,00000000,00000000,0,0,0,0,0,0",
        "3,3,00080000,000a0000,0,0,0,0,0,0",
        "4,3,00080000,00000000,0,0,0,0,0,2,00080000,000a0000",
        "5,3,00080000,00080000,0,0,0,0,0,1,00080000",
        "3,3,00080000,00090000,0,0,0,0,0,0",
    };
    static struct pekdrav_pool votes;
    struct pekdrav_record record = {{0, 1, 2, 3, 4, 5}, 5};
    struct pekdrav_count out;
    uint32_t signers;
    uint64_t initial = pekdrav_view(8, 0), wider = pekdrav_view(10, 0);
    uint64_t views[17] = {initial, wider};
    pekdrav_pool_clear(&votes);
    for (int i = 0; i < 6; i++) {
        CHECK(pekdrav_pool_append(&votes, bytes(lines[i]), strlen(lines[i]), 1) == i);
    }
    CHECK(is_count(pekdrav_record_count_agree_view(&record, &votes, initial, wider), 1, 3));
    CHECK(is_count(pekdrav_record_count_agree_history(&record, &votes, initial, views, 2), 1, 4));
    CHECK(is_count(pekdrav_record_count_agree_history(&record, &votes, initial, views, 1), 0, 5));
    CHECK(is_count(pekdrav_record_count_agree_history(&record, &votes, initial, views, 17), 0, 5));
    CHECK(is_count(pekdrav_record_count_agree_view(&record, &votes, initial | (uint64_t)1 << 20, wider), 0, 5));
    CHECK(pekdrav_record_count_reports(&record, &votes, initial, 1, senders, initial, &out) && is_count(out, 1, 5));
    CHECK(pekdrav_record_count_reports(&record, &votes, initial, 1, senders, wider, &out) && is_count(out, 0, 5));
    CHECK(pekdrav_record_who_agreed_view(&record, &votes, initial, wider) == 8 && pekdrav_record_who_agreed_view(&record, &votes, wider, wider) == 0);
    CHECK(pekdrav_record_who_agreed_view(&record, &votes, initial | (uint64_t)1 << 20, wider) == 0);
    CHECK(pekdrav_record_who_agreed_history(&record, &votes, initial, views, 2) == 8);
    CHECK(pekdrav_record_who_agreed_history(&record, &votes, initial, views, 1) == 0);
    CHECK(pekdrav_record_who_agreed_history(&record, &votes, initial, views, 17) == 0);
    CHECK(pekdrav_record_who_reported(&record, &votes, initial, 1, senders, initial, &signers) && signers == 8);
    CHECK(pekdrav_record_who_reported(&record, &votes, initial, 1, senders, wider, &signers) && signers == 0);
    signers = 5;
    record.count = 6;
    CHECK(!pekdrav_record_count_reports(&record, &votes, initial, 1, senders, initial, &out) && is_count(out, 0, 5));
    CHECK(!pekdrav_record_who_reported(&record, &votes, initial, 1, senders, initial, &signers) && signers == 5);
}

/* Two sealed tops that are not comparable: the sets are those at the least as written, whose word is the greater. 3 prepares, acknowledges and stores. */
static void check_least_top(void) {
    static const char *const lines[] = {
        "1,0,00000000,00000000,0,0,0,0,0,0",
        "1,1,00000000,00000000,0,0,0,0,0,0",
        "1,4,00000000,00000000,0,0,0,0,0,0",
        "2,1,00000000,00000000,0,0,0,0,0,0",
        "3,3,00080000,00180000,0,0,0,0,0,0",
        "4,3,00080000,00000000,0,0,0,0,0,2,00080000,00180000",
        "3,3,00080000,000b0002,0,0,0,0,0,0",
        "4,3,00080000,00000000,0,0,0,0,0,2,00080000,000b0002",
        "7,3,00180000,00000000,0,0,7,0,0,0",
        "7,4,00180000,00000000,0,0,7,0,0,0",
        "8,3,00180000,00000000,0,0,7,0,0,0",
        "8,4,00180000,00000000,0,0,7,0,0,0",
        "7,3,000b0002,00000000,0,0,7,0,0,0",
        "7,0,000b0002,00000000,0,0,7,0,0,0",
        "7,1,000b0002,00000000,0,0,7,0,0,0",
        "8,0,000b0002,00000000,0,0,7,0,0,0",
        "6,3,00000000,00000000,0,0,7,0,0,0",
        "8,3,000b0002,00000000,0,0,7,0,0,0",
    };
    static const uint8_t sender[PEKDRAV_NOTICES] = {3};
    static struct pekdrav_pool votes;
    struct pekdrav_record record = {{0}, 16};
    uint64_t initial = pekdrav_view(8, 0);
    pekdrav_pool_clear(&votes);
    for (int i = 0; i < 18; i++) {
        CHECK(pekdrav_pool_append(&votes, bytes(lines[i]), strlen(lines[i]), 1) == i);
        record.ids[i] = (uint16_t)i;
    }
    CHECK(pekdrav_record_ack_set(&record, &votes, initial, 1, sender, 0, 7) == 0);
    CHECK(pekdrav_record_store_set(&record, &votes, initial, 1, sender, 0, 7) == 0x18);
    record.count = 18;
    CHECK(pekdrav_record_ack_set(&record, &votes, initial, 1, sender, 0, 7) == 9);
    CHECK(pekdrav_record_store_set(&record, &votes, initial, 1, sender, 0, 7) == 9);
    CHECK(pekdrav_record_ack_set(&record, &votes, initial, 1, senders, 0, 7) == 0 && pekdrav_record_ack_set(&record, &votes, initial, 0, sender, 0, 7) == 0);
    CHECK(pekdrav_record_who_acked(&record, &votes, pekdrav_view(11, 2), 0, 7) == 9 && pekdrav_record_who_stored(&record, &votes, initial, 0, 7) == 0);
}

/* A vote for a history of sixteen views, the most there are: one view more or less is another that nobody voted for. */
static void check_longest(void) {
    static struct pekdrav_pool votes;
    struct pekdrav_record record = {{0}, 1};
    uint64_t views[PEKDRAV_VIEWS + 1] = {pekdrav_view(8, 0)};
    char line[256];
    int length = snprintf(line, sizeof line, "4,3,00080000,00000000,0,0,0,0,0,16,00080000");
    uint32_t joined = 8;
    for (int i = 1; i < PEKDRAV_VIEWS; i++) {
        joined |= joined + 1;
        views[i] = pekdrav_view(joined, 0);
        length += snprintf(line + length, sizeof line - (size_t)length, ",%04x0000", (unsigned)joined);
    }
    pekdrav_pool_clear(&votes);
    CHECK(pekdrav_pool_append(&votes, bytes(line), (size_t)length, 1) == 0);
    CHECK(is_count(pekdrav_record_count_agree_history(&record, &votes, views[0], views, 16), 1, 1));
    CHECK(is_count(pekdrav_record_count_agree_history(&record, &votes, views[0], views, 17), 0, 1));
    CHECK(is_count(pekdrav_record_count_agree_history(&record, &votes, views[0], views, 15), 0, 1));
    CHECK(pekdrav_record_who_agreed_history(&record, &votes, views[0], views, 16) == 8);
    CHECK(pekdrav_record_who_agreed_history(&record, &votes, views[0], views, 17) == 0);
    CHECK(pekdrav_record_who_agreed_history(&record, &votes, views[0], views, 15) == 0);
}

static void check_pool(void) {
    static const char report_line[] = "5,3,00080000,00080000,0,0,0,0,0,1,7,1,7,1,00080000";
    char line[64];
    uint8_t rows[64];
    CHECK(pekdrav_pool_append(&pool, bytes(join_line), strlen(join_line), 2) == 3);
    CHECK(pekdrav_pool_append(&pool, bytes("1,1"), 3, 2) == PEKDRAV_NO_STATEMENT);
    CHECK(pekdrav_pool_append(&pool, bytes(report_line), strlen(report_line), 1) == PEKDRAV_NO_STATEMENT);
    CHECK(pekdrav_pool_append(&pool, bytes(report_line), strlen(report_line), 2) == 4);
    for (int payload = 0; payload < PEKDRAV_STATEMENTS - 5; payload++) {
        int length = snprintf(line, sizeof line, "7,3,00080000,00000000,0,0,%d,0,0,0", payload);
        CHECK(pekdrav_pool_append(&pool, bytes(line), (size_t)length, 2) == payload + 5);
    }
    CHECK(pekdrav_pool_append(&pool, bytes("2,1,00000000,00000000,0,0,0,0,0,0"), 33, 2) == PEKDRAV_POOL_FULL);
    CHECK(pekdrav_statement_rewrite(bytes(join_line), strlen(join_line), 2, rows, sizeof rows) == strlen(join_line));
    CHECK(pekdrav_schedule_rows(bytes(""), 0, rows, sizeof rows) == strlen("line,who,answer,value\n0,16,refused,8\n"));
}

/* Over a pool of votes that all differ: the library works within the memory that it is lent, whatever that held. */
static void check_workspace(void) {
    static struct {
        uint64_t before[8];
        struct pekdrav_workspace work;
        uint64_t after[8];
    } lent;
    static struct pekdrav_record all;
    static uint8_t text[PEKDRAV_SCREEN_BYTES];
    struct pekdrav_evidence told, again;
    struct pekdrav_count reports;
    uint32_t signers;
    uint64_t initial = pekdrav_view(8, 0);
    memset(&lent, 0xa5, sizeof lent);
    for (uint16_t number = 0; number < PEKDRAV_STATEMENTS; number++) {
        all.ids[number] = number;
    }
    all.count = PEKDRAV_STATEMENTS;
    pekdrav_raw_record_evidence(&all, &pool, initial, 2, senders, lent.work.keys, lent.work.groups, &told);
    pekdrav_record_evidence(&all, &pool, initial, 2, senders, &again);
    CHECK(told.certified == 2 && told.payloads[1] == 7 && memcmp(&told, &again, sizeof told) == 0);
    CHECK(pekdrav_raw_record_count_reports(&all, &pool, initial, 2, senders, lent.work.keys, lent.work.groups, initial, &reports));
    CHECK(is_count(reports, 1, 5));
    CHECK(pekdrav_raw_record_who_reported(&all, &pool, initial, 2, senders, lent.work.keys, lent.work.groups, initial, &signers) && signers == 8);
    CHECK(pekdrav_raw_record_ack_set(&all, &pool, initial, 2, senders, lent.work.keys, lent.work.groups, 1, 7) == 8);
    CHECK(pekdrav_raw_record_store_set(&all, &pool, initial, 2, senders, lent.work.keys, lent.work.groups, 1, 7) == 8);
    CHECK(pekdrav_raw_controller_screen(&controller.fields, &all, &pool, lent.work.keys, lent.work.groups, text, sizeof text) > 0);
    for (int i = 0; i < 8; i++) {
        CHECK(lent.before[i] == 0xa5a5a5a5a5a5a5a5 && lent.after[i] == 0xa5a5a5a5a5a5a5a5);
    }
}

int main(void) {
    check_window();
    check_bad_windows();
    check_windows();
    check_setup();
    check_requests();
    check_turns();
    check_record();
    check_screen();
    check_schedule_screen();
    check_counts();
    check_who();
    check_votes();
    check_least_top();
    check_longest();
    check_pool();
    check_workspace();
    check_any_screen();
    return failed;
}
