/* The proved functions of Pekdrav, for C99 and C++. Link crates/pekdrav/out/libpekdrav.a, which `rt lib` in crates/pekdrav writes.
 *
 * Every function answers whatever the memory holds and whatever the numbers are; it asks only that each pointer has the room named here, apart from that of
 * the others. None keeps a pointer, allocates or blocks. The contracts stand in crates/pekdrav. Signatures are the host's: check one before the line goes to
 * pekdrav_controller_add, and sign a line before it is sent. So is the clock: every turn is given the minute of the week.
 *
 * A view is a 64-bit word: the joined set in the low 32 bits, the left set in the high 32, bit k for controller k. Controllers are numbered 0 to 15: the
 * other bits are 0 in every view that a controller enters, and mean nothing in its fields and in a pool. */
#ifndef PEKDRAV_H
#define PEKDRAV_H

#include <stddef.h>
#include <stdint.h>

#ifdef __cplusplus
extern "C" {
#endif

/* Controllers are numbered below this. */
#define PEKDRAV_CONTROLLERS 16
/* A history has no more views, and no more candidates are told. */
#define PEKDRAV_VIEWS 16
/* A setup names no more notices; they are numbered from 0. */
#define PEKDRAV_NOTICES 64
/* A setup carries no more windows. */
#define PEKDRAV_WINDOWS 8
/* A pool has no more statements, and so has a record. */
#define PEKDRAV_STATEMENTS 512
/* The words of a pool: 151 for each statement, and their number. */
#define PEKDRAV_POOL_WORDS (151 * PEKDRAV_STATEMENTS + 1)
/* No statement's text has more bytes. */
#define PEKDRAV_TEXT_MAX 3120
/* No text of what a record shows has more bytes. */
#define PEKDRAV_SCREEN_MAX 4096
/* No service screen of a controller has more bytes. */
#define PEKDRAV_SCREEN_BYTES 32768
/* No schedule that is run has more bytes. */
#define PEKDRAV_SCHEDULE_MAX 65536
/* No schedule's rows have more bytes. */
#define PEKDRAV_ROWS_MAX 2621504

/* What pekdrav_pool_append answers where a statement got no number: the pool is full, or the line is no statement. */
#define PEKDRAV_POOL_FULL 512
#define PEKDRAV_NO_STATEMENT 513

/* What a call answers, and the number that comes with it. */
enum pekdrav_answer {
    PEKDRAV_ANSWER_TAKEN = 0,     /* 0 */
    PEKDRAV_ANSWER_SIGNED = 1,    /* the statement's number in the pool: send its text to the others */
    PEKDRAV_ANSWER_ENTERED = 2,   /* the view */
    PEKDRAV_ANSWER_DELIVERED = 3, /* the payload, and with it the notice and who stored it */
    PEKDRAV_ANSWER_LEFT = 4,      /* 0 */
    PEKDRAV_ANSWER_QUIET = 5,     /* 0 */
    PEKDRAV_ANSWER_REFUSED = 6    /* an enum pekdrav_refusal; all is as before */
};

/* What comes with an answer. */
struct pekdrav_value {
    uint64_t number;
    uint64_t notice;  /* the notice that was delivered, else 0 */
    uint64_t signers; /* who stored it, bit k for controller k: as pekdrav_record_store_set; else 0 */
};

/* Why a call is refused, by the number in the table of refusals. */
enum pekdrav_refusal {
    PEKDRAV_REFUSAL_BAD_SETUP = 1,       /* no initial member, no notice or more than 64, a number above 15, or a second setup */
    PEKDRAV_REFUSAL_BAD_STATEMENT = 2,   /* the statement breaks a field rule, or the line is none; a report has a group for each notice */
    PEKDRAV_REFUSAL_REPEATED = 3,        /* the statement is in the record */
    PEKDRAV_REFUSAL_FULL = 4,            /* record or pool is full, and one more must go in */
    PEKDRAV_REFUSAL_BAD_REQUEST = 5,     /* join by an initial member, leave before entering, send by another than the notice's sender; any of them repeated */
    PEKDRAV_REFUSAL_MANY_CANDIDATES = 6, /* on a turn, more than sixteen candidates */
    PEKDRAV_REFUSAL_CONFLICT = 7,        /* on a turn, the record contradicts itself: too many members lied */
    PEKDRAV_REFUSAL_OUT_OF_PLACE = 8,    /* any call before setup */
    PEKDRAV_REFUSAL_UNKNOWN_NOTICE = 9,  /* a statement or a send about a notice that the setup lacks */
    PEKDRAV_REFUSAL_BAD_WINDOW = 10,     /* at setup, more than 8 windows, one out of range, or one whose first minute is not below its end */
    PEKDRAV_REFUSAL_BAD_MINUTE = 11      /* on a turn, a minute above 10079 */
};

/* The kinds of statements: the first field of their text. */
enum pekdrav_kind {
    PEKDRAV_KIND_JOIN = 1,
    PEKDRAV_KIND_LEAVE = 2,
    PEKDRAV_KIND_AGREE_VIEW = 3,
    PEKDRAV_KIND_AGREE_HISTORY = 4,
    PEKDRAV_KIND_REPORT = 5,
    PEKDRAV_KIND_PREPARE = 6,
    PEKDRAV_KIND_ACK = 7,
    PEKDRAV_KIND_STORE = 8
};

/* What a controller is bound to in a notice. */
enum pekdrav_binding {
    PEKDRAV_BINDING_UNBOUND = 0,
    PEKDRAV_BINDING_BOUND = 1, /* to one payload */
    PEKDRAV_BINDING_BARRED = 2
};

/* Statements, numbered from 0 in the order in which they came. Controllers may share a pool or have one each; those that share one may not be called at
 * the same time. */
struct pekdrav_pool {
    uint64_t words[PEKDRAV_POOL_WORDS];
};

/* Statements of a pool by their numbers, in order of arrival. The first `count` count; a count above 512 counts as 512. */
struct pekdrav_record {
    uint16_t ids[PEKDRAV_STATEMENTS];
    uint16_t count;
};

/* What a controller has beside its record. Nothing is promised of what is reserved, of views after those entered, of notices and windows after those of the
 * setup and of payloads of notices that are not bound, which stand for nothing. */
struct pekdrav_fields {
    uint64_t ready; /* whether it is set up */
    uint64_t number;
    uint64_t initial; /* the initial view */
    uint64_t notice_count;
    uint64_t delivered;      /* the notices that it delivered, bit j for notice j */
    uint64_t send_requested; /* those whose send was requested */
    uint64_t join_requested;
    uint64_t leave_requested;
    uint64_t bound;  /* the notices that it is bound in, each to one payload */
    uint64_t barred; /* those that it is barred in; what is in both sets is barred */
    uint64_t window_count; /* one above 8 counts as 8 */
    uint64_t reserved_1[1];
    uint64_t entered_count;
    uint64_t reserved_2[3];
    uint64_t entered[PEKDRAV_VIEWS]; /* the views that it entered */
    uint64_t senders[PEKDRAV_NOTICES];  /* by the number of the notice, as the next two; the low eight bits count */
    uint64_t payloads[PEKDRAV_NOTICES]; /* those that it is bound to */
    uint64_t send_payloads[PEKDRAV_NOTICES];
    uint64_t windows[PEKDRAV_WINDOWS]; /* as pekdrav_window makes them */
};

/* A refused call leaves fields and record as they were. After any other the fields stand for the controller that the call leaves, and the record is as it
 * was, or has one number more, or is empty after a setup. */
struct pekdrav_controller {
    struct pekdrav_fields fields;
    struct pekdrav_record record;
};

/* What a record shows. What is not told is 0: after a conflict all but `conflict` and `wished`, with more than sixteen candidates their count and the
 * candidates, the payload of a notice without a certificate, and the places after the last view of each list. */
struct pekdrav_evidence {
    uint64_t conflict; /* whether the record contradicts itself */
    uint64_t many;     /* whether there are more than sixteen candidates */
    uint64_t wished;   /* the wished view */
    uint64_t candidate_count;
    uint64_t greatest_count;
    uint64_t certified; /* the notices that have a certificate, bit j for notice j */
    uint64_t stored;    /* those of them whose payload is stored */
    uint64_t reserved;
    uint64_t candidates[PEKDRAV_VIEWS];
    uint64_t greatest[PEKDRAV_VIEWS];   /* the views of the greatest history */
    uint64_t payloads[PEKDRAV_NOTICES]; /* of the certificates, by the number of the notice */
};

/* Whether a quorum signed, and how many statements of the record were read: all of them without a quorum, else those up to the one that completed it. */
struct pekdrav_count {
    uint64_t reached;
    uint64_t read;
};

/* Compiles only where the structs lie in memory as the library has them. */
typedef char pekdrav_layout[sizeof(struct pekdrav_value) == 3 * sizeof(uint64_t) &&
                                    sizeof(struct pekdrav_pool) == PEKDRAV_POOL_WORDS * sizeof(uint64_t) &&
                                    sizeof(struct pekdrav_record) == (PEKDRAV_STATEMENTS + 1) * sizeof(uint16_t) &&
                                    sizeof(struct pekdrav_fields) == 232 * sizeof(uint64_t) &&
                                    sizeof(struct pekdrav_evidence) == 104 * sizeof(uint64_t) &&
                                    sizeof(struct pekdrav_count) == 2 * sizeof(uint64_t)
                                ? 1
                                : -1];

/* An empty pool. */
void pekdrav_pool_clear(struct pekdrav_pool *pool);
/* The number of the statement that `line` is in a ring of that many notices, which goes to the end of the pool if it is not in it; PEKDRAV_POOL_FULL or
 * PEKDRAV_NO_STATEMENT, with the pool as it was, if it cannot. Only the words of a new statement and the number of statements are written. */
uint16_t pekdrav_pool_append(struct pekdrav_pool *pool, const uint8_t *line, size_t line_len, size_t notices);
/* Writes the text of statement `number` and answers its length; 0, with `out` as it was, if there is none or `out` is too short. */
size_t pekdrav_pool_text(const struct pekdrav_pool *pool, uint16_t number, uint8_t *out, size_t out_len);

/* Writes the statement that `line` is in a ring of that many notices and answers its length; 0, with `out` as it was, if `line` is the text of no
 * statement that keeps the field rules or `out` is too short. */
size_t pekdrav_statement_rewrite(const uint8_t *line, size_t line_len, size_t notices, uint8_t *out, size_t out_len);

/* Writes the rows of a schedule and answers their length; 0, with `rows` as they were, if they are too short. With PEKDRAV_ROWS_MAX bytes the schedule is
 * run once, with fewer it is run twice. */
size_t pekdrav_schedule_rows(const uint8_t *schedule, size_t schedule_len, uint8_t *rows, size_t rows_len);
/* Writes the service screen that controller `number` has after the last line of a schedule, as pekdrav_controller_screen does, and answers its length; 0,
 * with `out` as it was, if `out` has fewer than PEKDRAV_SCREEN_BYTES bytes or the number is above 15. */
size_t pekdrav_schedule_screen(const uint8_t *schedule, size_t schedule_len, uint8_t number, uint8_t *out, size_t out_len);

/* What any record shows in a ring of this initial view and of `count` notices with these senders; pekdrav_controller_signers, _count_.., _who_..,
 * _ack_set, _store_set and _evidence ask it of a controller. A count above 64 counts as 64. */

/* Who signed a statement of this kind, an enum pekdrav_kind, at this view: bit k for controller k. */
uint32_t pekdrav_record_signers(const struct pekdrav_record *record, const struct pekdrav_pool *pool, uint8_t kind, uint64_t at);
/* Writes what the record shows in lines, and answers the text's length; 0, with `out` as it was, if `out` has fewer than PEKDRAV_SCREEN_MAX bytes. The
 * lines: `wished,VIEW`; then `conflict` and nothing more, or `candidates,COUNT,VIEW,..` (`candidates,many` for more than sixteen), `greatest,COUNT,VIEW,..`
 * and for each notice that has a certificate `certificate,NOTICE,PAYLOAD,stored,READ` (without the notice in a ring of one; `kept` if it is not stored;
 * `certificate,none` if no notice has one). After READ statements of the record the certificate's acks were complete: the least that
 * pekdrav_record_count_acks reads, over the sealed tops at which it says yes. pekdrav_controller_screen tells more, in another form. */
size_t pekdrav_record_screen(const struct pekdrav_record *record, const struct pekdrav_pool *pool, uint64_t initial, uint8_t count,
                             const uint8_t senders[PEKDRAV_NOTICES], uint8_t *out, size_t out_len);

/* Calls as the library has them: a controller's fields and its record are two pointers, an answer is a byte, and the two arrays in which votes are gathered
 * are the caller's. Nothing has to be in these before a call, and nothing in them counts afterwards. Use the functions below. */
struct pekdrav_workspace {
    uint64_t keys[2 * PEKDRAV_STATEMENTS];
    uint64_t groups[PEKDRAV_STATEMENTS];
};
void pekdrav_raw_controller_init(struct pekdrav_fields *fields, struct pekdrav_record *record);
uint8_t pekdrav_raw_controller_setup(struct pekdrav_fields *fields, struct pekdrav_record *record, uint8_t number, uint16_t members, uint8_t count,
                                     const uint8_t senders[PEKDRAV_NOTICES], uint8_t window_count, const uint64_t windows[PEKDRAV_WINDOWS],
                                     struct pekdrav_value *value);
uint8_t pekdrav_raw_controller_join(struct pekdrav_fields *fields, struct pekdrav_value *value);
uint8_t pekdrav_raw_controller_leave(struct pekdrav_fields *fields, struct pekdrav_value *value);
uint8_t pekdrav_raw_controller_send(struct pekdrav_fields *fields, uint8_t notice, uint64_t payload, struct pekdrav_value *value);
uint8_t pekdrav_raw_controller_add(const struct pekdrav_fields *fields, struct pekdrav_record *record, struct pekdrav_pool *pool, const uint8_t *line,
                                   size_t line_len, struct pekdrav_value *value);
uint8_t pekdrav_raw_controller_turn(struct pekdrav_fields *fields, struct pekdrav_record *record, struct pekdrav_pool *pool,
                                    uint64_t keys[2 * PEKDRAV_STATEMENTS], uint64_t groups[PEKDRAV_STATEMENTS], uint16_t minute,
                                    struct pekdrav_value *value);
void pekdrav_raw_record_evidence(const struct pekdrav_record *record, const struct pekdrav_pool *pool, uint64_t initial, uint8_t count,
                                 const uint8_t senders[PEKDRAV_NOTICES], uint64_t keys[2 * PEKDRAV_STATEMENTS], uint64_t groups[PEKDRAV_STATEMENTS],
                                 struct pekdrav_evidence *out);
/* Of kind 3 those count who agreed at `at` to the view `what`; of 4 to the first `len` of `views`, and nobody to more than sixteen; of 7 and 8 who signed ack
 * and store at `at` of the notice for the payload `what`. Of any other kind nobody does. Writes all of `out`. */
void pekdrav_raw_record_count(const struct pekdrav_record *record, const struct pekdrav_pool *pool, uint8_t kind, uint8_t notice, uint64_t at,
                              uint64_t what, const uint64_t views[PEKDRAV_VIEWS], size_t len, struct pekdrav_count *out);
/* Answers 1; or 0, with `out` as it was, where no report is judged. */
uint8_t pekdrav_raw_record_count_reports(const struct pekdrav_record *record, const struct pekdrav_pool *pool, uint64_t initial, uint8_t count,
                                         const uint8_t senders[PEKDRAV_NOTICES], uint64_t keys[2 * PEKDRAV_STATEMENTS],
                                         uint64_t groups[PEKDRAV_STATEMENTS], uint64_t view, struct pekdrav_count *out);
/* The same questions, answered by all members of `at` that signed. */
uint32_t pekdrav_raw_record_who(const struct pekdrav_record *record, const struct pekdrav_pool *pool, uint8_t kind, uint8_t notice, uint64_t at,
                                uint64_t what, const uint64_t views[PEKDRAV_VIEWS], size_t len);
/* Answers 1; or 0, with `out` as it was, where no report is judged. */
uint8_t pekdrav_raw_record_who_reported(const struct pekdrav_record *record, const struct pekdrav_pool *pool, uint64_t initial, uint8_t count,
                                        const uint8_t senders[PEKDRAV_NOTICES], uint64_t keys[2 * PEKDRAV_STATEMENTS],
                                        uint64_t groups[PEKDRAV_STATEMENTS], uint64_t view, uint32_t *out);
uint32_t pekdrav_raw_record_ack_set(const struct pekdrav_record *record, const struct pekdrav_pool *pool, uint64_t initial, uint8_t count,
                                    const uint8_t senders[PEKDRAV_NOTICES], uint64_t keys[2 * PEKDRAV_STATEMENTS],
                                    uint64_t groups[PEKDRAV_STATEMENTS], uint8_t notice, uint64_t payload);
uint32_t pekdrav_raw_record_store_set(const struct pekdrav_record *record, const struct pekdrav_pool *pool, uint64_t initial, uint8_t count,
                                      const uint8_t senders[PEKDRAV_NOTICES], uint64_t keys[2 * PEKDRAV_STATEMENTS],
                                      uint64_t groups[PEKDRAV_STATEMENTS], uint8_t notice, uint64_t payload);
size_t pekdrav_raw_controller_screen(const struct pekdrav_fields *fields, const struct pekdrav_record *record, const struct pekdrav_pool *pool,
                                     uint64_t keys[2 * PEKDRAV_STATEMENTS], uint64_t groups[PEKDRAV_STATEMENTS], uint8_t *out, size_t out_len);

#ifdef __cplusplus
}
#endif

/* The view with these sets, and the sets of a view. It is written as eight hexadecimal digits, four of the joined set and four of the left. */
static inline uint64_t pekdrav_view(uint32_t joined, uint32_t left) { return (uint64_t)left << 32 | joined; }
static inline uint32_t pekdrav_view_joined(uint64_t view) { return (uint32_t)view; }
static inline uint32_t pekdrav_view_left(uint64_t view) { return (uint32_t)(view >> 32); }

/* The window of a weekday, 0 to 6, from its first minute on and before its end, 0 to 1440; and these numbers of a window. It is a 64-bit word: the weekday in
 * the low 16 bits, the first minute in the next 16, the end in the high 32. */
static inline uint64_t pekdrav_window(uint16_t weekday, uint16_t first, uint16_t end) {
    return (uint64_t)end << 32 | (uint64_t)first << 16 | weekday;
}
static inline uint16_t pekdrav_window_weekday(uint64_t window) { return (uint16_t)window; }
static inline uint16_t pekdrav_window_first(uint64_t window) { return (uint16_t)(window >> 16); }
static inline uint32_t pekdrav_window_end(uint64_t window) { return (uint32_t)(window >> 32); }

/* All that a record shows in a ring of this initial view and of `count` notices, of which 64 count at most, with these senders. Writes all of `out`. */
static inline void pekdrav_record_evidence(const struct pekdrav_record *record, const struct pekdrav_pool *pool, uint64_t initial, uint8_t count,
                                           const uint8_t senders[PEKDRAV_NOTICES], struct pekdrav_evidence *out) {
    struct pekdrav_workspace work;
    pekdrav_raw_record_evidence(record, pool, initial, count, senders, work.keys, work.groups, out);
}

/* A count that is about no history. */
static inline struct pekdrav_count pekdrav_raw_record_count_of(const struct pekdrav_record *record, const struct pekdrav_pool *pool, uint8_t kind,
                                                               uint8_t notice, uint64_t at, uint64_t what) {
    static const uint64_t none[PEKDRAV_VIEWS] = {0};
    struct pekdrav_count out;
    pekdrav_raw_record_count(record, pool, kind, notice, at, what, none, 0, &out);
    return out;
}

/* Whether a quorum of `at` signed, and after how many statements of the record: the count ends with the signer who completes it. Only members of `at` count,
 * each once, and a view without members has no quorum. Views are compared as whole words. */

/* Who agreed to this view. */
static inline struct pekdrav_count pekdrav_record_count_agree_view(const struct pekdrav_record *record, const struct pekdrav_pool *pool, uint64_t at,
                                                                   uint64_t view) {
    return pekdrav_raw_record_count_of(record, pool, PEKDRAV_KIND_AGREE_VIEW, 0, at, view);
}

/* Who agreed to the history of these `n` views; nobody agreed to more than sixteen. */
static inline struct pekdrav_count pekdrav_record_count_agree_history(const struct pekdrav_record *record, const struct pekdrav_pool *pool, uint64_t at,
                                                                      const uint64_t *views, size_t n) {
    uint64_t listed[PEKDRAV_VIEWS] = {0};
    struct pekdrav_count out;
    for (size_t i = 0; i < n && i < PEKDRAV_VIEWS; i++) {
        listed[i] = views[i];
    }
    pekdrav_raw_record_count(record, pool, PEKDRAV_KIND_AGREE_HISTORY, 0, at, 0, listed, n, &out);
    return out;
}

/* Who acknowledged this payload of the notice. */
static inline struct pekdrav_count pekdrav_record_count_acks(const struct pekdrav_record *record, const struct pekdrav_pool *pool, uint64_t at,
                                                             uint8_t notice, uint64_t payload) {
    return pekdrav_raw_record_count_of(record, pool, PEKDRAV_KIND_ACK, notice, at, payload);
}

/* Who stored it. */
static inline struct pekdrav_count pekdrav_record_count_stores(const struct pekdrav_record *record, const struct pekdrav_pool *pool, uint64_t at,
                                                               uint8_t notice, uint64_t payload) {
    return pekdrav_raw_record_count_of(record, pool, PEKDRAV_KIND_STORE, notice, at, payload);
}

/* Who has counted reports on `view`, in a ring of this initial view and of `count` notices with these senders. Answers whether it was told: not, with `out` as
 * it was, where a turn would be refused with PEKDRAV_REFUSAL_CONFLICT or _MANY_CANDIDATES, since no report is judged then. */
static inline int pekdrav_record_count_reports(const struct pekdrav_record *record, const struct pekdrav_pool *pool, uint64_t initial, uint8_t count,
                                               const uint8_t senders[PEKDRAV_NOTICES], uint64_t view, struct pekdrav_count *out) {
    struct pekdrav_workspace work;
    return pekdrav_raw_record_count_reports(record, pool, initial, count, senders, work.keys, work.groups, view, out);
}

/* A set that is about no history. */
static inline uint32_t pekdrav_raw_record_who_of(const struct pekdrav_record *record, const struct pekdrav_pool *pool, uint8_t kind, uint8_t notice,
                                                 uint64_t at, uint64_t what) {
    static const uint64_t none[PEKDRAV_VIEWS] = {0};
    return pekdrav_raw_record_who(record, pool, kind, notice, at, what, none, 0);
}

/* All members of `at` that signed, bit k for controller k, also those after the signer with whom the count ends: that count says yes exactly where the set
 * makes a quorum. */

/* Who agreed to this view. */
static inline uint32_t pekdrav_record_who_agreed_view(const struct pekdrav_record *record, const struct pekdrav_pool *pool, uint64_t at, uint64_t view) {
    return pekdrav_raw_record_who_of(record, pool, PEKDRAV_KIND_AGREE_VIEW, 0, at, view);
}

/* Who agreed to the history of these `n` views; nobody agreed to more than sixteen. */
static inline uint32_t pekdrav_record_who_agreed_history(const struct pekdrav_record *record, const struct pekdrav_pool *pool, uint64_t at,
                                                         const uint64_t *views, size_t n) {
    uint64_t listed[PEKDRAV_VIEWS] = {0};
    for (size_t i = 0; i < n && i < PEKDRAV_VIEWS; i++) {
        listed[i] = views[i];
    }
    return pekdrav_raw_record_who(record, pool, PEKDRAV_KIND_AGREE_HISTORY, 0, at, 0, listed, n);
}

/* Who acknowledged this payload of the notice at `at`. */
static inline uint32_t pekdrav_record_who_acked(const struct pekdrav_record *record, const struct pekdrav_pool *pool, uint64_t at, uint8_t notice,
                                                uint64_t payload) {
    return pekdrav_raw_record_who_of(record, pool, PEKDRAV_KIND_ACK, notice, at, payload);
}

/* Who stored it there. */
static inline uint32_t pekdrav_record_who_stored(const struct pekdrav_record *record, const struct pekdrav_pool *pool, uint64_t at, uint8_t notice,
                                                 uint64_t payload) {
    return pekdrav_raw_record_who_of(record, pool, PEKDRAV_KIND_STORE, notice, at, payload);
}

/* Who has counted reports on `view`. Answers whether it was told, as pekdrav_record_count_reports. */
static inline int pekdrav_record_who_reported(const struct pekdrav_record *record, const struct pekdrav_pool *pool, uint64_t initial, uint8_t count,
                                              const uint8_t senders[PEKDRAV_NOTICES], uint64_t view, uint32_t *out) {
    struct pekdrav_workspace work;
    return pekdrav_raw_record_who_reported(record, pool, initial, count, senders, work.keys, work.groups, view, out);
}

/* Who acknowledged this payload of the notice at the least sealed top, as written, that has a certificate for it; nobody if none has. */
static inline uint32_t pekdrav_record_ack_set(const struct pekdrav_record *record, const struct pekdrav_pool *pool, uint64_t initial, uint8_t count,
                                              const uint8_t senders[PEKDRAV_NOTICES], uint8_t notice, uint64_t payload) {
    struct pekdrav_workspace work;
    return pekdrav_raw_record_ack_set(record, pool, initial, count, senders, work.keys, work.groups, notice, payload);
}

/* Who stored it at the least sealed top, as written, of which a quorum did; nobody if there is none. */
static inline uint32_t pekdrav_record_store_set(const struct pekdrav_record *record, const struct pekdrav_pool *pool, uint64_t initial, uint8_t count,
                                                const uint8_t senders[PEKDRAV_NOTICES], uint8_t notice, uint64_t payload) {
    struct pekdrav_workspace work;
    return pekdrav_raw_record_store_set(record, pool, initial, count, senders, work.keys, work.groups, notice, payload);
}

/* A controller before its setup. */
static inline void pekdrav_controller_init(struct pekdrav_controller *controller) {
    pekdrav_raw_controller_init(&controller->fields, &controller->record);
}

/* Starts controller `number` in the ring of these initial members, bit k for controller k, and of `count` notices with these senders. It leaves only in one
 * of the first `window_count` windows, which may overlap, or at any time if there are none. */
static inline enum pekdrav_answer pekdrav_controller_setup(struct pekdrav_controller *controller, uint8_t number, uint16_t members, uint8_t count,
                                                           const uint8_t senders[PEKDRAV_NOTICES], uint8_t window_count,
                                                           const uint64_t windows[PEKDRAV_WINDOWS], struct pekdrav_value *value) {
    return (enum pekdrav_answer)pekdrav_raw_controller_setup(&controller->fields, &controller->record, number, members, count, senders, window_count,
                                                             windows, value);
}

/* Note a request, which a later turn acts on; the record has no part in it. */
static inline enum pekdrav_answer pekdrav_controller_join(struct pekdrav_controller *controller, struct pekdrav_value *value) {
    return (enum pekdrav_answer)pekdrav_raw_controller_join(&controller->fields, value);
}

static inline enum pekdrav_answer pekdrav_controller_leave(struct pekdrav_controller *controller, struct pekdrav_value *value) {
    return (enum pekdrav_answer)pekdrav_raw_controller_leave(&controller->fields, value);
}

static inline enum pekdrav_answer pekdrav_controller_send(struct pekdrav_controller *controller, uint8_t notice, uint64_t payload,
                                                          struct pekdrav_value *value) {
    return (enum pekdrav_answer)pekdrav_raw_controller_send(&controller->fields, notice, payload, value);
}

/* Adds the statement that the line is in the controller's ring, once the host has checked its signature. */
static inline enum pekdrav_answer pekdrav_controller_add(struct pekdrav_controller *controller, struct pekdrav_pool *pool, const uint8_t *line,
                                                         size_t line_len, struct pekdrav_value *value) {
    return (enum pekdrav_answer)pekdrav_raw_controller_add(&controller->fields, &controller->record, pool, line, line_len, value);
}

/* Does the first step that the rules allow in this minute of the week, 0 to 10079: 1440 for each weekday before, and the minute of the day. */
static inline enum pekdrav_answer pekdrav_controller_turn(struct pekdrav_controller *controller, struct pekdrav_pool *pool, uint16_t minute,
                                                          struct pekdrav_value *value) {
    struct pekdrav_workspace work;
    return (enum pekdrav_answer)pekdrav_raw_controller_turn(&controller->fields, &controller->record, pool, work.keys, work.groups, minute, value);
}

/* Whether it delivered this notice, and whether a send of it was requested; no for a notice that the setup lacks. */
static inline int pekdrav_controller_delivered(const struct pekdrav_controller *controller, uint8_t notice) {
    return notice < PEKDRAV_NOTICES && (controller->fields.delivered >> notice & 1);
}

static inline int pekdrav_controller_send_requested(const struct pekdrav_controller *controller, uint8_t notice) {
    return notice < PEKDRAV_NOTICES && (controller->fields.send_requested >> notice & 1);
}

/* What it is bound to in this notice; `payloads` has the payload. It is unbound in a notice above 63. */
static inline enum pekdrav_binding pekdrav_controller_binding(const struct pekdrav_controller *controller, uint8_t notice) {
    if (notice >= PEKDRAV_NOTICES) {
        return PEKDRAV_BINDING_UNBOUND;
    }
    if (controller->fields.barred >> notice & 1) {
        return PEKDRAV_BINDING_BARRED;
    }
    return controller->fields.bound >> notice & 1 ? PEKDRAV_BINDING_BOUND : PEKDRAV_BINDING_UNBOUND;
}

/* What the controller's record shows in its ring, as the functions of a record tell it. */
static inline uint32_t pekdrav_controller_signers(const struct pekdrav_controller *controller, const struct pekdrav_pool *pool, enum pekdrav_kind kind,
                                                  uint64_t at) {
    return pekdrav_record_signers(&controller->record, pool, (uint8_t)kind, at);
}

static inline struct pekdrav_count pekdrav_controller_count_agree_view(const struct pekdrav_controller *controller, const struct pekdrav_pool *pool,
                                                                       uint64_t at, uint64_t view) {
    return pekdrav_record_count_agree_view(&controller->record, pool, at, view);
}

static inline struct pekdrav_count pekdrav_controller_count_agree_history(const struct pekdrav_controller *controller, const struct pekdrav_pool *pool,
                                                                          uint64_t at, const uint64_t *views, size_t n) {
    return pekdrav_record_count_agree_history(&controller->record, pool, at, views, n);
}

static inline struct pekdrav_count pekdrav_controller_count_acks(const struct pekdrav_controller *controller, const struct pekdrav_pool *pool, uint64_t at,
                                                                 uint8_t notice, uint64_t payload) {
    return pekdrav_record_count_acks(&controller->record, pool, at, notice, payload);
}

static inline struct pekdrav_count pekdrav_controller_count_stores(const struct pekdrav_controller *controller, const struct pekdrav_pool *pool, uint64_t at,
                                                                   uint8_t notice, uint64_t payload) {
    return pekdrav_record_count_stores(&controller->record, pool, at, notice, payload);
}

static inline uint32_t pekdrav_controller_who_agreed_view(const struct pekdrav_controller *controller, const struct pekdrav_pool *pool, uint64_t at,
                                                          uint64_t view) {
    return pekdrav_record_who_agreed_view(&controller->record, pool, at, view);
}

static inline uint32_t pekdrav_controller_who_agreed_history(const struct pekdrav_controller *controller, const struct pekdrav_pool *pool, uint64_t at,
                                                             const uint64_t *views, size_t n) {
    return pekdrav_record_who_agreed_history(&controller->record, pool, at, views, n);
}

static inline uint32_t pekdrav_controller_who_acked(const struct pekdrav_controller *controller, const struct pekdrav_pool *pool, uint64_t at,
                                                    uint8_t notice, uint64_t payload) {
    return pekdrav_record_who_acked(&controller->record, pool, at, notice, payload);
}

static inline uint32_t pekdrav_controller_who_stored(const struct pekdrav_controller *controller, const struct pekdrav_pool *pool, uint64_t at,
                                                     uint8_t notice, uint64_t payload) {
    return pekdrav_record_who_stored(&controller->record, pool, at, notice, payload);
}

/* The senders of the controller's notices, and how many they are. */
static inline uint8_t pekdrav_controller_senders(const struct pekdrav_controller *controller, uint8_t senders[PEKDRAV_NOTICES]) {
    for (int j = 0; j < PEKDRAV_NOTICES; j++) {
        senders[j] = (uint8_t)controller->fields.senders[j];
    }
    return controller->fields.notice_count < PEKDRAV_NOTICES ? (uint8_t)controller->fields.notice_count : PEKDRAV_NOTICES;
}

static inline int pekdrav_controller_count_reports(const struct pekdrav_controller *controller, const struct pekdrav_pool *pool, uint64_t view,
                                                   struct pekdrav_count *out) {
    uint8_t senders[PEKDRAV_NOTICES];
    uint8_t count = pekdrav_controller_senders(controller, senders);
    return pekdrav_record_count_reports(&controller->record, pool, controller->fields.initial, count, senders, view, out);
}

static inline int pekdrav_controller_who_reported(const struct pekdrav_controller *controller, const struct pekdrav_pool *pool, uint64_t view,
                                                  uint32_t *out) {
    uint8_t senders[PEKDRAV_NOTICES];
    uint8_t count = pekdrav_controller_senders(controller, senders);
    return pekdrav_record_who_reported(&controller->record, pool, controller->fields.initial, count, senders, view, out);
}

static inline uint32_t pekdrav_controller_ack_set(const struct pekdrav_controller *controller, const struct pekdrav_pool *pool, uint8_t notice,
                                                  uint64_t payload) {
    uint8_t senders[PEKDRAV_NOTICES];
    uint8_t count = pekdrav_controller_senders(controller, senders);
    return pekdrav_record_ack_set(&controller->record, pool, controller->fields.initial, count, senders, notice, payload);
}

static inline uint32_t pekdrav_controller_store_set(const struct pekdrav_controller *controller, const struct pekdrav_pool *pool, uint8_t notice,
                                                    uint64_t payload) {
    uint8_t senders[PEKDRAV_NOTICES];
    uint8_t count = pekdrav_controller_senders(controller, senders);
    return pekdrav_record_store_set(&controller->record, pool, controller->fields.initial, count, senders, notice, payload);
}

static inline void pekdrav_controller_evidence(const struct pekdrav_controller *controller, const struct pekdrav_pool *pool,
                                               struct pekdrav_evidence *out) {
    uint8_t senders[PEKDRAV_NOTICES];
    uint8_t count = pekdrav_controller_senders(controller, senders);
    pekdrav_record_evidence(&controller->record, pool, controller->fields.initial, count, senders, out);
}

/* Writes the controller's service screen and answers the text's length; 0, with `out` as it was, if `out` has fewer than PEKDRAV_SCREEN_BYTES bytes. Each line
 * ends with a newline, and no byte ends the text. A view is written as its eight digits and a set of controllers as four; NUMBERS are those of a set or of a
 * view's members, rising, each after a space. The lines:
 *
 * `not set up` and nothing more; or `controller K`;
 * `left`, `stands in VIEW: NUMBERS`, `entered VIEW: NUMBERS` (the last that it entered) or `entered nothing`;
 * `wished VIEW: NUMBERS`;
 * `candidates VIEW ..`, `candidates: more than 16` or `conflict`;
 * for each notice `notice I: ` and four parts with `; ` between them, after a conflict the first and the last alone: `unbound`, `bound to M` or `barred`;
 * `no certificate` or `certificate for M acked by SET: NUMBERS` (pekdrav_record_ack_set); `not stored` or `stored by SET: NUMBERS` (pekdrav_record_store_set);
 * `not delivered` or `delivered`;
 * then `turns are refused with 7` or `6`; or `waits to enter VIEW for reports on VIEW from SET: NUMBERS` for each view that lacks a quorum of counted reports,
 * with its members that have none, and `waits for a window to leave`; or `waits for nothing`. */
static inline size_t pekdrav_controller_screen(const struct pekdrav_controller *controller, const struct pekdrav_pool *pool, uint8_t *out,
                                               size_t out_len) {
    struct pekdrav_workspace work;
    return pekdrav_raw_controller_screen(&controller->fields, &controller->record, pool, work.keys, work.groups, out, out_len);
}

#endif
