/*
 * bad_use: what careless callers do. Slices of wrong lengths for every exported function, an `out` that is too short by
 * any number of bytes, numbers that are no case of their enum, texts that are too long or no UTF-8, and NULL for every
 * pointer of the inline functions. Each answer is checked, and that whatever is not accepted leaves every lent byte as
 * it was. Every slice ends at a page that may not be touched.
 *
 * The last line has the number of tests and of failures; the exit status is 1 where there are failures.
 */
#include "slices.h"

static unsigned long tests, failures;

static size_t call_named(const char *name)
{
    for (size_t k = 0; k < CALLS; k++) {
        if (strcmp(calls[k].name, name) == 0) {
            return k;
        }
    }
    fprintf(stderr, "there is no call %s\n", name);
    exit(2);
}

static void check(bool holds, const char *what)
{
    tests++;
    if (!holds) {
        failures++;
        if (failures <= 20) {
            printf("FAILED: %s: %s\n", where, what);
        }
    }
}

/* What the numbers that a call tells are, where there is nothing to tell: 0. Those of other calls are not touched. */
static void check_told(const call *c, bool nothing)
{
    static const size_t places[] = {COUNT, VALUE, FIRST, SECOND, CASE, BEGUN};
    static const unsigned bits[] = {TELLS_COUNT, TELLS_VALUE, TELLS_TWO, TELLS_TWO, TELLS_CASE, TELLS_BEGUN};
    for (size_t i = 0; i < sizeof places / sizeof places[0]; i++) {
        if ((c->told & bits[i]) == 0) {
            check(slice_same(places[i]), slices[places[i]].name);
        } else if (nothing) {
            check(number_at(places[i]) == 0, slices[places[i]].name);
        }
    }
}

/* Makes the call; its answer has to be this one, and to change nothing. */
static void refused(size_t k, uint32_t answer)
{
    slices_keep();
    check(calls[k].make() == answer, "the answer");
    check(slices_changed() == SLICES, "a slice has changed");
    check(slices_overrun() == SLICES, "written before a slice");
    check_told(&calls[k], true);
}

/* What is wrong about a call is only so where it is otherwise accepted. */
static void try_good(size_t k)
{
    const call *const c = &calls[k];
    snprintf(where, sizeof where, "%s, nothing wrong", c->name);
    slices_lend();
    slices_keep();
    check(c->make() == c->good, "the answer");
    check(slices_overrun() == SLICES, "written before a slice");
    check_told(c, false);
    if ((c->told & TELLS_COUNT) != 0) {
        check(number_at(COUNT) == c->writes, "the count");
    }
    check(slice_same(TEXT), "the text that was handed in");
    if (c->good != BOZTERRUN_ACCEPTED) {
        check(slices_changed() == SLICES, "a slice has changed");
    }
}

static void try_lengths(size_t k)
{
    const call *const c = &calls[k];
    for (size_t i = HANDSHAKE; i <= TEXTS; i++) {
        const size_t usual = slices[i].usual;
        const size_t wrong[] = {0, 1, usual / 2, usual - 1, usual + 1, 2 * usual};
        for (size_t j = 0; (c->lent >> i & 1) != 0 && j < sizeof wrong / sizeof wrong[0]; j++) {
            snprintf(where, sizeof where, "%s with %zu elements of %s", c->name, wrong[j], slices[i].name);
            slices_lend();
            slice_lend(i, wrong[j]);
            refused(k, BOZTERRUN_BAD_STATE);
        }
    }
}

static void try_short_out(size_t k)
{
    const call *const c = &calls[k];
    const size_t which = k == call_named("next_request") ? BUFFER : OUT;
    const bool begins = k == call_named("handshake_new"); /* a fresh handshake, refused or not */
    for (size_t length = 0; length < c->writes; length++) {
        snprintf(where, sizeof where, "%s with %zu bytes of %s", c->name, length, slices[which].name);
        slices_lend();
        if (begins) {
            memset(slice_data(HANDSHAKE), 0x5a, slice_bytes(&slices[HANDSHAKE]));
            memset(slice_data(NAME), 0x5a, slice_bytes(&slices[NAME]));
        }
        slice_lend(which, length);
        if (!begins) {
            refused(k, BOZTERRUN_SHORT_OUT);
            continue;
        }
        slices_keep();
        check(c->make() == BOZTERRUN_SHORT_OUT, "the answer");
        check(number_at(COUNT) == 0, "the count");
        check(slice_same(OUT), "out has changed");
        check(call_handshake_name() == BOZTERRUN_ACCEPTED, "the handshake has not begun");
    }
    if (c->writes > 0) {
        snprintf(where, sizeof where, "%s with as many bytes of %s as it writes", c->name, slices[which].name);
        slices_lend();
        slice_lend(which, c->writes);
        check(c->make() == c->good, "the answer");
    }
}

/* Numbers that are no case of their enum, alone and together with a slice that is too short. */
static void try_number(const char *name, uint64_t (*set)(uint64_t), const uint64_t *bad, size_t count)
{
    const size_t k = call_named(name);
    const arguments good = with;
    for (size_t i = 0; i < count; i++) {
        with = good;
        const uint64_t value = set(bad[i]);
        for (size_t j = 0; j < 2; j++) {
            snprintf(where, sizeof where, "%s with the number %" PRIu64 "%s", name, value,
                     j == 0 ? "" : " and short slices");
            slices_lend();
            if (j == 1) {
                slice_lend(calls[k].lent & 1 << HANDSHAKE ? HANDSHAKE : CONTROL, 3);
                slice_lend(OUT, 0);
            }
            refused(k, BOZTERRUN_BAD_ARGUMENT);
        }
    }
    with = good;
}

#define SET(field, type) \
    static uint64_t set_##field(uint64_t n) \
    { \
        with.field = (type)n; \
        return with.field; \
    }
SET(state, uint32_t)
SET(context_type, uint32_t)
SET(device_type, uint32_t)
SET(reason, uint32_t)
SET(given, uint32_t)
SET(opcode, uint32_t)
SET(capability, uint64_t)

static void try_numbers(void)
{
#define TRY(name, field, ...) \
    do { \
        static const uint64_t bad[] = {__VA_ARGS__}; \
        try_number(name, set_##field, bad, sizeof bad / sizeof bad[0]); \
    } while (0)
#define HIGH 255, 256, 65536, 1U << 31, UINT32_MAX
    TRY("button_button", state, 2, 3, HIGH);
    TRY("keyboard_key", state, 2, 3, HIGH);
    TRY("text_keysym", state, 2, 3, HIGH);
    TRY("handshake_context_type", context_type, 0, 3, HIGH);
    TRY("add_device", device_type, 0, 3, HIGH);
    TRY("disconnected", reason, 6, 7, HIGH);
    TRY("add_seat", given, 2, 3, HIGH);
    TRY("add_device", given, 2, 3, HIGH);
    TRY("disconnected", given, 2, 3, HIGH);
    TRY("unexpected_handshake", opcode, 5, 6, HIGH);
    TRY("interface_release", capability, 0, 3, 5, 127, 128, 192, HIGH, 1ULL << 32, 1ULL << 63, UINT64_MAX);
    TRY("has_capability", capability, 0, 3, 5, 127, 128, 192, HIGH, 1ULL << 32, 1ULL << 63, UINT64_MAX);
}

/* ---- Reads ---- */

static void put_number(size_t record, size_t place, uint64_t n)
{
    memcpy(slice_data(RECORDS) + 8 * (BOZTERRUN_RECORD_LENGTH * record + place), &n, 8);
}

/* The usual read, each time with one thing wrong, alone and together with a session that is too short. */
static void try_bad_read(const char *what, uint64_t n, uint32_t answer, void (*spoil)(uint64_t))
{
    const size_t k = call_named("handle_requests");
    for (size_t j = 0; j < 2; j++) {
        snprintf(where, sizeof where, "handle_requests with %s %" PRIu64 "%s", what, n,
                 j == 0 ? "" : " and short slices");
        slices_lend();
        spoil(n);
        if (j == 1) {
            slice_lend(CONTROL, 3);
            slice_lend(OUT, 0);
        }
        refused(k, j == 1 && answer != BOZTERRUN_BAD_ARGUMENT ? BOZTERRUN_BAD_STATE : answer);
    }
}

enum { AT_REQUEST, AT_OBJECT, AT_VERSION, AT_FIRST, AT_SECOND, AT_THIRD, AT_START, AT_LENGTH };

static void first_request(uint64_t n) { put_number(READ_SYNC, AT_REQUEST, n); }
static void last_request(uint64_t n) { put_number(READ_TEXT, AT_REQUEST, n); }
static void key_state(uint64_t n) { put_number(READ_KEY, AT_SECOND, n); }

static void button_state(uint64_t n)
{
    put_number(READ_KEY, AT_REQUEST, BOZTERRUN_READ_BUTTON_BUTTON);
    put_number(READ_KEY, AT_SECOND, n);
}

static void keysym_state(uint64_t n)
{
    put_number(READ_KEY, AT_REQUEST, BOZTERRUN_READ_TEXT_KEYSYM);
    put_number(READ_KEY, AT_SECOND, n);
}

/* Slices of other lengths: the records are whole and as many as the points, or nothing is tried. */
static void words_of_records(uint64_t n) { slice_lend(RECORDS, (size_t)n); }
static void reals_of_points(uint64_t n) { slice_lend(POINTS, (size_t)n); }

/* The text comes first, with a part past the end of the 20 bytes. */
static void text_first(uint64_t start, uint64_t length)
{
    put_number(READ_SYNC, AT_REQUEST, BOZTERRUN_READ_TEXT_UTF8);
    put_number(READ_SYNC, AT_START, start);
    put_number(READ_SYNC, AT_LENGTH, length);
}

static void part_from(uint64_t n) { text_first(n, 2); }
static void part_of(uint64_t n) { text_first(2, n); }

static void try_reads(void)
{
    static const uint64_t requests[] = {36, 37, 255, 256, 1ULL << 32, (1ULL << 32) + 5, 1ULL << 63, UINT64_MAX};
    static const uint64_t states[] = {2, 3, 255, 256, 1ULL << 32, (1ULL << 32) + 1, 1ULL << 63, UINT64_MAX};
    static const uint64_t starts[] = {19, 20, 21, 1ULL << 32, UINT64_MAX - 1, UINT64_MAX};
    static const uint64_t lengths[] = {19, 20, 1ULL << 32, UINT64_MAX - 1, UINT64_MAX};
    for (size_t i = 0; i < sizeof requests / sizeof requests[0]; i++) {
        try_bad_read("a first request", requests[i], BOZTERRUN_BAD_ARGUMENT, first_request);
        try_bad_read("a last request", requests[i], BOZTERRUN_BAD_ARGUMENT, last_request);
    }
    for (size_t i = 0; i < sizeof states / sizeof states[0]; i++) {
        try_bad_read("the state of a key", states[i], BOZTERRUN_BAD_ARGUMENT, key_state);
        try_bad_read("the state of a button", states[i], BOZTERRUN_BAD_ARGUMENT, button_state);
        try_bad_read("the state of a keysym", states[i], BOZTERRUN_BAD_ARGUMENT, keysym_state);
    }
    for (size_t n = 0; n <= 48; n++) {
        if (n != 24) {
            try_bad_read("words of records", n, BOZTERRUN_BAD_ARGUMENT, words_of_records);
        }
    }
    for (size_t n = 0; n <= 12; n++) {
        if (n != 6) {
            try_bad_read("reals of points", n, BOZTERRUN_BAD_ARGUMENT, reals_of_points);
        }
    }
    for (size_t i = 0; i < sizeof starts / sizeof starts[0]; i++) {
        try_bad_read("a part that begins at", starts[i], BOZTERRUN_BAD_PART, part_from);
    }
    for (size_t i = 0; i < sizeof lengths / sizeof lengths[0]; i++) {
        try_bad_read("a part of so many bytes:", lengths[i], BOZTERRUN_BAD_PART, part_of);
    }
    /* Numbers that are no state may be any. */
    snprintf(where, sizeof where, "handle_requests with numbers that say nothing");
    slices_lend();
    for (size_t place = AT_VERSION; place <= AT_LENGTH; place++) {
        if (place != AT_FIRST && place != AT_SECOND) {
            put_number(READ_SYNC, place, UINT64_MAX);
        }
    }
    check(call_handle_requests() == BOZTERRUN_ACCEPTED && number_at(VALUE) == READ_RECORDS, "the answer");
    /* No record at all. */
    snprintf(where, sizeof where, "handle_requests with no record");
    slices_lend();
    slice_lend(RECORDS, 0);
    slice_lend(POINTS, 0);
    slices_keep();
    check(call_handle_requests() == BOZTERRUN_ACCEPTED && number_at(VALUE) == 0, "the answer");
    check(slices_changed() == SLICES, "a slice has changed");
}

/* A call with a text of this length in place of its usual one. */
static void try_text(const char *name, const char *what, const void *text, size_t length, uint32_t answer)
{
    snprintf(where, sizeof where, "%s with %s of %zu bytes", name, what, length);
    slices_lend();
    slice_lend(TEXT, length);
    memcpy(slice_data(TEXT), text, length);
    if (answer == BOZTERRUN_ACCEPTED) {
        check(calls[call_named(name)].make() == answer, "the answer");
    } else {
        refused(call_named(name), answer);
    }
}

/* Texts end at the page that may not be read, so a character that is cut off there is not looked for behind it. */
static void try_texts(void)
{
    static const char *const takers[] = {"handshake_name", "handshake_interface_version", "handshake_other",
                                         "text_utf8", "unexpected_handshake", "add_seat", "add_device",
                                         "disconnected", "has_interface", "interface_version"};
    static const char *const cut[] = {"\xc3", "\xe2", "\xe2\x82", "\xf0", "\xf0\x9f", "\xf0\x9f\x98", "\x80", "\xff",
                                      "\xc0\x80", "\xed\xa0\x80", "\xf4\x90\x80\x80"};
    static const char *const limited[] = {"handshake_name", "add_seat", "add_device", "disconnected"};
    char text[600];
    for (size_t i = 0; i < sizeof takers / sizeof takers[0]; i++) {
        for (size_t j = 0; j < sizeof cut / sizeof cut[0]; j++) {
            for (size_t front = 0; front <= 20; front++) {
                memset(text, 'x', sizeof text);
                memcpy(text + front, cut[j], strlen(cut[j]));
                try_text(takers[i], "no UTF-8", text, front + strlen(cut[j]), BOZTERRUN_BAD_UTF8);
            }
        }
    }
    memset(text, 'x', sizeof text);
    for (size_t i = 0; i < sizeof limited / sizeof limited[0]; i++) {
        try_text(limited[i], "a name", text, 0, BOZTERRUN_ACCEPTED);
        try_text(limited[i], "a name", text, 254, BOZTERRUN_ACCEPTED);
        try_text(limited[i], "a name", text, 255, BOZTERRUN_NAME_LONG);
        try_text(limited[i], "a name", text, 600, BOZTERRUN_NAME_LONG);
    }
    try_text("unexpected_handshake", "a name", text, 255, BOZTERRUN_NAME_LONG);
    try_text("text_utf8", "a text", text, 0, BOZTERRUN_INVALID_TEXT_LENGTH);
    try_text("text_utf8", "a text", text, 1, BOZTERRUN_ACCEPTED);
    try_text("text_utf8", "a text", text, 254, BOZTERRUN_ACCEPTED);
    try_text("text_utf8", "a text", text, 255, BOZTERRUN_INVALID_TEXT_LENGTH);
    try_text("text_utf8", "a text", text, 256, BOZTERRUN_INVALID_TEXT_LENGTH);
}

/* ---- NULL, through the inline functions ---- */

static bozterrun_session session;
static uint8_t out[BOZTERRUN_OUT_LENGTH];

static void fresh(void)
{
    session = session_image;
    memset(out, LENT_BYTE, sizeof out);
}

static void same(const char *what, uint32_t answer, uint32_t wanted)
{
    snprintf(where, sizeof where, "%s", what);
    check(answer == wanted, "the answer");
}

#define NO_SESSION(...) same(#__VA_ARGS__, __VA_ARGS__, BOZTERRUN_BAD_STATE)

/* No session, no handshake or no request: BAD_STATE, whatever else is handed in, and what is told is 0. */
static void try_no_session(void)
{
    bozterrun_handshake *const h = NULL;
    bozterrun_session *const s = NULL;
    bozterrun_request request;
    size_t count = 99;
    uint64_t value = 99;
    uint32_t first = 99, second = 99;
#define OUT_OF sizeof out, &count
    NO_SESSION(bz_handshake_new(h, 7, out, OUT_OF));
    NO_SESSION(bz_handshake_handshake_version(h, 1));
    NO_SESSION(bz_handshake_name(h, "a", 1));
    NO_SESSION(bz_handshake_context_type(h, 9));
    NO_SESSION(bz_handshake_interface_version(h, "a", 1, 1));
    NO_SESSION(bz_handshake_other(h, "a", 1));
    NO_SESSION(bz_handshake_finish(h, &session, out, OUT_OF));
    bozterrun_handshake whole = handshake_image;
    NO_SESSION(bz_handshake_finish(&whole, s, out, OUT_OF));
    check(memcmp(&whole, &handshake_image, sizeof whole) == 0, "the handshake has changed");
    NO_SESSION(bz_handshake_client(h, &first, &count, &second));
    check(first == 0 && second == 0 && count == 0, "what is told");
    NO_SESSION(bz_handshake_client(h, NULL, NULL, NULL));
    size_t taken = 99;
    bozterrun_details details;
    memset(&details, 0x5a, sizeof details);
    count = 99;
    first = 99;
    NO_SESSION(bz_handshake_pending_request(h, &session, finish_image, sizeof finish_image, out, sizeof out, &taken,
                                            &count, &first, &details));
    check(taken == 0 && count == 0 && first == 0 && details.parse_error == 0 && details.first == 0 &&
              details.second == 0,
          "what is told");
    NO_SESSION(bz_handshake_pending_request(&whole, s, finish_image, sizeof finish_image, NULL, 0, NULL, NULL, NULL,
                                            NULL));
    check(memcmp(&whole, &handshake_image, sizeof whole) == 0, "the handshake has changed");
    memset(&details, 0x5a, sizeof details);
    taken = count = 99;
    NO_SESSION(bz_pending_request(s, sync_image, sizeof sync_image, 1, out, sizeof out, &taken, &count, &details));
    check(taken == 0 && count == 0 && details.parse_error == 0 && details.first == 0 && details.second == 0,
          "what is told");
    NO_SESSION(bz_pending_request(s, NULL, 9, 1, NULL, 9, NULL, NULL, NULL));
    NO_SESSION(bz_pointer_motion_relative(s, 1, 1.0F, 1.0F));
    NO_SESSION(bz_pointer_absolute_motion_absolute(s, 1, 1.0F, 1.0F));
    NO_SESSION(bz_scroll_scroll(s, 1, 1.0F, 1.0F));
    NO_SESSION(bz_scroll_scroll_discrete(s, 1, 1, 1));
    NO_SESSION(bz_scroll_scroll_stop(s, 1, 1, 1, 1));
    NO_SESSION(bz_button_button(s, 1, 1, 9));
    NO_SESSION(bz_keyboard_key(s, 1, 1, 9));
    NO_SESSION(bz_text_keysym(s, 1, 1, 9));
    NO_SESSION(bz_text_utf8(s, 1, "a", 1));
    NO_SESSION(bz_touchscreen_down(s, 1, 1, 1.0F, 1.0F));
    NO_SESSION(bz_touchscreen_motion(s, 1, 1, 1.0F, 1.0F));
    NO_SESSION(bz_touchscreen_up(s, 1, 1));
    first = second = 99;
    NO_SESSION(bz_touchscreen_cancel(s, 1, 1, 1, &first, &second));
    check(first == 0 && second == 0, "what is told");
    NO_SESSION(bz_touchscreen_cancel(s, 1, 1, 1, NULL, NULL));
    NO_SESSION(bz_device_frame(s, 1, 1, 1));
    NO_SESSION(bz_device_release(s, 1, 1));
    NO_SESSION(bz_device_ready(s, 1, 1));
    NO_SESSION(bz_device_start_emulating(s, 1, 1, 1, 1));
    NO_SESSION(bz_device_stop_emulating(s, 1, 1, 1));
    NO_SESSION(bz_seat_bind(s, 1, 1));
    NO_SESSION(bz_seat_request_device(s, 1, 1));
    first = second = 99;
    NO_SESSION(bz_connection_sync(s, 1, 1, out, sizeof out, &count, &first, &second));
    check(first == 0 && second == 0, "what is told");
    NO_SESSION(bz_connection_sync(s, 1, 1, NULL, 0, NULL, NULL, NULL));
    NO_SESSION(bz_connection_disconnect(s));
    NO_SESSION(bz_pingpong_done(s));
    NO_SESSION(bz_unexpected_handshake(s, 9, 1, "a", 1));
    NO_SESSION(bz_next_request(s, &request, out, sizeof out));
    NO_SESSION(bz_handle_requests(s, NULL, 1, out, sizeof out, NULL, NULL, NULL, NULL));
#define NO_SESSION_WRITES(...) \
    do { \
        count = 99; \
        NO_SESSION(__VA_ARGS__); \
        check(count == 0, "the count"); \
    } while (0)
    NO_SESSION_WRITES(bz_seat_release(s, 1, out, OUT_OF));
    NO_SESSION_WRITES(bz_interface_release(s, 9, 1, out, OUT_OF));
    NO_SESSION_WRITES(bz_remove_seat(s, 1, out, OUT_OF));
    NO_SESSION_WRITES(bz_remove_device(s, 1, out, OUT_OF));
    NO_SESSION_WRITES(bz_resumed(s, 1, out, OUT_OF));
    NO_SESSION_WRITES(bz_paused(s, 1, out, OUT_OF));
    NO_SESSION_WRITES(bz_start_emulating(s, 1, 1, out, OUT_OF));
    NO_SESSION_WRITES(bz_stop_emulating(s, 1, out, OUT_OF));
    NO_SESSION_WRITES(bz_frame(s, 1, 1, out, OUT_OF));
    NO_SESSION_WRITES(bz_disconnected(s, 9, NULL, 0, out, OUT_OF));
    value = 99;
    NO_SESSION_WRITES(bz_add_seat(s, NULL, 0, 1, out, OUT_OF, &value));
    check(value == 0, "the id");
    value = 99;
    NO_SESSION_WRITES(bz_add_device(s, 1, NULL, 0, 9, 1, out, OUT_OF, &value));
    check(value == 0, "the id");
#define NO_SESSION_TELLS(...) \
    do { \
        value = 99; \
        NO_SESSION(__VA_ARGS__); \
        check(value == 0, "what is told"); \
    } while (0)
    NO_SESSION_TELLS(bz_last_serial(s, &value));
    NO_SESSION_TELLS(bz_has_interface(s, "a", 1, &value));
    NO_SESSION_TELLS(bz_interface_version(s, "a", 1, &value));
    NO_SESSION_TELLS(bz_has_capability(s, 1, 9, &value));
    NO_SESSION(bz_last_serial(s, NULL));
    NO_SESSION(bz_add_seat(s, NULL, 0, 1, NULL, 0, NULL, NULL));

    fresh();
    NO_SESSION(bz_next_request(&session, NULL, out, sizeof out));
    check(memcmp(&session, &session_image, sizeof session) == 0, "a request was taken");
    for (size_t i = 0; i < sizeof out; i++) {
        if (out[i] != LENT_BYTE) {
            check(false, "out has changed");
            break;
        }
    }
}

#define SHORT(...) \
    do { \
        fresh(); \
        same(#__VA_ARGS__, __VA_ARGS__, BOZTERRUN_SHORT_OUT); \
        check(memcmp(&session, &session_image, sizeof session) == 0, "the session has changed"); \
    } while (0)
#define GOOD(...) \
    do { \
        fresh(); \
        same(#__VA_ARGS__, __VA_ARGS__, BOZTERRUN_ACCEPTED); \
    } while (0)

/* No out: as one of length 0, whatever length is said. No place for count or id: it is not told. */
static void try_no_out(void)
{
    bozterrun_session *const s = &session;
    bozterrun_handshake h = handshake_image;
    bozterrun_request request;
    const uint64_t seat = with.seat, device = with.device;
    SHORT(bz_handshake_new(&h, 7, NULL, 1000, NULL));
    h = handshake_image;
    SHORT(bz_handshake_finish(&h, s, NULL, 1000, NULL));
    check(memcmp(&h, &handshake_image, sizeof h) == 0, "the handshake has changed");
    SHORT(bz_seat_release(s, seat, NULL, 1000, NULL));
    SHORT(bz_interface_release(s, BOZTERRUN_CAPABILITY_KEYBOARD, device + 3, NULL, 1000, NULL));
    SHORT(bz_connection_sync(s, 5, 1, NULL, 1000, NULL, NULL, NULL));
    SHORT(bz_next_request(s, &request, NULL, 1000));
    SHORT(bz_pending_request(s, sync_image, sizeof sync_image, 1, NULL, 1000, NULL, NULL, NULL));
    SHORT(bz_handshake_pending_request(&h, s, finish_image, sizeof finish_image, NULL, 1000, NULL, NULL, NULL, NULL));
    check(memcmp(&h, &handshake_image, sizeof h) == 0, "the handshake has changed");
    SHORT(bz_add_seat(s, NULL, 0, 127, NULL, 1000, NULL, NULL));
    SHORT(bz_add_device(s, seat, NULL, 0, 1, 127, NULL, 1000, NULL, NULL));
    SHORT(bz_remove_seat(s, seat, NULL, 1000, NULL));
    SHORT(bz_remove_device(s, device, NULL, 1000, NULL));
    SHORT(bz_resumed(s, device, NULL, 1000, NULL));
    SHORT(bz_paused(s, device, NULL, 1000, NULL));
    SHORT(bz_start_emulating(s, device, 1, NULL, 1000, NULL));
    SHORT(bz_stop_emulating(s, device, NULL, 1000, NULL));
    SHORT(bz_frame(s, device, 1, NULL, 1000, NULL));
    SHORT(bz_disconnected(s, 0, NULL, 0, NULL, 1000, NULL));
    SHORT(bz_write_message(4, event_image, sizeof event_image, NULL, 1000, NULL));
    SHORT(bz_read_message(4, sent_image, sizeof sent_image, NULL, 1000, NULL));

    GOOD(bz_handshake_new(&h, 7, out, sizeof out, NULL));
    h = handshake_image;
    GOOD(bz_handshake_finish(&h, s, out, sizeof out, NULL));
    GOOD(bz_handshake_client(&h, NULL, NULL, NULL));
    h = handshake_image;
    GOOD(bz_handshake_pending_request(&h, s, finish_image, sizeof finish_image, out, sizeof out, NULL, NULL, NULL,
                                      NULL));
    GOOD(bz_pending_request(s, sync_image, sizeof sync_image, 1, out, sizeof out, NULL, NULL, NULL));
    GOOD(bz_seat_release(s, seat, out, sizeof out, NULL));
    GOOD(bz_interface_release(s, BOZTERRUN_CAPABILITY_KEYBOARD, device + 3, out, sizeof out, NULL));
    GOOD(bz_connection_sync(s, 5, 1, out, sizeof out, NULL, NULL, NULL));
    GOOD(bz_touchscreen_cancel(s, device + 4, 2, 1, NULL, NULL));
    GOOD(bz_add_seat(s, NULL, 0, 127, out, sizeof out, NULL, NULL));
    GOOD(bz_add_device(s, seat, NULL, 0, 1, 127, out, sizeof out, NULL, NULL));
    GOOD(bz_remove_seat(s, seat, out, sizeof out, NULL));
    GOOD(bz_remove_device(s, device, out, sizeof out, NULL));
    GOOD(bz_resumed(s, device, out, sizeof out, NULL));
    GOOD(bz_paused(s, device, out, sizeof out, NULL));
    GOOD(bz_start_emulating(s, device, 1, out, sizeof out, NULL));
    GOOD(bz_stop_emulating(s, device, out, sizeof out, NULL));
    GOOD(bz_frame(s, device, 1, out, sizeof out, NULL));
    GOOD(bz_disconnected(s, 0, NULL, 0, out, sizeof out, NULL));
    GOOD(bz_last_serial(s, NULL));
    GOOD(bz_has_interface(s, "ei_seat", 7, NULL));
    GOOD(bz_interface_version(s, "ei_seat", 7, NULL));
    GOOD(bz_has_capability(s, device, BOZTERRUN_CAPABILITY_TEXT, NULL));
    GOOD(bz_write_message(4, event_image, sizeof event_image, out, sizeof out, NULL));
    GOOD(bz_read_message(4, sent_image, sizeof sent_image, out, sizeof out, NULL));
}

/* No name and no explanation are none at all; the empty ones are sent. Any other text that is NULL is empty. */
static void try_no_text(void)
{
    bozterrun_session *const s = &session;
    bozterrun_handshake h = handshake_image;
    size_t count;
    uint64_t truth;
    uint32_t given;
    GOOD(bz_add_seat(s, NULL, 9, 127, out, sizeof out, &count, NULL));
    check(count == 22 + 7 * 19 + 10, "a seat without a name");
    GOOD(bz_add_seat(s, "", 0, 127, out, sizeof out, &count, NULL));
    check(count == 22 + 10 + 7 * 19 + 10, "a seat with an empty name");
    GOOD(bz_add_device(s, with.seat, NULL, 9, 1, 127, out, sizeof out, &count, NULL));
    check(count == 22 + 14 + 7 * 23 + 10, "a device without a name");
    GOOD(bz_add_device(s, with.seat, "", 0, 1, 127, out, sizeof out, &count, NULL));
    check(count == 22 + 10 + 14 + 7 * 23 + 10, "a device with an empty name");
    GOOD(bz_disconnected(s, 0, NULL, 9, out, sizeof out, &count));
    check(count == 18 * 14 + 19 && out[count - 1] == 0, "no explanation");
    GOOD(bz_disconnected(s, 0, "", 0, out, sizeof out, &count));
    check(count == 18 * 14 + 19 && out[count - 1] == 0x80, "an empty explanation");
    fresh();
    same("bz_pending_request of NULL", bz_pending_request(s, NULL, 28, 1, out, sizeof out, NULL, NULL, NULL),
         BOZTERRUN_WAIT);
    same("bz_handshake_pending_request of NULL",
         bz_handshake_pending_request(&h, s, NULL, 16, out, sizeof out, NULL, NULL, NULL, NULL), BOZTERRUN_WAIT);
    check(memcmp(&session, &session_image, sizeof session) == 0, "the session has changed");
    same("bz_write_message of NULL", bz_write_message(4, NULL, 14, out, sizeof out, &count), BOZTERRUN_UNSENDABLE);
    check(count == 0, "the count");
    same("bz_read_message of NULL", bz_read_message(4, NULL, 20, out, sizeof out, &count), BOZTERRUN_MALFORMED);
    check(count == 0, "the count");
    same("bz_text_utf8 of NULL", bz_text_utf8(s, with.device + 7, NULL, 5), BOZTERRUN_INVALID_TEXT_LENGTH);
    same("bz_unexpected_handshake with NULL", bz_unexpected_handshake(s, 3, 0, NULL, 500),
         BOZTERRUN_UNEXPECTED_HANDSHAKE_EVENT);
    same("bz_has_interface of NULL", bz_has_interface(s, NULL, 5, &truth), BOZTERRUN_ACCEPTED);
    check(truth == 0, "an interface without a name");
    same("bz_interface_version of NULL", bz_interface_version(s, NULL, 5, NULL), BOZTERRUN_NONE);
    same("bz_handshake_other with NULL", bz_handshake_other(&h, NULL, 5), BOZTERRUN_NON_HANDSHAKE_EVENT);
    same("bz_handshake_interface_version of NULL", bz_handshake_interface_version(&h, NULL, 5, 1),
         BOZTERRUN_ACCEPTED);
    same("bz_handshake_name of NULL", bz_handshake_name(&h, NULL, 5), BOZTERRUN_ACCEPTED);
    same("bz_handshake_client", bz_handshake_client(&h, &given, &count, NULL), BOZTERRUN_ACCEPTED);
    check(given == 1 && count == 0, "an empty name was said");
}

int main(void)
{
    watch();
    alarm(60);
    slices_make();
    session_make(2, 1);
    for (size_t k = 0; k < CALLS; k++) {
        try_good(k);
        try_lengths(k);
        try_short_out(k);
    }
    try_numbers();
    try_reads();
    try_texts();
    try_no_session();
    try_no_out();
    try_no_text();
    printf("bad_use: %d calls, %lu tests, %lu failed\n", CALLS, tests, failures);
    return failures != 0;
}
