/*
 * messages [ROUNDS]: a client's bytes, read by bozterrun_pending_request and bozterrun_handshake_pending_request.
 *
 * What worked messages are to answer was written by hand from the scope. Each request of a session has to do as a
 * message what its single call does, byte for byte (a Sync besides has its id remembered); cut at every place each
 * waits; a handshake is made of bytes. Then ROUNDS (200000) messages that are damaged or random, on live sessions and
 * handshakes.
 *
 * Checked at each call: no read and no write outside the slices (a page behind each that may not be touched, known
 * bytes before it), an answer that docs/REFERENCE.md has, that what is accepted takes its header's length and what is
 * not takes nothing and leaves every byte as it was, and that nothing is written to `out` behind the count. The last
 * line has the number of tests and of failures; the exit status is 1 where there are failures.
 */
#include "slices.h"
#include "random.h"

static unsigned long tests, failures;

static void check(bool holds, const char *what)
{
    tests++;
    if (!holds) {
        failures++;
        if (failures <= 20) {
            printf("FAILED: %s: %s\n", where, what);
        }
    }
}

/* ---- Messages ---- */

static uint8_t bytes[4096];
static size_t length;

static void put(uint64_t n, size_t width)
{
    memcpy(bytes + length, &n, width); /* little-endian, as the machine */
    length += width;
}

static void put_real(float f)
{
    memcpy(bytes + length, &f, 4);
    length += 4;
}

static void put_text(const void *text, size_t size)
{
    put(size + 1, 4);
    memcpy(bytes + length, text, size);
    memset(bytes + length + size, 0, 4);
    length += (size + 4) / 4 * 4;
}

static void set_length(uint32_t n)
{
    memcpy(bytes + 8, &n, 4);
}

static void begin_message(uint64_t object, uint32_t opcode)
{
    length = 0;
    put(object, 8);
    put(0, 4);
    put(opcode, 4);
}

/* The requests of a session by interface and opcode, on the objects of `with`; false where there is no such one. */
static bool request_message(uint32_t interface, uint32_t opcode)
{
    const uint64_t connection = 0xff00000000000000;
    const uint64_t objects[] = {0,
                                connection,
                                0,
                                0,
                                with.seat,
                                with.device,
                                interface_of(0),
                                interface_of(1),
                                interface_of(4),
                                interface_of(5),
                                interface_of(2),
                                interface_of(3),
                                interface_of(6)};
    begin_message(objects[interface], opcode);
    switch (100 * interface + opcode) {
    case 100: put(9, 8); put(1, 4); break;
    case 101: break;
    case 400: break;
    case 401: put(127, 8); break;
    case 402: put(4, 8); break;
    case 500: break;
    case 501: put(7, 4); put(1, 4); break;
    case 502: put(7, 4); break;
    case 503: put(7, 4); put(504, 8); break;
    case 504: break;
    case 600: case 700: case 800: case 900: case 1000: case 1100: case 1200: break;
    case 601: put_real(1.0F); put_real(-2.0F); break;
    case 701: put_real(3.0F); put_real(4.0F); break;
    case 801: put_real(5.0F); put_real(6.0F); break;
    case 802: put((uint32_t)-120, 4); put(120, 4); break;
    case 803: put(1, 4); put(0, 4); put(1, 4); break;
    case 901: put(272, 4); put(1, 4); break;
    case 1001: put(30, 4); put(1, 4); break;
    case 1101: put(9, 4); put_real(1.0F); put_real(2.0F); break;
    case 1102: put(1, 4); put_real(1.0F); put_real(2.0F); break;
    case 1103: put(1, 4); break;
    case 1104: put(1, 4); break;
    case 1201: put(97, 4); put(1, 4); break;
    case 1202: put_text(text_usual, 20); break;
    default: return false;
    }
    set_length((uint32_t)length);
    return true;
}

/* The single call of the same request. */
static uint32_t single(bozterrun_session *s, uint32_t interface, uint32_t opcode, uint8_t *out, size_t *count)
{
    static const uint64_t capability[] = {1, 2, 16, 32, 4, 8, 64};
    const size_t room = BOZTERRUN_OUT_LENGTH;
    *count = 0;
    switch (100 * interface + opcode) {
    case 100: return bz_connection_sync(s, 9, 1, out, room, count, NULL, NULL);
    case 101: return bz_connection_disconnect(s);
    case 400: return bz_seat_release(s, with.seat, out, room, count);
    case 401: return bz_seat_bind(s, with.seat, 127);
    case 402: return bz_seat_request_device(s, with.seat, 4);
    case 500: return bz_device_release(s, with.device, 507);
    case 501: return bz_device_start_emulating(s, with.device, 7, 1, 507);
    case 502: return bz_device_stop_emulating(s, with.device, 7, 507);
    case 503: return bz_device_frame(s, with.device, 7, 504);
    case 504: return bz_device_ready(s, with.device, 507);
    case 601: return bz_pointer_motion_relative(s, interface_of(0), 1.0F, -2.0F);
    case 701: return bz_pointer_absolute_motion_absolute(s, interface_of(1), 3.0F, 4.0F);
    case 801: return bz_scroll_scroll(s, interface_of(4), 5.0F, 6.0F);
    case 802: return bz_scroll_scroll_discrete(s, interface_of(4), -120, 120);
    case 803: return bz_scroll_scroll_stop(s, interface_of(4), 1, 0, 1);
    case 901: return bz_button_button(s, interface_of(5), 272, 1);
    case 1001: return bz_keyboard_key(s, interface_of(2), 30, 1);
    case 1101: return bz_touchscreen_down(s, interface_of(3), 9, 1.0F, 2.0F);
    case 1102: return bz_touchscreen_motion(s, interface_of(3), 1, 1.0F, 2.0F);
    case 1103: return bz_touchscreen_up(s, interface_of(3), 1);
    case 1104: return bz_touchscreen_cancel(s, interface_of(3), 2, 1, NULL, NULL);
    case 1201: return bz_text_keysym(s, interface_of(6), 97, 1);
    case 1202: return bz_text_utf8(s, interface_of(6), text_usual, 20);
    default: {
        const uint64_t bit = capability[interface - 6];
        uint64_t place = 0;
        while (bit >> (place + 1) != 0) {
            place++;
        }
        return bz_interface_release(s, bit, interface_of(place), out, room, count);
    }
    }
}

/* ---- One call ---- */

/* What the header says that the message has, where there is a whole header. */
static size_t header_length(size_t which)
{
    uint32_t n = 0;
    if (slices[which].length >= BOZTERRUN_HEADER_LENGTH) {
        memcpy(&n, slice_data(which) + 8, 4);
    }
    return n;
}

static bool known(uint32_t answer)
{
    return answer <= BOZTERRUN_INVALID_ID || answer == BOZTERRUN_WAIT;
}

/* The first so many bytes, lent to the session's call or the handshake's. All that holds of any message is checked. */
static uint32_t hand_in(size_t which, const uint8_t *message, size_t size)
{
    slice_lend(which, size);
    memcpy(slice_data(which), message, size);
    slices_keep();
    const uint32_t answer = which == MESSAGE ? call_pending_request() : call_handshake_pending_request();
    const size_t taken = number_at(VALUE), count = number_at(COUNT), room = slices[OUT].length;
    const uint32_t parse_error = (uint32_t)number_at(CASE);
    check(known(answer), "no answer of the library");
    check(slice_same(which), "the message has changed");
    check(slices_overrun() == SLICES, "written before a slice");
    check((answer == BOZTERRUN_MALFORMED) == (parse_error != 0) && parse_error <= 7, "the case of a malformed message");
    check(taken == (answer == BOZTERRUN_ACCEPTED ? header_length(which) : 0), "what is taken");
    check(count <= room && memcmp(slice_data(OUT) + count, slices[OUT].kept + count, room - count) == 0,
          "written behind the count");
    if (answer != BOZTERRUN_ACCEPTED) {
        const size_t changed = slices_changed();
        check(changed == SLICES || (answer == BOZTERRUN_MISSING_INTERFACE && changed == OUT), "a slice has changed");
    }
    if (which == FINISH) {
        check(number_at(BEGUN) == 0 || (answer == BOZTERRUN_ACCEPTED && count >= 26), "a session that has begun");
    }
    return answer;
}

static void answers_with(const char *what, uint32_t wanted, uint32_t parse_error, uint64_t first, uint64_t second)
{
    snprintf(where, sizeof where, "%s", what);
    const uint32_t answer = hand_in(MESSAGE, bytes, length);
    if (answer != wanted) {
        snprintf(where, sizeof where, "%s: %s", what, bz_refusal_name(answer));
    }
    check(answer == wanted, "the answer");
    check(number_at(CASE) == parse_error && number_at(FIRST) == first && number_at(SECOND) == second, "what is told");
}

static void answers(const char *what, uint32_t wanted)
{
    answers_with(what, wanted, 0, 0, 0);
}

/* ---- Worked messages ---- */

static void key_message(uint32_t state)
{
    begin_message(interface_of(2), 1);
    put(30, 4);
    put(state, 4);
    set_length((uint32_t)length);
}

static void sync_message(uint64_t id, uint32_t version)
{
    begin_message(0xff00000000000000, 0);
    put(id, 8);
    put(version, 4);
    set_length((uint32_t)length);
}

static void text_message(const void *text, uint32_t said, size_t size)
{
    begin_message(interface_of(6), 2);
    put(said, 4);
    memcpy(bytes + length, text, size);
    length += size;
    set_length((uint32_t)length);
}

static void try_worked(void)
{
    enum {
        END = BOZTERRUN_PARSE_ERROR_END_OF_MESSAGE,
        UTF8 = BOZTERRUN_PARSE_ERROR_UTF8,
        OPCODE = BOZTERRUN_PARSE_ERROR_INVALID_OPCODE,
        VARIANT = BOZTERRUN_PARSE_ERROR_INVALID_VARIANT,
        HEADER = BOZTERRUN_PARSE_ERROR_HEADER_LENGTH,
        LENGTH = BOZTERRUN_PARSE_ERROR_MESSAGE_LENGTH,
        IS_NULL = BOZTERRUN_PARSE_ERROR_INVALID_NULL,
        BAD = BOZTERRUN_MALFORMED
    };
    slices_lend();
    length = 0;
    answers("no byte", BOZTERRUN_WAIT);
    key_message(1);
    answers("a key", BOZTERRUN_ACCEPTED);
    memset(bytes + length, 0xff, 5);
    length += 5;
    answers("a key, and bytes behind it", BOZTERRUN_ACCEPTED);
    begin_message(999, 1);
    set_length(24);
    answers("an object that is not alive, before it is whole", BOZTERRUN_NO_OBJECT);
    set_length(5);
    answers("the object before the length", BOZTERRUN_NO_OBJECT);
    length = 15;
    answers("a header that is not whole", BOZTERRUN_WAIT);
    begin_message(0, 1);
    set_length(16);
    answers("the handshake's object", BOZTERRUN_NO_OBJECT);
    begin_message(interface_of(2), 99);
    set_length(15);
    answers_with("a length of 15", BAD, HEADER, 15, 0);
    set_length(0);
    answers_with("a length of 0", BAD, HEADER, 0, 0);
    set_length(1025);
    answers_with("a length of 1,025", BAD, HEADER, 1025, 0);
    set_length(UINT32_MAX);
    answers_with("the longest", BAD, HEADER, UINT32_MAX, 0);
    set_length(1024);
    answers("a length of 1,024", BOZTERRUN_WAIT);
    set_length(16);
    answers_with("an opcode that there is not", BAD, OPCODE, 10, 99);
    key_message(2);
    answers_with("a state of 2", BAD, VARIANT, 2, 0);
    key_message(1);
    set_length(20);
    answers_with("a key without its state", BAD, END, 0, 0);
    key_message(1);
    put(0, 4);
    set_length(28);
    answers_with("a key with four bytes over", BAD, LENGTH, 32, 28);
    key_message(3);
    put(0, 4);
    set_length(28);
    answers_with("the state before what is over", BAD, VARIANT, 3, 0);
    text_message("\x80\0\0\0", 2, 4);
    answers_with("a text that is no UTF-8", BAD, UTF8, 0, 0);
    text_message("", 0, 0);
    answers_with("a text that is null", BAD, IS_NULL, 0, 0);
    text_message("\0\0\0\0", 1, 4);
    answers("an empty text", BOZTERRUN_INVALID_TEXT_LENGTH);
    text_message("ab\xff\xff", 3, 4);
    answers("what closes a text is not looked at", BOZTERRUN_ACCEPTED);
    text_message("ab\0\0", UINT32_MAX, 4);
    answers_with("a text that goes past the message", BAD, END, 0, 0);
    text_message("ab\0\0", 5, 4);
    answers_with("a text of five bytes in four", BAD, END, 0, 0);
    sync_message(5, 1);
    answers("a Sync", BOZTERRUN_ACCEPTED);
    check(number_at(COUNT) == 18, "its event");
    answers("the same again", BOZTERRUN_INVALID_ID);
    sync_message(0, 1);
    answers("the id 0", BOZTERRUN_INVALID_ID);
    sync_message(0xff00000000000000, 1);
    answers("an id of the server", BOZTERRUN_INVALID_ID);
    sync_message(9, 2);
    answers_with("version 2 of a callback", BOZTERRUN_INVALID_INTERFACE_VERSION, 0, 2, 2);
    sync_message(9, 1);
    answers("a refused id is not kept", BOZTERRUN_ACCEPTED);
    put(0, 4);
    set_length(32);
    answers_with("what is over before the id", BAD, LENGTH, 36, 32);
    sync_message(0xfeffffffffffffff, 1);
    answers("the last id", BOZTERRUN_ACCEPTED);
    answers("behind the last id", BOZTERRUN_INVALID_ID);
    begin_message(interface_of(2), 0);
    set_length(16);
    answers("a keyboard is released", BOZTERRUN_ACCEPTED);
    answers("and released again", BOZTERRUN_NO_OBJECT);
    for (size_t pending = 0; pending < 64; pending++) {
        slices_keep();
        begin_message(interface_of(5), 1);
        put(272, 4);
        put(pending % 2, 4);
        set_length(24);
        if (hand_in(MESSAGE, bytes, length) != BOZTERRUN_ACCEPTED) {
            break;
        }
    }
    answers("no more fits before a frame", BOZTERRUN_FULL_PENDING);
    begin_message(with.device, 3);
    put(7, 4);
    put(600, 8);
    set_length(28);
    answers("a frame", BOZTERRUN_ACCEPTED);
    begin_message(interface_of(5), 1);
    put(272, 4);
    put(1, 4);
    set_length(24);
    answers("now it fits", BOZTERRUN_ACCEPTED);
}

/* ---- Every request ---- */

static void try_requests(void)
{
    static bozterrun_session by_call;
    static uint8_t written[BOZTERRUN_OUT_LENGTH];
    size_t requests = 0;
    for (uint32_t interface = 1; interface <= 12; interface++) {
        for (uint32_t opcode = 0; opcode <= 5; opcode++) {
            if (interface == 2 || interface == 3 || !request_message(interface, opcode)) {
                continue; /* callbacks and pingpongs are never alive */
            }
            requests++;
            snprintf(where, sizeof where, "request %u of interface %u", opcode, interface);
            /* Cut at every place it waits. */
            slices_lend();
            for (size_t cut = 0; cut < length; cut++) {
                check(hand_in(MESSAGE, bytes, cut) == BOZTERRUN_WAIT, "a message that is cut");
            }
            /* Whole it does what its call does. */
            by_call = session_image;
            memset(written, LENT_BYTE, sizeof written);
            size_t count;
            const uint32_t wanted = single(&by_call, interface, opcode, written, &count);
            check(hand_in(MESSAGE, bytes, length) == wanted && wanted == BOZTERRUN_ACCEPTED, "the answer");
            if (interface == 1 && opcode == 0) {
                by_call.control[7] = 9; /* the last id that the client gave */
            }
            check(number_at(COUNT) == count && memcmp(slice_data(OUT), written, sizeof written) == 0, "the events");
            check(memcmp(slice_data(CONTROL), by_call.control, sizeof by_call.control) == 0, "the control words");
            check(memcmp(slice_data(WORDS), by_call.words, sizeof by_call.words) == 0, "the words");
            check(memcmp(slice_data(REALS), by_call.reals, sizeof by_call.reals) == 0, "the reals");
            check(memcmp(slice_data(TEXTS), by_call.texts, sizeof by_call.texts) == 0, "the texts");
        }
    }
    check(requests == 30, "how many requests there are");
}

/* ---- Handshakes ---- */

/* The message, with the length that it has. */
static uint32_t shake(void)
{
    set_length((uint32_t)length);
    return hand_in(FINISH, bytes, length);
}

static void begin_handshake(void)
{
    static uint8_t out[BOZTERRUN_OUT_LENGTH];
    must("handshake_new", bz_handshake_new(&handshake_image, 7, out, sizeof out, NULL));
    slices_lend();
}

static void name_message(size_t size)
{
    char name[2048];
    memset(name, 'x', sizeof name);
    begin_message(0, 3);
    put_text(name, size);
}

/* A handshake of bytes, each message cut at every place before it is handed in whole. */
static void try_handshake(void)
{
    snprintf(where, sizeof where, "a handshake of bytes");
    begin_handshake();
    begin_message(0, 1);
    check(shake() == BOZTERRUN_MISSING_INTERFACE && number_at(COUNT) == 0, "a Finish too soon");
    begin_message(0, 0);
    put(1, 4);
    check(shake() == BOZTERRUN_ACCEPTED, "its version");
    begin_message(0, 2);
    put(3, 4);
    check(shake() == BOZTERRUN_MALFORMED && number_at(CASE) == 4 && number_at(FIRST) == 3, "no context type");
    begin_message(0, 5);
    check(shake() == BOZTERRUN_MALFORMED && number_at(CASE) == 3 && number_at(FIRST) == 0 && number_at(SECOND) == 5,
          "no such request");
    begin_message(0xff00000000000000, 1);
    check(shake() == BOZTERRUN_NO_OBJECT, "a connection that is not there yet");
    name_message(255);
    check(shake() == BOZTERRUN_NAME_LONG, "a name of 255 bytes");
    name_message(1003);
    check(shake() == BOZTERRUN_NAME_LONG, "the longest message");
    name_message(1004);
    check(shake() == BOZTERRUN_MALFORMED && number_at(CASE) == 5 && number_at(FIRST) == 1028, "a longer one");
    for (uint32_t step = 0; step < 15; step++) {
        snprintf(where, sizeof where, "step %u of a handshake of bytes", step);
        const char *const name = bz_interface_name(step);
        begin_message(0, step == 0 ? 3 : step < 13 ? 4 : step == 13 ? 2 : 1);
        if (step == 0) {
            put_text("token", 5);
        } else if (step < 13) {
            put_text(name, strlen(name));
            put(3, 4);
        } else if (step == 13) {
            put(BOZTERRUN_CONTEXT_TYPE_SENDER, 4);
        }
        set_length((uint32_t)length);
        for (size_t cut = 0; cut < length; cut++) {
            check(hand_in(FINISH, bytes, cut) == BOZTERRUN_WAIT, "a message that is cut");
        }
        slice_lend(CONTROL, BOZTERRUN_CONTROL_LENGTH);
        check(hand_in(FINISH, bytes, length) == BOZTERRUN_ACCEPTED, "the answer");
        check(number_at(BEGUN) == (step == 14), "whether the session has begun");
        check(number_at(COUNT) == (step == 14 ? 12 * 15 + 26 : 0), "the events");
        check(step == 14 || slice_same(CONTROL), "the control words");
        if (step == 0 || step == 13) {
            check(hand_in(FINISH, bytes, length) == BOZTERRUN_DUPLICATE_EVENT, "said twice");
        }
    }
    snprintf(where, sizeof where, "behind the Finish");
    begin_message(0, 1);
    check(shake() == BOZTERRUN_NO_OBJECT, "the handshake's object is gone");
    begin_message(0xff00000000000000, 1);
    check(shake() == BOZTERRUN_NON_HANDSHAKE_EVENT, "the connection's messages are the session's");
    check(hand_in(MESSAGE, bytes, length) == BOZTERRUN_ACCEPTED, "there they are read");
    begin_message(0xff00000000000000, 0);
    put(0, 8);
    put(1, 4);
    check(shake() == BOZTERRUN_INVALID_ID, "an id that no client has");
}

/* ---- Damaged and random bytes ---- */

static uint64_t some_object(void)
{
    static const uint64_t odd[] = {0, 1, 0xff00000000000000, UINT64_MAX, 0xfeffffffffffffff};
    switch (below(4)) {
    case 0: return odd[below(5)];
    case 1: return with.seat + below(20);
    default: return 0xff00000000000000 + below(24);
    }
}

static void random_message(void)
{
    begin_message(some_object(), (uint32_t)below(6));
    const size_t more = below(8) == 0 ? below(1200) : 4 * below(8);
    for (size_t i = 0; i < more; i++) {
        bytes[length + i] = (uint8_t)(below(2) != 0 ? 0 : next_random());
    }
    length += more;
    set_length(below(4) != 0 ? (uint32_t)length : (uint32_t)below(1100));
}

static void damage_message(void)
{
    for (uint64_t n = below(4); n > 0; n--) {
        bytes[below(length)] = (uint8_t)(below(2) != 0 ? next_random() : below(30));
    }
    if (below(4) == 0) {
        length = below(length + 1);
    } else if (below(8) == 0) {
        memset(bytes + length, 0, 64);
        length += below(64);
    }
}

static unsigned long seen[67];

static void try_random(unsigned long rounds)
{
    for (unsigned long round = 0; round < rounds; round++) {
        if (round % 64 == 0) {
            slices_lend(); /* a session and a handshake anew */
        }
        snprintf(where, sizeof where, "random round %lu", round);
        slice_lend(OUT, below(4) != 0 ? BOZTERRUN_OUT_LENGTH : below(40));
        if (below(2) == 0) {
            random_message();
        } else {
            while (!request_message((uint32_t)(1 + below(12)), (uint32_t)below(5))) {
            }
        }
        damage_message();
        const uint32_t answer = hand_in(below(8) == 0 ? FINISH : MESSAGE, bytes, length);
        seen[answer < 67 ? answer : 65]++;
        if (below(32) == 0) {
            (void)call_next_request();
        }
    }
}

int main(int count, char **words)
{
    const unsigned long rounds = count > 1 ? strtoul(words[1], NULL, 10) : 200000;
    watch();
    alarm(120);
    slices_make();
    session_make(2, 1);
    try_worked();
    try_requests();
    try_handshake();
    session_make(2, 1);
    try_random(rounds);
    printf("answers to random messages:");
    for (size_t a = 0; a < 67; a++) {
        if (seen[a] != 0) {
            printf(" %zu:%lu", a, seen[a]);
        }
    }
    printf("\nmessages: %lu random messages, %lu tests, %lu failed\n", rounds, tests, failures);
    return failures != 0;
}
