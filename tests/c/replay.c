/*
 * replay: reads a call script on standard input and writes its trail, through the functions of bozterrun.h alone.
 *
 * docs/CALL-SCRIPTS.md says what a script and a trail are. A line that is no call ends the trail with `error line N`,
 * and the exit status is then 2. A call that writes more of the session's texts than it may, which a trail does not
 * show, ends it too, with the status 3: a text that is taken is put at the start of one slot, and a read writes no more
 * slots than it takes texts.
 */
#define _POSIX_C_SOURCE 200809L
#include "bozterrun.h"
#include <inttypes.h>
#include <stdio.h>
#include <stdlib.h>
#include <string.h>
#include <sys/types.h>

/* A read of 65,535 requests writes 18 bytes for each Sync, so no call writes as many bytes as OUT_LIMIT. */
enum { LINE_LIMIT = 65536, OUT_LIMIT = 1 << 21, OUT_USUAL = 4096, WORDS_LIMIT = 4, READ_LIMIT = 65535 };

/*
 * The calls, by where they may be made, with a letter for each word behind the name: L a number of 64 bits, I one of
 * 32, B one of 8, N how many lines a read has, A a signed amount, F an f32, T a text, O a text or `none`, S a press
 * state, C a context type, D a device type, R a reason, M one capability.
 */
#define SETTINGS(X) X(NOW, "now", "L") X(OUT, "out", "L") X(BUFFER, "buffer", "L") X(START, "start", "I")
#define ANYWHERE(X) X(WRITE_MESSAGE, "write_message", "BT") X(READ_MESSAGE, "read_message", "BT")
#define CLIENT(X) \
    X(HANDSHAKE_VERSION, "handshake.handshake_version", "I") \
    X(HANDSHAKE_NAME, "handshake.name", "T") \
    X(HANDSHAKE_CONTEXT_TYPE, "handshake.context_type", "C") \
    X(HANDSHAKE_INTERFACE_VERSION, "handshake.interface_version", "TI") \
    X(HANDSHAKE_FINISH, "handshake.finish", "") \
    X(CONNECTION_SYNC, "connection.sync", "LI") \
    X(CONNECTION_DISCONNECT, "connection.disconnect", "") \
    X(PINGPONG_DONE, "pingpong.done", "") \
    X(SEAT_RELEASE, "seat.release", "L") \
    X(SEAT_BIND, "seat.bind", "LL") \
    X(SEAT_REQUEST_DEVICE, "seat.request_device", "LL") \
    X(DEVICE_RELEASE, "device.release", "L") \
    X(DEVICE_START_EMULATING, "device.start_emulating", "LII") \
    X(DEVICE_STOP_EMULATING, "device.stop_emulating", "LI") \
    X(DEVICE_FRAME, "device.frame", "LIL") \
    X(DEVICE_READY, "device.ready", "L") \
    X(POINTER_RELEASE, "pointer.release", "L") \
    X(POINTER_MOTION_RELATIVE, "pointer.motion_relative", "LFF") \
    X(POINTER_ABSOLUTE_RELEASE, "pointer_absolute.release", "L") \
    X(POINTER_ABSOLUTE_MOTION_ABSOLUTE, "pointer_absolute.motion_absolute", "LFF") \
    X(SCROLL_RELEASE, "scroll.release", "L") \
    X(SCROLL_SCROLL, "scroll.scroll", "LFF") \
    X(SCROLL_SCROLL_DISCRETE, "scroll.scroll_discrete", "LAA") \
    X(SCROLL_SCROLL_STOP, "scroll.scroll_stop", "LIII") \
    X(BUTTON_RELEASE, "button.release", "L") \
    X(BUTTON_BUTTON, "button.button", "LIS") \
    X(KEYBOARD_RELEASE, "keyboard.release", "L") \
    X(KEYBOARD_KEY, "keyboard.key", "LIS") \
    X(TOUCHSCREEN_RELEASE, "touchscreen.release", "L") \
    X(TOUCHSCREEN_DOWN, "touchscreen.down", "LIFF") \
    X(TOUCHSCREEN_MOTION, "touchscreen.motion", "LIFF") \
    X(TOUCHSCREEN_UP, "touchscreen.up", "LI") \
    X(TOUCHSCREEN_CANCEL, "touchscreen.cancel", "LII") \
    X(TEXT_RELEASE, "text.release", "L") \
    X(TEXT_KEYSYM, "text.keysym", "LIS") \
    X(TEXT_UTF8, "text.utf8", "LT") \
    X(MESSAGE, "message", "T")
#define STATION(X) \
    X(NEXT_REQUEST, "next_request", "") \
    X(READ, "read", "NT") \
    X(ADD_SEAT, "add_seat", "OL") \
    X(ADD_DEVICE, "add_device", "LODL") \
    X(REMOVE_SEAT, "remove_seat", "L") \
    X(REMOVE_DEVICE, "remove_device", "L") \
    X(RESUMED, "resumed", "L") \
    X(PAUSED, "paused", "L") \
    X(START_EMULATING, "start_emulating", "LI") \
    X(STOP_EMULATING, "stop_emulating", "L") \
    X(FRAME, "frame", "LL") \
    X(DISCONNECTED, "disconnected", "RO") \
    X(LAST_SERIAL, "last_serial", "") \
    X(HAS_INTERFACE, "has_interface", "T") \
    X(INTERFACE_VERSION, "interface_version", "T") \
    X(HAS_CAPABILITY, "has_capability", "LM")

#define AS_CASE(name, word, words) name,
#define AS_ROW(name, word, words) {word, words},
enum verb { SETTINGS(AS_CASE) ANYWHERE(AS_CASE) CLIENT(AS_CASE) STATION(AS_CASE) VERBS };
static const struct {
    const char *name, *words;
} verbs[VERBS] = {SETTINGS(AS_ROW) ANYWHERE(AS_ROW) CLIENT(AS_ROW) STATION(AS_ROW)};

/* A line: what it asks for, its words by place, and its text, NULL where it is `none`. */
static struct {
    enum verb verb;
    uint64_t n[WORDS_LIMIT];
    float f[WORDS_LIMIT];
    int32_t amount[WORDS_LIMIT];
    const uint8_t *text;
    size_t length;
    uint64_t start, part; /* in a read a text is a part of the read's: where it begins, and how long it is */
} line;

static struct {
    enum { BEFORE, SHAKING, RUNNING } phase;
    uint64_t clock, out_length, buffer_length;
    bozterrun_handshake handshake;
    bozterrun_session session;
} run = {.out_length = OUT_USUAL, .buffer_length = BOZTERRUN_NAME_LENGTH};

static uint8_t out[OUT_LIMIT], buffer[OUT_LIMIT], text_bytes[LINE_LIMIT / 2];

/* A read that is being gathered: how many requests it lacks, and what it has. */
static struct {
    bool on;
    uint64_t lacking;
    bozterrun_read read;
} reading;

static bozterrun_record records[READ_LIMIT];
static bozterrun_point points[READ_LIMIT];
static uint8_t read_texts[LINE_LIMIT / 2];

/* The session's texts before a call, and the bytes of a slot. */
static uint8_t texts_before[BOZTERRUN_TEXTS_LENGTH];
enum { SLOT_LENGTH = 256 };

/* ---- Reading ---- */

static int digit_of(char c)
{
    static const char digits[] = "0123456789abcdef0123456789ABCDEF";
    const char *const found = c != 0 ? strchr(digits, c) : NULL;
    return found != NULL ? (int)(found - digits) % 16 : 99;
}

static bool read_number(const char *word, size_t length, uint64_t *n)
{
    const bool hex = length >= 2 && word[0] == '0' && word[1] == 'x';
    const uint64_t base = hex ? 16 : 10;
    size_t i = hex ? 2 : 0;
    *n = 0;
    if (i == length) {
        return false;
    }
    for (; i < length; i++) {
        const uint64_t digit = (uint64_t)digit_of(word[i]);
        if (digit >= base || *n > (UINT64_MAX - digit) / base) {
            return false;
        }
        *n = *n * base + digit;
    }
    return true;
}

static bool read_amount(const char *word, size_t length, int32_t *amount)
{
    uint64_t n;
    const bool negative = word[0] == '-';
    if (negative && length >= 3 && word[1] == '0' && word[2] == 'x') {
        return false;
    }
    if (!read_number(word + negative, length - negative, &n) || n > 2147483647 + (uint64_t)negative) {
        return false;
    }
    *amount = (int32_t)(negative ? -(int64_t)n : (int64_t)n);
    return true;
}

static bool read_real(const char *word, size_t length, float *f)
{
    uint64_t n = 0x7fc00000;
    if (!(length == 3 && memcmp(word, "nan", 3) == 0) &&
        (length < 2 || memcmp(word, "0x", 2) != 0 || !read_number(word, length, &n) || n > UINT32_MAX)) {
        return false;
    }
    const uint32_t bits = (uint32_t)n;
    memcpy(f, &bits, sizeof bits);
    return true;
}

static bool read_text(const char *word, size_t length)
{
    if (length < 2 || length % 2 != 0 || memcmp(word, "t:", 2) != 0) {
        return false;
    }
    line.text = text_bytes;
    line.length = length / 2 - 1;
    for (size_t i = 0; i < line.length; i++) {
        const int high = digit_of(word[2 + 2 * i]), low = digit_of(word[3 + 2 * i]);
        if (high > 15 || low > 15) {
            return false;
        }
        text_bytes[i] = (uint8_t)(16 * high + low);
    }
    return true;
}

/* `p:START:LENGTH`. */
static bool read_part(const char *word, size_t length)
{
    const char *const colon = length > 2 ? memchr(word + 2, ':', length - 2) : NULL;
    if (colon == NULL || memcmp(word, "p:", 2) != 0) {
        return false;
    }
    return read_number(word + 2, (size_t)(colon - word) - 2, &line.start) &&
           read_number(colon + 1, (size_t)(word + length - colon) - 1, &line.part);
}

/* The word at a place, by its letter. */
static bool read_word(char letter, size_t place, const char *word, size_t length)
{
    uint64_t *const n = &line.n[place];
    switch (letter) {
    case 'A':
        return read_amount(word, length, &line.amount[place]);
    case 'F':
        return read_real(word, length, &line.f[place]);
    case 'O':
        if (length == 4 && memcmp(word, "none", 4) == 0) {
            line.text = NULL;
            return true;
        }
        return read_text(word, length);
    case 'T':
        return reading.on ? read_part(word, length) : read_text(word, length);
    }
    if (!read_number(word, length, n)) {
        return false;
    }
    switch (letter) {
    case 'I':
        return *n <= UINT32_MAX;
    case 'B':
        return *n <= UINT8_MAX;
    case 'N':
        return *n <= READ_LIMIT;
    case 'S':
        return *n <= 1;
    case 'C':
    case 'D':
        return *n == 1 || *n == 2;
    case 'R':
        return *n <= 5;
    case 'M':
        return *n < 128 && *n != 0 && (*n & (*n - 1)) == 0;
    }
    return true;
}

static bool read_line(const char *bytes, size_t length)
{
    const char *const end = bytes + length;
    const char *word = bytes;
    const char *space = memchr(word, ' ', length);
    size_t size = (size_t)((space != NULL ? space : end) - word);
    size_t verb = 0;
    while (verb < VERBS && (strlen(verbs[verb].name) != size || memcmp(verbs[verb].name, word, size) != 0)) {
        verb++;
    }
    if (verb == VERBS) {
        return false;
    }
    line.verb = (enum verb)verb;
    line.text = text_bytes;
    line.length = 0;
    for (size_t place = 0; verbs[verb].words[place] != 0; place++) {
        if (space == NULL) {
            return false;
        }
        word = space + 1;
        space = memchr(word, ' ', (size_t)(end - word));
        size = (size_t)((space != NULL ? space : end) - word);
        if (size == 0 || !read_word(verbs[verb].words[place], place, word, size)) {
            return false;
        }
    }
    return space == NULL;
}

/* ---- Writing ---- */

static void write_hex(const uint8_t *bytes, size_t length)
{
    for (size_t i = 0; i < length; i++) {
        printf("%02x", bytes[i]);
    }
}

/* The end of an answer's line: the event records. */
static void write_records(size_t count)
{
    bozterrun_event event;
    size_t at = 0, before = 0;
    if (count > 0) {
        printf(" |");
    }
    while (bz_next_event(out, count, &at, &event)) {
        printf(" ");
        write_hex(out + before, at - before);
        before = at;
    }
    if (at != count) {
        printf(" no record at byte %zu of %zu", at, count);
    }
    printf("\n");
}

static void write_real(const char *name, float f)
{
    uint32_t bits;
    memcpy(&bits, &f, sizeof bits);
    if ((bits & 0x7fffffff) > 0x7f800000) {
        printf(" %s=nan", name);
    } else {
        printf(" %s=0x%08" PRIx32, name, bits);
    }
}

static void write_pair(const char *x, const char *y, const bozterrun_request *r)
{
    write_real(x, r->x);
    write_real(y, r->y);
}

static void write_request(const bozterrun_request *r)
{
    static const char *const names[] = {
        "Disconnect", "Bind", "DeviceClosed", "RequestDevice", "Frame", "Ready", "DeviceStartEmulating",
        "DeviceStopEmulating", "PointerMotion", "PointerMotionAbsolute", "Button", "ScrollDelta", "ScrollStop",
        "ScrollCancel", "ScrollDiscrete", "KeyboardKey", "TouchDown", "TouchUp", "TouchMotion", "TouchCancel",
        "TextKeysym", "TextUtf8"};
    const uint32_t kind = bz_request_kind(r);
    const unsigned press = r->state == BOZTERRUN_PRESS;
    printf("%s", names[kind]);
    if (kind == BOZTERRUN_REQUEST_BIND || kind == BOZTERRUN_REQUEST_REQUEST_DEVICE) {
        printf(" seat=0x%016" PRIx64 " capabilities=%" PRIu64, r->seat, r->capabilities);
    } else if (kind != BOZTERRUN_REQUEST_DISCONNECT) {
        printf(" device=0x%016" PRIx64, r->device);
    }
    if (kind >= BOZTERRUN_REQUEST_POINTER_MOTION) {
        printf(" time=%" PRIu64, r->time);
    }
    switch (kind) {
    case BOZTERRUN_REQUEST_FRAME:
        printf(" last_serial=%" PRIu32 " time=%" PRIu64, r->last_serial, r->time);
        break;
    case BOZTERRUN_REQUEST_DEVICE_START_EMULATING:
        printf(" last_serial=%" PRIu32 " sequence=%" PRIu32, r->last_serial, r->sequence);
        break;
    case BOZTERRUN_REQUEST_DEVICE_STOP_EMULATING:
        printf(" last_serial=%" PRIu32, r->last_serial);
        break;
    case BOZTERRUN_REQUEST_POINTER_MOTION:
    case BOZTERRUN_REQUEST_SCROLL_DELTA:
        write_pair("dx", "dy", r);
        break;
    case BOZTERRUN_REQUEST_POINTER_MOTION_ABSOLUTE:
        write_pair("dx_absolute", "dy_absolute", r);
        break;
    case BOZTERRUN_REQUEST_BUTTON:
        printf(" button=%" PRIu32 " state=%u", r->button, press);
        break;
    case BOZTERRUN_REQUEST_SCROLL_STOP:
    case BOZTERRUN_REQUEST_SCROLL_CANCEL:
        printf(" x=%s y=%s", r->stop_x == 1 ? "true" : "false", r->stop_y == 1 ? "true" : "false");
        break;
    case BOZTERRUN_REQUEST_SCROLL_DISCRETE:
        printf(" discrete_dx=%" PRId32 " discrete_dy=%" PRId32, r->discrete_x, r->discrete_y);
        break;
    case BOZTERRUN_REQUEST_KEYBOARD_KEY:
        printf(" key=%" PRIu32 " state=%u", r->key, press);
        break;
    case BOZTERRUN_REQUEST_TOUCH_DOWN:
    case BOZTERRUN_REQUEST_TOUCH_MOTION:
        printf(" touch_id=%" PRIu32, r->touch_id);
        write_pair("x", "y", r);
        break;
    case BOZTERRUN_REQUEST_TOUCH_UP:
    case BOZTERRUN_REQUEST_TOUCH_CANCEL:
        printf(" touch_id=%" PRIu32, r->touch_id);
        break;
    case BOZTERRUN_REQUEST_TEXT_KEYSYM:
        printf(" keysym=%" PRIu32 " state=%u", r->keysym, press);
        break;
    case BOZTERRUN_REQUEST_TEXT_UTF8:
        printf(" text=t:");
        write_hex(buffer, r->length);
        break;
    default: /* the other kinds have no more fields */
        break;
    }
}

/* ---- The calls ---- */

/* What a call answered, besides event records. */
typedef struct {
    uint32_t answer;
    size_t count;
    uint64_t value;
    uint32_t interface, version; /* that refusal 2 tells */
    size_t taken;                /* by a message */
    bozterrun_details details;   /* of one that is malformed */
} told;

static const told nothing_told = {0, 0, 0, 0, 0, 0, {0, {0}, {0}}};

static void write_refusal(const told *t)
{
    printf("refused %" PRIu32, t->answer);
    if (t->answer == BOZTERRUN_INVALID_INTERFACE_VERSION) {
        printf(" interface=%" PRIu32 " version=%" PRIu32, t->interface, t->version);
    }
    if (t->answer != BOZTERRUN_MALFORMED) {
        return;
    }
    const uint32_t parse_error = t->details.parse_error;
    printf(" %s", bz_parse_error_name(parse_error));
    switch (parse_error) {
    case BOZTERRUN_PARSE_ERROR_INVALID_OPCODE:
        printf(" %" PRIu32 " %" PRIu32, t->details.interface, t->details.opcode);
        break;
    case BOZTERRUN_PARSE_ERROR_INVALID_VARIANT:
        printf(" %" PRIu32, t->details.variant);
        break;
    case BOZTERRUN_PARSE_ERROR_HEADER_LENGTH:
        printf(" %" PRIu32, t->details.length);
        break;
    case BOZTERRUN_PARSE_ERROR_MESSAGE_LENGTH:
        printf(" %" PRIu32 " %" PRIu32, t->details.read, t->details.header);
        break;
    default: /* the other cases have no numbers */
        break;
    }
}

static void write_answer(const told *t)
{
    if (t->answer == BOZTERRUN_NONE) {
        printf("none");
    } else if (t->answer == BOZTERRUN_WAIT) {
        printf("wait");
    } else if (t->answer != BOZTERRUN_ACCEPTED) {
        write_refusal(t);
    } else if (line.verb == ADD_SEAT || line.verb == ADD_DEVICE) {
        printf("%s 0x%016" PRIx64, line.verb == ADD_SEAT ? "seat" : "device", t->value);
    } else if (line.verb == LAST_SERIAL || line.verb == INTERFACE_VERSION) {
        printf("%" PRIu64, t->value);
    } else if (line.verb == HAS_INTERFACE || line.verb == HAS_CAPABILITY) {
        printf(t->value == 1 ? "true" : "false");
    } else if (line.verb == MESSAGE) {
        printf("accepted taken %zu", t->taken);
    } else if (line.verb != NEXT_REQUEST) {
        printf("accepted");
    }
    write_records(t->count);
}

static size_t at_most(uint64_t length)
{
    return length < OUT_LIMIT ? (size_t)length : OUT_LIMIT;
}

/* A record turned into its message, or a message into its record. */
static void turn(void)
{
    const bool writes = line.verb == WRITE_MESSAGE;
    const size_t room = at_most(run.out_length);
    size_t count;
    const uint32_t answer = writes ? bz_write_message((uint32_t)line.n[0], line.text, line.length, out, room, &count)
                                   : bz_read_message((uint32_t)line.n[0], line.text, line.length, out, room, &count);
    if (answer != BOZTERRUN_ACCEPTED) {
        printf("refused %" PRIu32 "\n", answer);
        return;
    }
    printf("%s t:", writes ? "message" : "record");
    write_hex(out, count);
    printf("\n");
}

#define N32(place) ((uint32_t)line.n[place])
#define LENT_OUT out, at_most(run.out_length), &t.count

/* A client's message before the session. */
static told shake(void)
{
    bozterrun_handshake *const h = &run.handshake;
    uint32_t begun;
    told t = nothing_told;
    switch (line.verb) {
    case HANDSHAKE_VERSION:
        t.answer = bz_handshake_handshake_version(h, N32(0));
        break;
    case HANDSHAKE_NAME:
        t.answer = bz_handshake_name(h, line.text, line.length);
        break;
    case HANDSHAKE_CONTEXT_TYPE:
        t.answer = bz_handshake_context_type(h, N32(0));
        break;
    case HANDSHAKE_INTERFACE_VERSION:
        t.answer = bz_handshake_interface_version(h, line.text, line.length, N32(1));
        break;
    case HANDSHAKE_FINISH:
        t.answer = bz_handshake_finish(h, &run.session, LENT_OUT);
        if (t.answer == BOZTERRUN_ACCEPTED) {
            run.phase = RUNNING;
        }
        break;
    case MESSAGE:
        t.answer = bz_handshake_pending_request(h, &run.session, line.text, line.length, out, at_most(run.out_length),
                                                &t.taken, &t.count, &begun, &t.details);
        if (begun == 1) {
            run.phase = RUNNING;
        }
        break;
    default:
        t.answer = bz_handshake_other(h, line.text, line.length);
    }
    return t;
}

static uint32_t turn_away(uint32_t opcode)
{
    return bz_unexpected_handshake(&run.session, opcode, N32(0), line.text, line.length);
}

/* A call on the session. */
static told call(void)
{
    bozterrun_session *const s = &run.session;
    const uint64_t id = line.n[0];
    bozterrun_request request;
    told t = nothing_told;
#define RELEASE(capability) bz_interface_release(s, capability, id, LENT_OUT)
    switch (line.verb) {
    case HANDSHAKE_VERSION:
        t.answer = turn_away(BOZTERRUN_OPCODE_HANDSHAKE_VERSION);
        break;
    case HANDSHAKE_NAME:
        t.answer = turn_away(BOZTERRUN_OPCODE_NAME);
        break;
    case HANDSHAKE_CONTEXT_TYPE:
        t.answer = turn_away(BOZTERRUN_OPCODE_CONTEXT_TYPE);
        break;
    case HANDSHAKE_INTERFACE_VERSION:
        t.answer = turn_away(BOZTERRUN_OPCODE_INTERFACE_VERSION);
        break;
    case HANDSHAKE_FINISH:
        t.answer = turn_away(BOZTERRUN_OPCODE_FINISH);
        break;
    case CONNECTION_SYNC:
        t.answer = bz_connection_sync(s, id, N32(1), LENT_OUT, &t.interface, &t.version);
        break;
    case CONNECTION_DISCONNECT:
        t.answer = bz_connection_disconnect(s);
        break;
    case PINGPONG_DONE:
        t.answer = bz_pingpong_done(s);
        break;
    case SEAT_RELEASE:
        t.answer = bz_seat_release(s, id, LENT_OUT);
        break;
    case SEAT_BIND:
        t.answer = bz_seat_bind(s, id, line.n[1]);
        break;
    case SEAT_REQUEST_DEVICE:
        t.answer = bz_seat_request_device(s, id, line.n[1]);
        break;
    case DEVICE_RELEASE:
        t.answer = bz_device_release(s, id, run.clock);
        break;
    case DEVICE_START_EMULATING:
        t.answer = bz_device_start_emulating(s, id, N32(1), N32(2), run.clock);
        break;
    case DEVICE_STOP_EMULATING:
        t.answer = bz_device_stop_emulating(s, id, N32(1), run.clock);
        break;
    case DEVICE_FRAME:
        t.answer = bz_device_frame(s, id, N32(1), line.n[2]);
        break;
    case DEVICE_READY:
        t.answer = bz_device_ready(s, id, run.clock);
        break;
    case POINTER_RELEASE:
        t.answer = RELEASE(BOZTERRUN_CAPABILITY_POINTER);
        break;
    case POINTER_MOTION_RELATIVE:
        t.answer = bz_pointer_motion_relative(s, id, line.f[1], line.f[2]);
        break;
    case POINTER_ABSOLUTE_RELEASE:
        t.answer = RELEASE(BOZTERRUN_CAPABILITY_POINTER_ABSOLUTE);
        break;
    case POINTER_ABSOLUTE_MOTION_ABSOLUTE:
        t.answer = bz_pointer_absolute_motion_absolute(s, id, line.f[1], line.f[2]);
        break;
    case SCROLL_RELEASE:
        t.answer = RELEASE(BOZTERRUN_CAPABILITY_SCROLL);
        break;
    case SCROLL_SCROLL:
        t.answer = bz_scroll_scroll(s, id, line.f[1], line.f[2]);
        break;
    case SCROLL_SCROLL_DISCRETE:
        t.answer = bz_scroll_scroll_discrete(s, id, line.amount[1], line.amount[2]);
        break;
    case SCROLL_SCROLL_STOP:
        t.answer = bz_scroll_scroll_stop(s, id, N32(1), N32(2), N32(3));
        break;
    case BUTTON_RELEASE:
        t.answer = RELEASE(BOZTERRUN_CAPABILITY_BUTTON);
        break;
    case BUTTON_BUTTON:
        t.answer = bz_button_button(s, id, N32(1), N32(2));
        break;
    case KEYBOARD_RELEASE:
        t.answer = RELEASE(BOZTERRUN_CAPABILITY_KEYBOARD);
        break;
    case KEYBOARD_KEY:
        t.answer = bz_keyboard_key(s, id, N32(1), N32(2));
        break;
    case TOUCHSCREEN_RELEASE:
        t.answer = RELEASE(BOZTERRUN_CAPABILITY_TOUCH);
        break;
    case TOUCHSCREEN_DOWN:
        t.answer = bz_touchscreen_down(s, id, N32(1), line.f[2], line.f[3]);
        break;
    case TOUCHSCREEN_MOTION:
        t.answer = bz_touchscreen_motion(s, id, N32(1), line.f[2], line.f[3]);
        break;
    case TOUCHSCREEN_UP:
        t.answer = bz_touchscreen_up(s, id, N32(1));
        break;
    case TOUCHSCREEN_CANCEL:
        t.answer = bz_touchscreen_cancel(s, id, N32(1), N32(2), &t.interface, &t.version);
        break;
    case TEXT_RELEASE:
        t.answer = RELEASE(BOZTERRUN_CAPABILITY_TEXT);
        break;
    case TEXT_KEYSYM:
        t.answer = bz_text_keysym(s, id, N32(1), N32(2));
        break;
    case TEXT_UTF8:
        t.answer = bz_text_utf8(s, id, line.text, line.length);
        break;
    case MESSAGE:
        t.answer = bz_pending_request(s, line.text, line.length, run.clock, out, at_most(run.out_length), &t.taken,
                                      &t.count, &t.details);
        t.interface = t.details.interface;
        t.version = t.details.version;
        break;
    case NEXT_REQUEST:
        t.answer = bz_next_request(s, &request, buffer, at_most(run.buffer_length));
        if (t.answer == BOZTERRUN_ACCEPTED) {
            write_request(&request);
        }
        break;
    case ADD_SEAT:
        t.answer = bz_add_seat(s, line.text, line.length, line.n[1], LENT_OUT, &t.value);
        break;
    case ADD_DEVICE:
        t.answer = bz_add_device(s, id, line.text, line.length, N32(2), line.n[3], LENT_OUT, &t.value);
        break;
    case REMOVE_SEAT:
        t.answer = bz_remove_seat(s, id, LENT_OUT);
        break;
    case REMOVE_DEVICE:
        t.answer = bz_remove_device(s, id, LENT_OUT);
        break;
    case RESUMED:
        t.answer = bz_resumed(s, id, LENT_OUT);
        break;
    case PAUSED:
        t.answer = bz_paused(s, id, LENT_OUT);
        break;
    case START_EMULATING:
        t.answer = bz_start_emulating(s, id, N32(1), LENT_OUT);
        break;
    case STOP_EMULATING:
        t.answer = bz_stop_emulating(s, id, LENT_OUT);
        break;
    case FRAME:
        t.answer = bz_frame(s, id, line.n[1], LENT_OUT);
        break;
    case DISCONNECTED:
        t.answer = bz_disconnected(s, N32(0), line.text, line.length, LENT_OUT);
        break;
    case LAST_SERIAL:
        t.answer = bz_last_serial(s, &t.value);
        break;
    case HAS_INTERFACE:
        t.answer = bz_has_interface(s, line.text, line.length, &t.value);
        break;
    case INTERFACE_VERSION:
        t.answer = bz_interface_version(s, line.text, line.length, &t.value);
        break;
    case HAS_CAPABILITY:
        t.answer = bz_has_capability(s, id, line.n[1], &t.value);
        break;
    default: /* settings are no calls */
        break;
    }
    return t;
}

/* Adds the line's request to the read; false where it is no client's. A text has its part, so no byte is copied. */
static bool gather(void)
{
    bozterrun_read *const r = &reading.read;
    const uint64_t id = line.n[0];
    bozterrun_record with_part = {{{0}}};
    with_part.object = line.verb == TEXT_UTF8 ? id : 0;
    with_part.first = line.verb == HANDSHAKE_INTERFACE_VERSION ? line.n[1] : 0;
    with_part.start = line.start;
    with_part.length = line.part;
    switch (line.verb) {
    case HANDSHAKE_VERSION:
        return bz_read_handshake_handshake_version(r, N32(0));
    case HANDSHAKE_NAME:
        with_part.request = BOZTERRUN_READ_HANDSHAKE_NAME;
        return bz_read_record(r, &with_part, 0, 0);
    case HANDSHAKE_CONTEXT_TYPE:
        return bz_read_handshake_context_type(r, N32(0));
    case HANDSHAKE_INTERFACE_VERSION:
        with_part.request = BOZTERRUN_READ_HANDSHAKE_INTERFACE_VERSION;
        return bz_read_record(r, &with_part, 0, 0);
    case HANDSHAKE_FINISH:
        return bz_read_handshake_finish(r);
    case CONNECTION_SYNC:
        return bz_read_connection_sync(r, id, N32(1));
    case CONNECTION_DISCONNECT:
        return bz_read_connection_disconnect(r);
    case PINGPONG_DONE:
        return bz_read_pingpong_done(r);
    case SEAT_RELEASE:
        return bz_read_seat_release(r, id);
    case SEAT_BIND:
        return bz_read_seat_bind(r, id, line.n[1]);
    case SEAT_REQUEST_DEVICE:
        return bz_read_seat_request_device(r, id, line.n[1]);
    case DEVICE_RELEASE:
        return bz_read_device_release(r, id);
    case DEVICE_START_EMULATING:
        return bz_read_device_start_emulating(r, id, N32(1), N32(2));
    case DEVICE_STOP_EMULATING:
        return bz_read_device_stop_emulating(r, id, N32(1));
    case DEVICE_FRAME:
        return bz_read_device_frame(r, id, N32(1), line.n[2]);
    case DEVICE_READY:
        return bz_read_device_ready(r, id);
    case POINTER_RELEASE:
        return bz_read_pointer_release(r, id);
    case POINTER_MOTION_RELATIVE:
        return bz_read_pointer_motion_relative(r, id, line.f[1], line.f[2]);
    case POINTER_ABSOLUTE_RELEASE:
        return bz_read_pointer_absolute_release(r, id);
    case POINTER_ABSOLUTE_MOTION_ABSOLUTE:
        return bz_read_pointer_absolute_motion_absolute(r, id, line.f[1], line.f[2]);
    case SCROLL_RELEASE:
        return bz_read_scroll_release(r, id);
    case SCROLL_SCROLL:
        return bz_read_scroll_scroll(r, id, line.f[1], line.f[2]);
    case SCROLL_SCROLL_DISCRETE:
        return bz_read_scroll_scroll_discrete(r, id, line.amount[1], line.amount[2]);
    case SCROLL_SCROLL_STOP:
        return bz_read_scroll_scroll_stop(r, id, N32(1), N32(2), N32(3));
    case BUTTON_RELEASE:
        return bz_read_button_release(r, id);
    case BUTTON_BUTTON:
        return bz_read_button_button(r, id, N32(1), N32(2));
    case KEYBOARD_RELEASE:
        return bz_read_keyboard_release(r, id);
    case KEYBOARD_KEY:
        return bz_read_keyboard_key(r, id, N32(1), N32(2));
    case TOUCHSCREEN_RELEASE:
        return bz_read_touchscreen_release(r, id);
    case TOUCHSCREEN_DOWN:
        return bz_read_touchscreen_down(r, id, N32(1), line.f[2], line.f[3]);
    case TOUCHSCREEN_MOTION:
        return bz_read_touchscreen_motion(r, id, N32(1), line.f[2], line.f[3]);
    case TOUCHSCREEN_UP:
        return bz_read_touchscreen_up(r, id, N32(1));
    case TOUCHSCREEN_CANCEL:
        return bz_read_touchscreen_cancel(r, id, N32(1), N32(2));
    case TEXT_RELEASE:
        return bz_read_text_release(r, id);
    case TEXT_KEYSYM:
        return bz_read_text_keysym(r, id, N32(1), N32(2));
    case TEXT_UTF8:
        with_part.request = BOZTERRUN_READ_TEXT_UTF8;
        return bz_read_record(r, &with_part, 0, 0);
    default:
        return false;
    }
}

static void keep_texts(void)
{
    memcpy(texts_before, run.session.texts, sizeof texts_before);
}

/* How many slots of the texts were written since. */
static size_t slots_written(void)
{
    size_t written = 0;
    for (size_t at = 0; at < sizeof texts_before; at += SLOT_LENGTH) {
        written += memcmp(run.session.texts + at, texts_before + at, SLOT_LENGTH) != 0;
    }
    return written;
}

static void must_hold(bool holds)
{
    if (!holds) {
        fflush(stdout);
        fprintf(stderr, "%zu slots of the texts were written\n", slots_written());
        exit(3);
    }
}

/* Nothing was written, or this text at the start of a slot. */
static void check_text(const uint8_t *text, size_t length)
{
    for (size_t at = 0; at < sizeof texts_before && slots_written() > 0; at += SLOT_LENGTH) {
        if (length <= SLOT_LENGTH && memcmp(run.session.texts + at, texts_before + at, SLOT_LENGTH) != 0) {
            memcpy(texts_before + at, text, length);
            break;
        }
    }
    must_hold(slots_written() == 0);
}

/* The same of a call: the text is a Utf8's, or what would be one in a message, behind its length. */
static void check_call(uint32_t answer)
{
    const bool message = line.verb == MESSAGE && line.length > 20 && line.text[16] > 0;
    if (answer == BOZTERRUN_ACCEPTED && line.verb == TEXT_UTF8) {
        check_text(line.text, line.length);
    } else if (answer == BOZTERRUN_ACCEPTED && message && line.text[16] - 1u <= line.length - 20) {
        check_text(line.text + 20, line.text[16] - 1u);
    } else {
        must_hold(slots_written() == 0);
    }
}

/* Hands the read over, if it lacks no request. */
static void hand_over(void)
{
    told t = nothing_told;
    size_t accepted, texts = 0;
    if (reading.lacking > 0) {
        return;
    }
    reading.on = false;
    keep_texts();
    t.answer = bz_handle_requests(&run.session, &reading.read, run.clock, out, at_most(run.out_length), &accepted,
                                  &t.count, &t.interface, &t.version);
    for (size_t i = 0; i < accepted; i++) {
        texts += records[i].request == BOZTERRUN_READ_TEXT_UTF8;
    }
    must_hold(slots_written() <= texts);
    printf("accepted %zu", accepted);
    if (t.answer != BOZTERRUN_ACCEPTED) {
        printf(" ");
        write_refusal(&t);
    }
    write_records(t.count);
}

/* Does what the line asks for; false where no such call can be made here. */
static bool play(void)
{
    told t = nothing_told;
    if (reading.on) {
        if (!gather()) {
            return false;
        }
        reading.lacking--;
        hand_over();
        return true;
    }
    switch (line.verb) {
    case NOW:
        run.clock = line.n[0];
        return true;
    case OUT:
        run.out_length = line.n[0];
        return true;
    case BUFFER:
        run.buffer_length = line.n[0];
        return true;
    case WRITE_MESSAGE:
    case READ_MESSAGE:
        turn();
        return true;
    case START:
        run.phase = SHAKING;
        memset(&run.handshake, 0xa5, sizeof run.handshake); /* what the memory held does not count */
        memset(&run.session, 0xa5, sizeof run.session);
        t.answer = bz_handshake_new(&run.handshake, N32(0), LENT_OUT);
        break;
    default:
        if (run.phase == BEFORE || (run.phase == SHAKING && line.verb >= NEXT_REQUEST)) {
            return false;
        }
        if (line.verb == READ) {
            bz_read_begin(&reading.read, records, points, READ_LIMIT, read_texts, sizeof read_texts);
            memcpy(read_texts, line.text, line.length);
            reading.read.texts_length = line.length;
            reading.lacking = line.n[0];
            reading.on = true;
            hand_over();
            return true;
        }
        keep_texts();
        t = run.phase == RUNNING ? call() : shake();
        check_call(t.answer);
    }
    write_answer(&t);
    return true;
}

static int no_call(uintmax_t number, char *bytes)
{
    printf("error line %" PRIuMAX "\n", number);
    fprintf(stderr, "line %" PRIuMAX ": no call\n", number);
    free(bytes);
    return 2;
}

int main(void)
{
    char *bytes = NULL;
    size_t room = 0;
    ssize_t length;
    uintmax_t number = 1;
    for (; (length = getline(&bytes, &room, stdin)) > 0; number++) {
        length -= bytes[length - 1] == '\n';
        length -= length > 0 && bytes[length - 1] == '\r';
        if (length == 0 || (bytes[0] == '#' && length <= LINE_LIMIT)) {
            continue;
        }
        if (length > LINE_LIMIT || !read_line(bytes, (size_t)length) || !play()) {
            return no_call(number, bytes);
        }
    }
    if (reading.on) {
        return no_call(number, bytes); /* the script ends within a read, at the line behind its last */
    }
    free(bytes);
    return 0;
}
