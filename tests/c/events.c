/*
 * events [ROUNDS [STEP]]: event records as messages and back, by bozterrun_write_message and bozterrun_read_message.
 *
 * The bytes of worked lines were written by hand from the scope. Then every kind on every interface, with random
 * fields, has to give the message that the table below says; texts of every length; each byte of a record and of a
 * message with each STEP-th value; ROUNDS (200000) records and messages that are damaged or random; what calls write.
 *
 * Checked at each call: no read and no write outside the slices (a page behind each that may not be touched, known
 * bytes before it), that what is lent stays as it is, that nothing is written to `out` behind the count, that a refusal
 * writes nothing and counts 0, and both round trips: what was written is read back as the very record, and what was
 * read is written again as the very bytes. The last line has the number of tests and of failures; the exit status is 1
 * where there are failures.
 */
#include "slices.h"
#include "utf8.h"

static unsigned long tests, failures;

static void check(bool holds, const char *what)
{
    tests++;
    if (!holds) {
        failures++;
        if (failures <= 20) {
            printf("FAILED: %s: %s\n", where, what);
        }
    }
}

/* ---- One call ---- */

/* What the last call wrote: a message or a record. */
static uint8_t got[BOZTERRUN_OUT_LENGTH];
static size_t got_length;

/* Both ways alike: a slice in, another's bytes out, at most so many. */
static uint32_t hand_in(size_t which, uint32_t interface, const uint8_t *lent, size_t size, size_t room)
{
    const bool writes = which == EVENT;
    slice_lend(which, size);
    memcpy(slice_data(which), lent, size);
    slice_lend(OUT, room);
    with.interface = interface;
    slice_keep(which);
    slice_keep(OUT);
    const uint32_t answer = writes ? call_write_message() : call_read_message();
    const size_t most = writes ? BOZTERRUN_EVENT_MESSAGE_LENGTH : BOZTERRUN_EVENT_RECORD_LENGTH;
    const size_t count = number_at(COUNT);
    const uint32_t wrong = writes ? BOZTERRUN_UNSENDABLE : BOZTERRUN_MALFORMED;
    got_length = 0;
    check(answer == BOZTERRUN_ACCEPTED || answer == wrong || answer == BOZTERRUN_SHORT_OUT, "no answer of the call");
    check(!slice_overrun(which) && !slice_overrun(OUT), "written before a slice");
    check(slice_same(which), "what was lent has changed");
    if (answer != BOZTERRUN_ACCEPTED) {
        check(count == 0 && slice_same(OUT), "a refusal that writes");
        return answer;
    }
    if (count == 0 || count > most || count > room) {
        check(false, "the count");
        return answer;
    }
    check(memcmp(slice_data(OUT) + count, slices[OUT].kept + count, room - count) == 0, "written behind the count");
    memcpy(got, slice_data(OUT), count);
    got_length = count;
    return answer;
}

static bool got_bytes(const uint8_t *bytes, size_t length)
{
    return got_length == length && memcmp(got, bytes, length) == 0;
}

/* With enough room; what is accepted has to come back by the other call, and to fit into no byte less. */
static uint32_t there_and_back(size_t which, uint32_t interface, const uint8_t *lent, size_t size)
{
    static uint8_t other[BOZTERRUN_OUT_LENGTH];
    const uint32_t answer = hand_in(which, interface, lent, size, BOZTERRUN_OUT_LENGTH);
    if (answer != BOZTERRUN_ACCEPTED) {
        check(answer != BOZTERRUN_SHORT_OUT, "room that is too short");
        check(hand_in(which, interface, lent, size, 0) == answer, "another answer without room");
        return answer;
    }
    const size_t back = which == EVENT ? SENT : EVENT, length = got_length;
    memcpy(other, got, length);
    check(hand_in(back, interface, other, length, BOZTERRUN_OUT_LENGTH) == BOZTERRUN_ACCEPTED, "the way back");
    check(got_bytes(lent, size), "what comes back");
    check(hand_in(which, interface, lent, size, length - 1) == BOZTERRUN_SHORT_OUT, "one byte short");
    check(hand_in(which, interface, lent, size, length) == BOZTERRUN_ACCEPTED, "no byte over");
    check(got_bytes(other, length), "what is written without a byte over");
    return answer;
}

/* ---- Worked lines ---- */

static uint8_t record[4096], message[4096];
static size_t record_length, message_length;

/* Bytes from hexadecimal digits; spaces are left out. */
static size_t from_digits(const char *digits, uint8_t *bytes)
{
    static const char all[] = "0123456789abcdef";
    size_t nibbles = 0;
    for (; *digits != 0; digits++) {
        const char *const digit = strchr(all, *digits);
        if (digit != NULL) {
            const unsigned n = (unsigned)(digit - all);
            bytes[nibbles / 2] = (uint8_t)(nibbles % 2 == 0 ? n << 4 : bytes[nibbles / 2] | n);
            nibbles++;
        }
    }
    return nibbles / 2;
}

static void is_message(uint32_t interface, const char *record_digits, const char *message_digits)
{
    snprintf(where, sizeof where, "record %.60s on %" PRIu32, record_digits, interface);
    record_length = from_digits(record_digits, record);
    message_length = from_digits(message_digits, message);
    check(there_and_back(EVENT, interface, record, record_length) == BOZTERRUN_ACCEPTED, "the answer");
    check(got_bytes(message, message_length), "the message");
    check(there_and_back(SENT, interface, message, message_length) == BOZTERRUN_ACCEPTED, "the answer to the message");
    check(got_bytes(record, record_length), "the record");
}

/* What is refused changes nothing, not even where it was lent nothing: a session beside it stays as it is. */
static void changes_nothing(size_t which, uint32_t interface, const uint8_t *lent, size_t size)
{
    hand_in(which, interface, lent, size, BOZTERRUN_OUT_LENGTH);
    slices_keep();
    hand_in(which, interface, lent, size, BOZTERRUN_OUT_LENGTH);
    check(slices_changed() == SLICES && slices_overrun() == SLICES, "a slice has changed");
}

static void unsendable(uint32_t interface, const char *digits)
{
    snprintf(where, sizeof where, "record %.60s on %" PRIu32, digits, interface);
    record_length = from_digits(digits, record);
    check(there_and_back(EVENT, interface, record, record_length) == BOZTERRUN_UNSENDABLE, "it is sent");
    changes_nothing(EVENT, interface, record, record_length);
}

static void malformed(uint32_t interface, const char *digits)
{
    snprintf(where, sizeof where, "message %.60s on %" PRIu32, digits, interface);
    message_length = from_digits(digits, message);
    check(there_and_back(SENT, interface, message, message_length) == BOZTERRUN_MALFORMED, "it is read");
    changes_nothing(SENT, interface, message, message_length);
}

static void try_worked(void)
{
    static const char destroyed[] = "280e ff00000000000001 00000008";
    static const uint32_t lack[] = {0, 1, 2, 3, 13, 14, 255, 256, 260, UINT32_MAX};
    /* The connection's serial stands first in the message, behind the id in the record. */
    is_message(0, "901a 0000000000000000 ff00000000000000 00000007 00000001",
               "0000000000000000 20000000 02000000 07000000 00000000000000ff 01000000");
    is_message(0, "800e 0000000000000000 00000001", "0000000000000000 14000000 00000000 01000000");
    is_message(0, "880f 0000000000000000 03 00000001",
               "0000000000000000 24000000 01000000 0c000000 65695f70696e67706f6e6700 01000000");
    is_message(1, "0816 ff00000000000000 ff00000000000001 00000002",
               "00000000000000ff 1c000000 01000000 01000000000000ff 02000000");
    is_message(2, "7812 0000000000000005 0102030405060708", "0500000000000000 18000000 00000000 0807060504030201");
    for (uint32_t interface = 4; interface <= 12; interface++) {
        is_message(interface, destroyed, "01000000000000ff 14000000 00000000 08000000");
    }
    for (size_t i = 0; i < sizeof lack / sizeof lack[0]; i++) {
        unsendable(lack[i], destroyed);
    }
    is_message(4, "200a ff00000000000001", "01000000000000ff 10000000 03000000");
    is_message(5, "200a ff00000000000002", "02000000000000ff 10000000 06000000");
    is_message(4, "3016 ff00000000000001 ff00000000000002 00000003",
               "01000000000000ff 1c000000 04000000 02000000000000ff 03000000");
    is_message(4, "1813 ff00000000000001 0000000000000004 0a",
               "01000000000000ff 28000000 02000000 0400000000000000 0c000000 65695f6b6579626f61726400");
    is_message(4, "1813 ff00000000000001 0000000000000004 01",
               "01000000000000ff 2c000000 02000000 0400000000000000 0e000000 65695f636f6e6e656374696f6e000000");
    unsendable(4, "1813 ff00000000000001 0000000000000004 00");
    unsendable(4, "1813 ff00000000000001 0000000000000004 0d");
    is_message(5, "380e ff00000000000002 00000001", "02000000000000ff 14000000 02000000 01000000");
    is_message(5, "380e ff00000000000002 00000002", "02000000000000ff 14000000 02000000 02000000");
    unsendable(5, "380e ff00000000000002 00000000");
    unsendable(5, "380e ff00000000000002 00000003");
    unsendable(5, "380e ff00000000000002 01000001");
    is_message(5, "4017 ff00000000000002 ff00000000000003 06 00000001",
               "02000000000000ff 2c000000 05000000 03000000000000ff 0b000000 65695f706f696e7465720000 01000000");
    is_message(5, "480e ff00000000000002 00000009", "02000000000000ff 14000000 07000000 09000000");
    is_message(5, "500e ff00000000000002 0000000a", "02000000000000ff 14000000 08000000 0a000000");
    is_message(5, "5812 ff00000000000002 0000000b 01020304", "02000000000000ff 18000000 09000000 0b000000 04030201");
    is_message(5, "600e ff00000000000002 0000000c", "02000000000000ff 14000000 0a000000 0c000000");
    is_message(5, "6816 ff00000000000002 0000000d 00000000000001f4",
               "02000000000000ff 1c000000 0b000000 0d000000 f401000000000000");
    /* No explanation is null, an empty one is not. */
    is_message(1, "7013 ff00000000000000 00000007 00000000 00",
               "00000000000000ff 1c000000 00000000 07000000 00000000 00000000");
    is_message(1, "7013 ff00000000000000 00000007 00000000 80",
               "00000000000000ff 20000000 00000000 07000000 00000000 01000000 00000000");
    is_message(1, "7015 ff00000000000000 00000007 00000005 80 6162",
               "00000000000000ff 20000000 00000000 07000000 05000000 03000000 61620000");
    unsendable(1, "7014 ff00000000000000 00000007 00000000 00 61");
    unsendable(1, "7013 ff00000000000000 00000007 00000000 81");
    unsendable(1, "7013 ff00000000000000 00000007 00000000 01");
    unsendable(1, "7013 ff00000000000000 00000007 00000000 40");
    unsendable(1, "7013 ff00000000000000 00000007 00000000 ff");
    unsendable(1, "7013 ff00000000000000 00000007 00000006 00");
    unsendable(1, "7013 ff00000000000000 00000007 00010000 00");
    unsendable(1, "7012 ff00000000000000 00000007 00000000");
    /* Names: a text whose closing zero ends a word needs no more. */
    is_message(4, "100a ff00000000000001", "01000000000000ff 18000000 01000000 01000000 00000000");
    is_message(5, "100d ff00000000000002 616263", "02000000000000ff 18000000 01000000 04000000 61626300");
    is_message(5, "100e ff00000000000002 61626364", "02000000000000ff 1c000000 01000000 05000000 6162636400000000");
    unsendable(4, "100b ff00000000000001 80");
    unsendable(4, "100b ff00000000000001 00");
    unsendable(4, "100d ff00000000000001 610062");
    unsendable(1, "7016 ff00000000000000 00000007 00000000 80 610062");
    unsendable(1, "7014 ff00000000000000 00000007 00000000 80 c3");
    /* Lengths. */
    unsendable(4, "280e ff00000000000001 000000");
    unsendable(4, "280d ff00000000000001 000000");
    unsendable(4, "280e ff00000000000001 0000000800");
    unsendable(4, "280f ff00000000000001 0000000800");
    unsendable(4, "280f ff00000000000001 00000008");
    unsendable(4, "280d ff00000000000001 00000008");
    unsendable(4, "");
    unsendable(4, "28");
    unsendable(4, "2009 ff000000000000");
    unsendable(4, "200b ff00000000000001 00");
    /* Kinds that there are not. */
    unsendable(4, "000a ff00000000000001");
    unsendable(5, "981e ff00000000000002 00000780 00000000 00000500 00000400 3fc00000");
    unsendable(4, "f80a ff00000000000001");
    /* The reader is strict. */
    static const char name[] = "01000000000000ff 18000000 01000000 03000000 61620000";
    is_message(4, "100c ff00000000000001 6162", name);
    malformed(4, "01000000000000ff 18000000 01000000 03000000 61620001");
    malformed(4, "01000000000000ff 18000000 01000000 03000000 61620100");
    malformed(4, "01000000000000ff 18000000 01000000 03000000 61000000");
    malformed(4, "01000000000000ff 18000000 01000000 03000000 80620000");
    malformed(4, "01000000000000ff 18000000 01000000 04000000 61620000");
    malformed(4, "01000000000000ff 18000000 01000000 02000000 61620000");
    malformed(4, "01000000000000ff 18000000 01000000 05000000 61620000");
    malformed(4, "01000000000000ff 18000000 01000000 ffffffff 61620000");
    malformed(4, "01000000000000ff 14000000 01000000 00000000");
    malformed(4, "01000000000000ff 1c000000 01000000 03000000 6162000000000000");
    malformed(4, "01000000000000ff 10000000 01000000");
    malformed(4, "01000000000000ff 15000000 00000000 08000000 00");
    malformed(4, "01000000000000ff 14000000 00000000 08000000 00");
    malformed(4, "01000000000000ff 14000000 00000000 080000");
    malformed(4, "01000000000000ff 18000000 00000000 08000000");
    malformed(4, "01000000000000ff 10000000 00000000 08000000");
    malformed(4, "01000000000000ff 18000000 00000000 08000000 00000000");
    malformed(4, "01000000000000ff 10000000 000000");
    malformed(4, "");
    malformed(4, "01000000000000ff 14000000 05000000 08000000");
    malformed(4, "01000000000000ff 14000000 00000001 08000000");
    malformed(5, "02000000000000ff 18000000 03000000 01000000 01000000");
    malformed(5, "02000000000000ff 24000000 04000000 80070000 00000000 00050000 00040000 0000c03f");
    malformed(5, "02000000000000ff 14000000 02000000 00000000");
    malformed(5, "02000000000000ff 14000000 02000000 03000000");
    malformed(0, "0000000000000000 24000000 01000000 0c000000 65695f70696e67706f6e4700 01000000");
    malformed(0, "0000000000000000 24000000 01000000 0b000000 65695f70696e67706f6e0000 01000000");
    malformed(0, "0000000000000000 28000000 01000000 0d000000 65695f68616e647368616b6500000000 01000000");
    malformed(0, "0000000000000000 18000000 01000000 00000000 01000000");
    malformed(1, "00000000000000ff 1c000000 00000000 07000000 06000000 00000000");
    /* Opcode 0 is of another kind on another interface, or of none. */
    is_message(0, "800e ff00000000000001 00000008", "01000000000000ff 14000000 00000000 08000000");
    for (size_t i = 1; i < sizeof lack / sizeof lack[0]; i++) {
        malformed(lack[i], "01000000000000ff 14000000 00000000 08000000");
    }
}

/* ---- The table ---- */

/*
 * Each kind: its fields in the record and in the message, by letters, and its opcode by interface. i id 64, v version
 * 32, m mask 64, f an interface (8 bits, or its name), s serial 32, q sequence 32, d device type 32, t time 64, r
 * reason 32, g whether an explanation is given, c value 64, x a text. The opcodes are digits from interface 0 on, `-`
 * where the interface has no such event, `a` and `b` for 10 and 11.
 */
static const struct {
    const char *in_record, *in_message, *opcodes;
} kinds[19] = {{"", "", "-------------"},       {"iv", "iv", "-1-----------"}, {"x", "x", "----11-------"},
               {"mf", "mf", "----2--------"},   {"", "", "----36-------"},     {"s", "s", "----000000000"},
               {"iv", "iv", "----4--------"},   {"d", "d", "-----2-------"},   {"ifv", "ifv", "-----5-------"},
               {"s", "s", "-----7-------"},     {"s", "s", "-----8-------"},   {"sq", "sq", "-----9-------"},
               {"s", "s", "-----a-------"},     {"st", "st", "-----b-------"}, {"srgx", "srgx", "-0-----------"},
               {"c", "c", "--0----------"},     {"v", "v", "0------------"},   {"fv", "fv", "1------------"},
               {"isv", "siv", "2------------"}};

/* An event: its kind, its object, a number for each letter, and its text. */
static struct {
    uint32_t kind;
    uint64_t object, numbers[128];
    uint8_t text[512];
    size_t text_length;
} event;

static bool has_event(uint32_t kind, uint32_t interface)
{
    return kind <= 18 && interface <= 12 && kinds[kind].opcodes[interface] != '-';
}

static size_t width_of(char letter)
{
    return strchr("imtc", letter) != NULL ? 8 : strchr("fg", letter) != NULL ? 1 : 4;
}

static void random_event(uint32_t kind)
{
    static const char *const makeups[] = {"digits", "letters", "ascii", "2-byte", "3-byte", "4-byte", "mixed"};
    static const char letters[] = "ivmfsqdtrgc";
    event.kind = kind;
    event.object = below(3) == 0 ? below(20) : next_random();
    for (size_t i = 0; letters[i] != 0; i++) {
        const uint64_t any = below(3) == 0 ? below(4) : next_random();
        event.numbers[(size_t)letters[i]] = width_of(letters[i]) == 8 ? any : (uint32_t)any;
    }
    event.numbers['f'] = 1 + below(12);
    event.numbers['d'] = 1 + below(2);
    event.numbers['r'] = below(6);
    event.numbers['g'] = below(2);
    event.text_length = below(4) == 0 ? below(255) : below(12);
    fill_text(event.text, event.text_length, makeups[below(7)]);
    if (kind == BOZTERRUN_EVENT_DISCONNECTED && event.numbers['g'] == 0) {
        event.text_length = 0;
    }
}

static void put_record(void)
{
    record_length = 2;
    for (size_t i = 0; i < 8; i++) {
        record[record_length++] = (uint8_t)(event.object >> (56 - 8 * i));
    }
    for (const char *field = kinds[event.kind].in_record; *field != 0; field++) {
        const uint64_t n = *field == 'g' ? event.numbers['g'] << 7 : event.numbers[(size_t)*field];
        if (*field == 'x') {
            memcpy(record + record_length, event.text, event.text_length);
            record_length += event.text_length;
        } else {
            for (size_t i = width_of(*field); i > 0; i--) {
                record[record_length++] = (uint8_t)(n >> (8 * i - 8));
            }
        }
    }
    record[0] = (uint8_t)(event.kind << 3 | record_length >> 8);
    record[1] = (uint8_t)record_length;
}

static void put(uint64_t n, size_t width)
{
    memcpy(message + message_length, &n, width); /* little-endian, as the machine */
    message_length += width;
}

static void put_text(const void *text, size_t length)
{
    put(length + 1, 4);
    memcpy(message + message_length, text, length);
    memset(message + message_length + length, 0, 4);
    message_length += (length + 4) / 4 * 4;
}

static void put_message(uint32_t interface)
{
    static const char digits[] = "0123456789ab";
    message_length = 0;
    put(event.object, 8);
    put(0, 4);
    put((uint64_t)(strchr(digits, kinds[event.kind].opcodes[interface]) - digits), 4);
    for (const char *field = kinds[event.kind].in_message; *field != 0; field++) {
        if (*field == 'f') {
            const char *const name = bz_interface_name((uint32_t)event.numbers['f']);
            put_text(name, strlen(name));
        } else if (*field == 'x' && event.kind == BOZTERRUN_EVENT_DISCONNECTED && event.numbers['g'] == 0) {
            put(0, 4);
        } else if (*field == 'x') {
            put_text(event.text, event.text_length);
        } else if (*field != 'g') {
            put(event.numbers[(size_t)*field], width_of(*field));
        }
    }
    memcpy(message + 8, &message_length, 4);
}

static void try_table(void)
{
    size_t events = 0;
    for (uint32_t kind = 1; kind <= 18; kind++) {
        for (uint32_t interface = 0; interface <= 14; interface++) {
            snprintf(where, sizeof where, "kind %" PRIu32 " on %" PRIu32, kind, interface);
            events += has_event(kind, interface);
            for (unsigned round = 0; round < 30; round++) {
                random_event(kind);
                put_record();
                const uint32_t answer = there_and_back(EVENT, interface, record, record_length);
                if (!has_event(kind, interface)) {
                    check(answer == BOZTERRUN_UNSENDABLE, "a kind that the interface lacks");
                    continue;
                }
                put_message(interface);
                check(answer == BOZTERRUN_ACCEPTED && got_bytes(message, message_length), "the message");
                there_and_back(SENT, interface, message, message_length);
                check(got_bytes(record, record_length), "the record");
            }
        }
    }
    check(events == 28, "how many events there are");
}

/* Cut off at every place and with bytes behind them, neither is one any more. */
static void try_cuts(void)
{
    for (uint32_t kind = 1; kind <= 18; kind++) {
        for (uint32_t interface = 0; interface <= 12; interface++) {
            if (!has_event(kind, interface)) {
                continue;
            }
            random_event(kind);
            put_record();
            put_message(interface);
            memset(record + record_length, 0, 8);
            memset(message + message_length, 0, 8);
            for (size_t size = 0; size <= message_length + 8; size++) {
                snprintf(where, sizeof where, "%zu bytes of kind %" PRIu32 " on %" PRIu32, size, kind, interface);
                if (size != record_length && size <= record_length + 8) {
                    check(there_and_back(EVENT, interface, record, size) == BOZTERRUN_UNSENDABLE, "the record");
                }
                if (size != message_length) {
                    check(there_and_back(SENT, interface, message, size) == BOZTERRUN_MALFORMED, "the message");
                }
            }
        }
    }
}

/* Out of every length: 19 below what is written, and not a byte changed. */
static void try_short_out(void)
{
    for (uint32_t kind = 1; kind <= 18; kind++) {
        uint32_t interface = 0;
        while (!has_event(kind, interface)) {
            interface++;
        }
        random_event(kind);
        put_record();
        put_message(interface);
        snprintf(where, sizeof where, "out for kind %" PRIu32, kind);
        for (size_t room = 0; room < message_length + 4; room++) {
            check(hand_in(EVENT, interface, record, record_length, room) ==
                      (room < message_length ? BOZTERRUN_SHORT_OUT : BOZTERRUN_ACCEPTED), "of a record");
        }
        for (size_t room = 0; room < record_length + 4; room++) {
            check(hand_in(SENT, interface, message, message_length, room) ==
                      (room < record_length ? BOZTERRUN_SHORT_OUT : BOZTERRUN_ACCEPTED), "of a message");
        }
    }
}

/* ---- Texts ---- */

/* A name and an explanation with this text, as records and as messages. */
static void try_text(const char *what, const void *text, size_t length, bool fine)
{
    static const struct {
        uint32_t kind, interface;
    } rows[] = {{BOZTERRUN_EVENT_NAME, 4}, {BOZTERRUN_EVENT_NAME, 5}, {BOZTERRUN_EVENT_DISCONNECTED, 1}};
    for (size_t i = 0; i < 3; i++) {
        snprintf(where, sizeof where, "%s, %zu bytes, kind %" PRIu32, what, length, rows[i].kind);
        random_event(rows[i].kind);
        event.numbers['g'] = 1;
        event.text_length = length;
        memcpy(event.text, text, length);
        put_record();
        put_message(rows[i].interface);
        const uint32_t answer = there_and_back(EVENT, rows[i].interface, record, record_length);
        check(answer == (fine ? BOZTERRUN_ACCEPTED : BOZTERRUN_UNSENDABLE), "the record");
        check(!fine || got_bytes(message, message_length), "its message");
        check(there_and_back(SENT, rows[i].interface, message, message_length) ==
                  (fine ? BOZTERRUN_ACCEPTED : BOZTERRUN_MALFORMED), "the message");
    }
}

static void try_texts(void)
{
    uint8_t text[512];
    memset(text, 'x', sizeof text);
    for (size_t length = 0; length <= 300; length++) {
        try_text("a text", text, length, length <= BOZTERRUN_NAME_LENGTH);
    }
    snprintf(where, sizeof where, "the longest");
    try_text("the longest", text, 254, true);
    check(message_length == BOZTERRUN_EVENT_MESSAGE_LENGTH && record_length == BOZTERRUN_EVENT_RECORD_LENGTH,
          "its lengths");
    for (size_t zero = 0; zero < 20; zero++) {
        text[zero] = 0;
        try_text("a zero byte", text, 20, false);
        text[zero] = 'x';
    }
    text[253] = 0;
    try_text("a zero byte at the end", text, 254, false);
    /* Borders of RFC 3629, each alone and behind other bytes. */
    static const struct {
        const char *bytes;
        bool fine;
    } borders[] = {{"\x01", true}, {"\x7f", true}, {"\x80", false}, {"\xbf", false}, {"\xc0\x80", false},
                   {"\xc1\xbf", false}, {"\xc2", false}, {"\xc2\x80", true}, {"\xc2\x7f", false}, {"\xc2\xc0", false},
                   {"\xdf\xbf", true}, {"\xe0\x9f\xbf", false}, {"\xe0\xa0\x80", true}, {"\xe2\x82", false},
                   {"\xed\x9f\xbf", true}, {"\xed\xa0\x80", false}, {"\xed\xbf\xbf", false}, {"\xee\x80\x80", true},
                   {"\xef\xbf\xbf", true}, {"\xf0\x8f\xbf\xbf", false}, {"\xf0\x90\x80\x80", true},
                   {"\xf0\x90\x80", false}, {"\xf4\x8f\xbf\xbf", true}, {"\xf4\x90\x80\x80", false},
                   {"\xf5\x80\x80\x80", false}, {"\xf8\x88\x80\x80\x80", false}, {"\xff", false}};
    for (size_t i = 0; i < sizeof borders / sizeof borders[0]; i++) {
        const size_t length = strlen(borders[i].bytes);
        memset(text, 'x', sizeof text);
        try_text("a border of UTF-8", borders[i].bytes, length, borders[i].fine);
        memcpy(text + 7, borders[i].bytes, length);
        try_text("a border of UTF-8, at the end", text, 7 + length, borders[i].fine);
        try_text("a border of UTF-8, within", text, 11 + length, borders[i].fine);
    }
}

/* ---- Damaged and random bytes ---- */

/* Each byte with its own value and each STEP-th one behind it. What is then still accepted comes back as it is: that is
 * asked at every call. */
static void try_bytes(unsigned step)
{
    for (uint32_t kind = 1; kind <= 18; kind++) {
        for (uint32_t interface = 0; interface <= 12; interface++) {
            if (!has_event(kind, interface) || (kind == BOZTERRUN_EVENT_DESTROYED && interface > 5)) {
                continue;
            }
            do {
                random_event(kind);
            } while (event.text_length > 20);
            put_record();
            put_message(interface);
            for (size_t at = 0; at < record_length; at++) {
                snprintf(where, sizeof where, "byte %zu of record %" PRIu32 " on %" PRIu32, at, kind, interface);
                const uint8_t kept = record[at];
                for (unsigned value = 0; value < 256; value += step) {
                    record[at] = (uint8_t)(kept + value);
                    there_and_back(EVENT, interface, record, record_length);
                }
                record[at] = kept;
            }
            for (size_t at = 0; at < message_length; at++) {
                snprintf(where, sizeof where, "byte %zu of message %" PRIu32 " on %" PRIu32, at, kind, interface);
                const uint8_t kept = message[at];
                for (unsigned value = 0; value < 256; value += step) {
                    message[at] = (uint8_t)(kept + value);
                    const uint32_t answer = there_and_back(SENT, interface, message, message_length);
                    check(at < 8 || at >= 12 || value == 0 || answer == BOZTERRUN_MALFORMED, "another length");
                }
                message[at] = kept;
            }
        }
    }
}

static void damage(uint8_t *bytes, size_t *length)
{
    for (uint64_t n = below(4); n > 0 && *length > 0; n--) {
        bytes[below(*length)] = (uint8_t)(below(2) != 0 ? next_random() : below(20));
    }
    if (below(4) == 0) {
        *length = below(*length + 1);
    } else if (below(8) == 0) {
        memset(bytes + *length, 0, 8);
        *length += below(8);
    }
}

/* Lengths that agree with themselves, so that more is looked at than those. */
static void mend_lengths(void)
{
    if (record_length >= 2 && record_length < 2048 && below(2) == 0) {
        record[0] = (uint8_t)((record[0] & 0xf8) | record_length >> 8);
        record[1] = (uint8_t)record_length;
    }
    if (message_length >= 16 && below(2) == 0) {
        memcpy(message + 8, &message_length, 4);
    }
}

static unsigned long seen[2][27];

static void try_random(unsigned long rounds)
{
    for (unsigned long round = 0; round < rounds; round++) {
        snprintf(where, sizeof where, "random round %lu", round);
        const uint32_t kind = (uint32_t)(1 + below(18));
        uint32_t interface = (uint32_t)below(13);
        while (below(8) != 0 && !has_event(kind, interface)) {
            interface = (uint32_t)below(13);
        }
        random_event(kind);
        put_record();
        put_message(has_event(kind, interface) ? interface : kinds[kind].opcodes[5] != '-' ? 5 : kind == 5 ? 9 : 4);
        if (below(6) == 0) {
            record_length = below(40);
            message_length = below(80);
            for (size_t i = 0; i < 80; i++) {
                record[i] = (uint8_t)(below(2) != 0 ? 0 : next_random());
                message[i] = (uint8_t)(below(2) != 0 ? 0 : below(16));
            }
        }
        damage(record, &record_length);
        damage(message, &message_length);
        mend_lengths();
        const uint32_t written = there_and_back(EVENT, interface, record, record_length);
        const uint32_t read = there_and_back(SENT, interface, message, message_length);
        seen[0][written < 27 ? written : 1]++;
        seen[1][read < 27 ? read : 1]++;
    }
    snprintf(where, sizeof where, "random rounds");
    check(seen[0][0] > rounds / 20 && seen[0][BOZTERRUN_UNSENDABLE] > rounds / 20, "records of both sorts");
    check(seen[1][0] > rounds / 20 && seen[1][BOZTERRUN_MALFORMED] > rounds / 20, "messages of both sorts");
}

/* ---- A session's own records ---- */

/* What calls write is sendable, on the interface that the header's top comment tells, and comes back. */
static void try_session(void)
{
    static uint8_t out[BOZTERRUN_OUT_LENGTH];
    static bozterrun_handshake handshake;
    static bozterrun_session session;
    static const uint8_t by_kind[19] = {0, 1, 0, 4, 0, 0, 4, 5, 5, 5, 5, 5, 5, 5, 1, 2, 0, 0, 0};
    struct {
        uint64_t id;
        uint32_t interface;
    } known[32];
    size_t objects = 0, sent = 0;
    uint64_t seat = 0, device = 0;
    must("handshake_new", bz_handshake_new(&handshake, 7, out, sizeof out, NULL));
    for (uint32_t i = 1; i <= 12; i++) {
        const char *const name = bz_interface_name(i);
        must("interface_version", bz_handshake_interface_version(&handshake, name, strlen(name), 3));
    }
    for (unsigned step = 0; step < 13; step++) {
        size_t count = 0, at = 0;
        uint32_t answer = BOZTERRUN_ACCEPTED;
        snprintf(where, sizeof where, "step %u of a session", step);
        switch (step) {
        case 0: answer = bz_handshake_finish(&handshake, &session, out, sizeof out, &count); break;
        case 1: answer = bz_add_seat(&session, "counter \xe2\x82\xac", 11, 127, out, sizeof out, &count, &seat); break;
        case 2: answer = bz_add_device(&session, seat, "", 0, 1, 127, out, sizeof out, &count, &device); break;
        case 3: answer = bz_resumed(&session, device, out, sizeof out, &count); break;
        case 4: answer = bz_start_emulating(&session, device, 5, out, sizeof out, &count); break;
        case 5: answer = bz_frame(&session, device, 600, out, sizeof out, &count); break;
        case 6: answer = bz_stop_emulating(&session, device, out, sizeof out, &count); break;
        case 7: answer = bz_paused(&session, device, out, sizeof out, &count); break;
        case 8: answer = bz_connection_sync(&session, 5, 1, out, sizeof out, &count, NULL, NULL); break;
        case 9: answer = bz_interface_release(&session, 4, device + 3, out, sizeof out, &count); break;
        case 10: answer = bz_remove_device(&session, device, out, sizeof out, &count); break;
        case 11: answer = bz_add_seat(&session, NULL, 0, 4, out, sizeof out, &count, NULL); break;
        default: answer = bz_disconnected(&session, 3, "why", 3, out, sizeof out, &count);
        }
        must(where, answer);
        bozterrun_event e;
        for (size_t before = 0; bz_next_event(out, count, &at, &e); before = at) {
            uint32_t interface = by_kind[e.kind];
            for (size_t i = 0; i < objects; i++) {
                const bool asked = e.kind == BOZTERRUN_EVENT_NAME || e.kind == BOZTERRUN_EVENT_DONE ||
                                   e.kind == BOZTERRUN_EVENT_DESTROYED;
                interface = asked && known[i].id == e.object ? known[i].interface : interface;
            }
            if (e.kind == BOZTERRUN_EVENT_SEAT || e.kind == BOZTERRUN_EVENT_DEVICE ||
                e.kind == BOZTERRUN_EVENT_INTERFACE) {
                known[objects].id = e.id;
                known[objects++].interface = e.kind == BOZTERRUN_EVENT_SEAT     ? 4
                                             : e.kind == BOZTERRUN_EVENT_DEVICE ? 5
                                                                                : e.interface;
            }
            check(there_and_back(EVENT, interface, out + before, at - before) == BOZTERRUN_ACCEPTED, "a call's record");
            sent++;
        }
        check(at == count && count > 0, "what the call wrote");
    }
    /* Versions and the connection; a seat with a name and seven capabilities; a device with a name and seven
     * interfaces; five of the device; a callback; a keyboard, six interfaces and a device that go; a seat with one
     * capability; both seats that go, and why. */
    check(sent == 13 + 10 + 11 + 5 + 1 + 1 + 7 + 3 + 3, "how many records there are");
}

int main(int count, char **words)
{
    const unsigned long rounds = count > 1 ? strtoul(words[1], NULL, 10) : 200000;
    const unsigned long step = count > 2 ? strtoul(words[2], NULL, 10) : 1;
    if (count > 3 || step == 0 || step > 255) {
        fprintf(stderr, "usage: events [ROUNDS [STEP]]\n");
        return 2;
    }
    watch();
    alarm(120);
    slices_make();
    session_make(2, 1);
    slices_lend();
    try_worked();
    try_table();
    try_cuts();
    try_short_out();
    try_texts();
    try_bytes((unsigned)step);
    try_random(rounds);
    try_session();
    printf("answers to random records: 0:%lu 26:%lu, to random messages: 0:%lu 23:%lu\n", seen[0][0],
           seen[0][BOZTERRUN_UNSENDABLE], seen[1][0], seen[1][BOZTERRUN_MALFORMED]);
    printf("events: %lu random records and messages, %lu tests, %lu failed\n", rounds, tests, failures);
    return failures != 0;
}
