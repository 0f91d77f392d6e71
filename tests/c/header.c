/*
 * header: what bozterrun.h does by itself. That its numbers are the library's (bz_check), that bz_next_event reads the
 * records of docs/REFERENCE.md and nothing else, that the fields of bozterrun_request cut their numbers as
 * requests/specs/Row says.
 *
 * It prints the header's tables for tests/c/run, which compares them with docs/REFERENCE.md; the last line has the
 * number of tests and of failures, and the exit status is 1 where there are failures.
 */
#define _GNU_SOURCE
#include "bozterrun.h"
#include "random.h"
#include <inttypes.h>
#include <stdio.h>
#include <stdlib.h>
#include <string.h>
#include <sys/mman.h>

static unsigned long tests, failures;

static void check(bool holds, const char *what, unsigned long at)
{
    tests++;
    if (!holds) {
        failures++;
        if (failures <= 20) {
            printf("FAILED: %s (%lu)\n", what, at);
        }
    }
}

/* ---- Event records ---- */

/*
 * The table of docs/REFERENCE.md: the fields of each kind with their widths in bits, by letters: i id 64, v version 32,
 * m mask 64, f interface 8, s serial 32, q sequence 32, d device type 32, t time 64, r reason 32, g given 1 and 7 zero
 * bits, c value 64, x a text to the record's end.
 */
static const char *const layouts[19] = {"",  "iv", "x", "mf", "",  "s",  "iv",   "d", "ifv", "s",
                                        "s", "sq", "s", "st", "srgx", "c", "v", "fv", "isv"};

static uint8_t *page_end; /* what lies behind may not be read */
static uint8_t record[2048];
static size_t bits;

/* The lowest bits of a number, the most significant first. */
static void put_bits(uint64_t value, unsigned width)
{
    while (width-- > 0) {
        const uint8_t bit = (uint8_t)(value >> width & 1);
        record[bits / 8] = (uint8_t)((bits % 8 == 0 ? 0 : record[bits / 8]) | bit << (7 - bits % 8));
        bits++;
    }
}

/* A record with random fields, and the event that it is. */
static size_t put_record(uint32_t kind, bozterrun_event *e)
{
    static const uint8_t zeros[BOZTERRUN_NAME_LENGTH];
    memset(e, 0, sizeof *e);
    e->kind = kind;
    e->object = next_random();
    bits = 16;
    put_bits(e->object, 64);
    for (const char *field = layouts[kind]; *field != 0; field++) {
        const uint64_t any = next_random();
        const uint32_t low = (uint32_t)any;
        switch (*field) {
        case 'i': e->id = any; put_bits(any, 64); break;
        case 'm': e->mask = any; put_bits(any, 64); break;
        case 't': e->time = any; put_bits(any, 64); break;
        case 'c': e->value = any; put_bits(any, 64); break;
        case 'v': e->version = low; put_bits(low, 32); break;
        case 's': e->serial = low; put_bits(low, 32); break;
        case 'q': e->sequence = low; put_bits(low, 32); break;
        case 'd': e->device_type = low; put_bits(low, 32); break;
        case 'r': e->reason = low; put_bits(low, 32); break;
        case 'f': e->interface = low & 255; put_bits(low, 8); break;
        case 'g': e->given = low & 1; put_bits((uint64_t)e->given << 7, 8); break;
        default:
            e->text = zeros; /* not NULL; where it lies is tested by its bytes */
            e->text_length = kind == BOZTERRUN_EVENT_DISCONNECTED && e->given == 0 ? 0 : any % 255;
            for (size_t i = 0; i < e->text_length; i++) {
                put_bits(next_random(), 8);
            }
        }
    }
    const size_t length = bits / 8;
    bits = 0;
    put_bits(kind, 5);
    put_bits(length, 11);
    return length;
}

static bool same_event(const bozterrun_event *a, const bozterrun_event *b)
{
    return a->kind == b->kind && a->object == b->object && a->id == b->id && a->mask == b->mask &&
           a->time == b->time && a->value == b->value && (a->text == NULL) == (b->text == NULL) &&
           a->text_length == b->text_length && a->interface == b->interface && a->version == b->version &&
           a->serial == b->serial && a->sequence == b->sequence && a->device_type == b->device_type &&
           a->reason == b->reason && a->given == b->given;
}

/* The first so many bytes of the record, against the page's end: they are no record, and nothing moves. */
static void refuse_record(size_t count, const char *what, unsigned long at_test)
{
    bozterrun_event got;
    size_t at = 0;
    memset(&got, 0x5a, sizeof got);
    const bozterrun_event before = got;
    memcpy(page_end - count, record, count);
    check(!bz_next_event(page_end - count, count, &at, &got), what, at_test);
    check(at == 0 && memcmp(&got, &before, sizeof got) == 0, "something moved", at_test);
}

static void try_kind(uint32_t kind)
{
    bozterrun_event wanted, got;
    for (unsigned round = 0; round < 200; round++) {
        const size_t length = put_record(kind, &wanted);
        size_t at = 0;
        memcpy(page_end - length, record, length);
        check(bz_next_event(page_end - length, length, &at, &got) && at == length, "a record is not read", kind);
        check(same_event(&wanted, &got), "its fields", kind);
        check(wanted.text == NULL || got.text + got.text_length == page_end, "where its text lies", kind);
        check(!bz_next_event(page_end - length, length, &at, &got) && at == length, "behind the last record", kind);
        for (size_t cut = 0; cut < length && round < 20; cut++) {
            refuse_record(cut, "a record that is cut off", cut);
        }
    }
    /* A length that is not the kind's. */
    const size_t length = put_record(kind, &wanted);
    const bool has_text = wanted.text != NULL;
    for (size_t wrong = 0; wrong < 40; wrong++) {
        if (wrong == bz_event_length(kind) || (has_text && wrong > bz_event_length(kind))) {
            continue;
        }
        bits = 5;
        record[0] = (uint8_t)(kind << 3);
        put_bits(wrong, 11);
        refuse_record(wrong > length ? wrong : length, "a length that the kind has not", wrong);
    }
}

static void try_records(void)
{
    static const uint8_t example[] = {0x28, 0x0e, 0xff, 0, 0, 0, 0, 0, 0, 1, 0, 0, 0, 8}; /* of docs/REFERENCE.md */
    bozterrun_event e;
    size_t at = 0;
    check(bz_next_event(example, sizeof example, &at, &e) && e.kind == BOZTERRUN_EVENT_DESTROYED &&
              e.object == 0xff00000000000001 && e.serial == 8 && at == 14, "the example", 0);
    for (uint32_t kind = 1; kind <= 18; kind++) {
        try_kind(kind);
    }
    for (uint32_t kind = 0; kind < 32; kind += kind == 0 ? 19 : 1) {
        put_record(BOZTERRUN_EVENT_DONE, &e);
        record[0] = (uint8_t)(kind << 3);
        refuse_record(10, "a kind that there is not", kind);
    }
    /* An explanation: the bits behind `given` are zero, and without `given` there is no text. */
    for (uint8_t bit = 0; bit < 7; bit++) {
        put_record(BOZTERRUN_EVENT_DISCONNECTED, &e);
        record[18] = (uint8_t)(record[18] | 1 << bit);
        refuse_record(19 + e.text_length, "a bit that is not zero", bit);
    }
    do {
        put_record(BOZTERRUN_EVENT_DISCONNECTED, &e);
    } while (e.text_length == 0);
    record[18] = 0;
    refuse_record(19 + e.text_length, "a text that is not given", 0);
    /* One behind another, at any place. */
    uint8_t many[4096];
    size_t count = 0;
    bozterrun_event wanted[18];
    for (uint32_t kind = 1; kind <= 18; kind++) {
        const size_t length = put_record(kind, &wanted[kind - 1]);
        memcpy(many + count, record, length);
        count += length;
    }
    at = 0;
    for (uint32_t kind = 1; kind <= 18; kind++) {
        check(bz_next_event(many, count, &at, &e) && same_event(&e, &wanted[kind - 1]), "one of many", kind);
    }
    check(at == count && !bz_next_event(many, count, &at, &e), "the last of many", 0);
    at = 65;
    check(!bz_next_event(page_end - 64, 64, &at, &e) && at == 65, "a place past the end", 0);
    at = 0;
    check(!bz_next_event(NULL, count, &at, &e) && !bz_next_event(many, count, NULL, &e) &&
              !bz_next_event(many, count, &at, NULL) && at == 0, "NULL", 0);
}

/* ---- Fields ---- */

/* Numbers as only damaged memory has them: of the narrower fields the low bits count, the others are whole. */
static void try_fields(void)
{
    bozterrun_request r;
    memset(&r, 0, sizeof r);
    r.numbers[0] = 0x100000000 + BOZTERRUN_REQUEST_KEYBOARD_KEY;
    r.numbers[1] = 0xff00000000000002;
    r.numbers[2] = 0x123456789abcdef0;
    r.numbers[3] = 0x5555555580000102;
    r.numbers[4] = 0x66666666ffffffff;
    r.coordinates[0] = 1.5F;
    r.coordinates[1] = -2.5F;
    check(r.kind == 0x10000000f && bz_request_kind(&r) == BOZTERRUN_REQUEST_DISCONNECT, "kind", 0);
    for (uint32_t kind = 0; kind <= 255; kind++) {
        r.numbers[0] = kind;
        check(bz_request_kind(&r) == (kind <= 21 ? kind : 0), "kinds", kind);
    }
    check(r.device == 0xff00000000000002 && r.seat == r.device, "device and seat", 0);
    check(r.time == 0x123456789abcdef0 && r.capabilities == r.time, "time and capabilities", 0);
    check(r.extra == 0x5555555580000102 && r.stop_x == r.extra, "extra and stop_x", 0);
    check(r.key == 0x80000102 && r.button == r.key && r.keysym == r.key && r.touch_id == r.key &&
              r.last_serial == r.key, "the codes", 0);
    check((int64_t)r.discrete_x == -2147483390 && (int64_t)r.discrete_y == -1, "the amounts", 0);
    check(r.length == 2, "length", 0);
    check(r.flag == 0x66666666ffffffff && r.stop_y == r.flag && r.state == r.flag, "flag, stop_y and state", 0);
    check(r.sequence == 0xffffffff, "sequence", 0);
    check(r.x >= 1.5F && r.x <= 1.5F && r.y >= -2.5F && r.y <= -2.5F, "x and y", 0);

    /* A record's fields are its numbers in their order, and the records lie one behind another. */
    bozterrun_record records[2];
    bozterrun_point points[2];
    for (uint64_t i = 0; i < 8; i++) {
        records[1].numbers[i] = 100 + i;
    }
    check(records[1].request == 100 && records[1].object == 101 && records[1].version == 102, "request to version", 0);
    check(records[1].first == 103 && records[1].second == 104 && records[1].third == 105, "the arguments", 0);
    check(records[1].start == 106 && records[1].length == 107, "the part", 0);
    points[1].coordinates[0] = 1.5F;
    points[1].coordinates[1] = -2.5F;
    check(points[1].x >= 1.5F && points[1].x <= 1.5F && points[1].y >= -2.5F && points[1].y <= -2.5F, "a point", 0);
    check((uint8_t *)&records[1] - (uint8_t *)&records[0] == 8 * BOZTERRUN_RECORD_LENGTH, "records", 0);
    check((uint8_t *)&points[1] - (uint8_t *)&points[0] == 4 * BOZTERRUN_POINT_LENGTH, "points", 0);
}

int main(void)
{
    uint8_t *const pages = mmap(NULL, 8192, PROT_READ | PROT_WRITE, MAP_PRIVATE | MAP_ANONYMOUS, -1, 0);
    if (pages == MAP_FAILED || mprotect(pages + 4096, 4096, PROT_NONE) != 0) {
        perror("mmap");
        return 2;
    }
    page_end = pages + 4096;
    check(bz_check() == 0, "the header is not the library's", bz_check());
    try_records();
    try_fields();
    for (uint32_t n = 0; n <= 67; n++) {
        printf("refusal %" PRIu32 " %s\n", n, bz_refusal_name(n));
        check((n > 26 && (n < 64 || n > 66)) == (strcmp(bz_refusal_text(n), bz_refusal_text(1000)) == 0), "text", n);
    }
    for (uint32_t n = 0; n <= 13; n++) {
        printf("interface %" PRIu32 " %s\n", n, bz_interface_name(n));
    }
    for (uint32_t n = 0; n <= 8; n++) {
        printf("parse_error %" PRIu32 " %s\n", n, bz_parse_error_name(n));
        check((n < 1 || n > 7) == (bz_parse_error_text(n)[0] == 0), "text", n);
    }
    for (uint32_t n = 0; n <= 19; n++) {
        printf("event %" PRIu32 " %zu\n", n, bz_event_length(n));
    }
    printf("header: %lu tests, %lu failed\n", tests, failures);
    return failures != 0;
}
