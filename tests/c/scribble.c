/*
 * scribble [ROUNDS [STEP]]: calls on memory that something else has damaged.
 *
 * Each word of a handshake and each control word of a session gets each of sixteen odd values, and on each damaged copy
 * every exported call is made; then all calls one after another on what is left. The sessions have 2 and 8 devices and
 * pending requests, queued ones, texts and held touches. Then ROUNDS (50000) random damages of 1 to 16 words, rows and
 * text bytes, with 24 random calls each. With a STEP above 1 only every so many-th word is tried.
 *
 * Checked at each call: no read and no write outside the slices (a page behind each that may not be touched, known
 * bytes before it), no endless loop, an answer that docs/REFERENCE.md has, BAD_STATE exactly where it says so, and that
 * a call which is not accepted leaves every byte as it was. The exit status is 1 where one of these fails.
 */
#include "slices.h"
#include "random.h"

static const uint64_t values[] = {0, 1, 2, 15, 16, 17, 63, 64, 65, 255, 256, 1ULL << 31, UINT32_MAX, 1ULL << 32,
                                  1ULL << 63, UINT64_MAX};
enum { VALUES = sizeof values / sizeof values[0], ANSWERS = 67, CALLS_A_ROUND = 24 };

static unsigned long answers[CALLS][ANSWERS], made, failures;

static void fail(const char *what)
{
    failures++;
    if (failures <= 20) {
        printf("FAILED: %s: %s\n", where, what);
    }
}

/*
 * What 21 says of the control words, by docs/REFERENCE.md: a stored count is above its limit, or the queue's oldest
 * place is outside its ring. Seats stand in word 3, devices in 4, the oldest place in 5, the queue's length in 6; a
 * device has 24 words from 32 on, of which the fifth and sixth are its pending requests and its held touches.
 */
static bool sound_control(void)
{
    uint64_t c[BOZTERRUN_CONTROL_LENGTH];
    memcpy(c, slice_data(CONTROL), sizeof c);
    if (c[3] > 4 || c[4] > 8 || c[5] >= 256 || c[6] > 256) {
        return false;
    }
    for (size_t k = 0; k < c[4]; k++) {
        if (c[32 + 24 * k + 4] > 64 || c[32 + 24 * k + 5] > 16) {
            return false;
        }
    }
    return true;
}

/* The same of a handshake: a stored name length above 254. handshake_new and the sessions' calls do not ask for it. */
static bool sound_handshake(void)
{
    uint64_t length;
    memcpy(&length, slice_data(HANDSHAKE), sizeof length);
    return length <= BOZTERRUN_NAME_LENGTH;
}

static bool known(uint32_t answer)
{
    return answer <= BOZTERRUN_BAD_STATE || answer == BOZTERRUN_NO_OBJECT || answer == BOZTERRUN_INVALID_ID ||
           answer == BOZTERRUN_NONE;
}

/* Makes a call and checks it. `keep`: also that nothing has changed where it is not accepted. */
static void make(size_t k, bool keep)
{
    const call *const c = &calls[k];
    const bool shakes = (c->lent & M_HANDSHAKE) != 0;
    const bool any = c->make == call_handshake_new || c->lent == 0; /* whatever the memory holds */
    const bool sound = any || (shakes ? sound_handshake() : sound_control());
    if (keep) {
        slices_keep();
    }
    const uint32_t answer = c->make();
    made++;
    if (!known(answer)) {
        fail("no answer of the library");
        return;
    }
    answers[k][answer]++;
    if ((answer == BOZTERRUN_BAD_STATE) == sound) {
        fail(sound ? "refused as damaged" : "not refused as damaged");
    }
    if (!keep || answer == BOZTERRUN_ACCEPTED) {
        return;
    }
    if (c->make == call_handle_requests && number_at(VALUE) > 0) {
        return; /* what was accepted before the refused record stays */
    }
    const size_t changed = slices_changed();
    if (answer == BOZTERRUN_MISSING_INTERFACE && changed == OUT) {
        /* the one refusal that writes: the interface versions, and no byte behind them */
        const size_t count = number_at(COUNT);
        const size_t length = slices[OUT].length;
        if (count > length || memcmp(slice_data(OUT) + count, slices[OUT].kept + count, length - count) != 0) {
            fail("more than its count was written");
        }
    } else if (changed != SLICES) {
        fail(slices[changed].name);
    }
}

static void check_overrun(void)
{
    const size_t which = slices_overrun();
    if (which != SLICES) {
        fail("written before a slice");
        memset(slices[which].first, BEFORE_BYTE, (size_t)(slice_data(which) - slices[which].first));
    }
}

/* Calls that leave little of a damage: one begins a session anew, the others take seats and devices out. */
static bool begins_session(size_t k)
{
    return calls[k].make == call_handshake_finish || calls[k].make == call_handshake_pending_request;
}

static bool ends_damage(size_t k)
{
    return begins_session(k) || calls[k].make == call_remove_seat || calls[k].make == call_remove_device ||
           calls[k].make == call_disconnected;
}

/* Each word of a slice with each value, and on it the calls that are lent the slice. */
static void try_words(size_t which, size_t step)
{
    for (size_t word = 0; word < slices[which].usual; word += step) {
        for (size_t v = 0; v < VALUES; v++) {
            alarm(20);
            for (size_t k = 0; k < CALLS; k++) {
                if ((calls[k].lent >> which & 1) == 0) {
                    continue;
                }
                snprintf(where, sizeof where, "%s, word %zu of %s is %" PRIx64, calls[k].name, word,
                         slices[which].name, values[v]);
                slices_lend();
                memcpy(slice_data(which) + 8 * word, &values[v], 8);
                make(k, true);
            }
            slices_lend();
            memcpy(slice_data(which) + 8 * word, &values[v], 8);
            for (size_t k = 0; k < 2 * CALLS; k++) {
                snprintf(where, sizeof where, "%s behind others, word %zu of %s was %" PRIx64, calls[k % CALLS].name,
                         word, slices[which].name, values[v]);
                if (!(k < CALLS ? ends_damage(k) : begins_session(k - CALLS))) {
                    make(k % CALLS, false);
                }
            }
            check_overrun();
        }
    }
}

/* Counts and ids that are likely to do harm: small ones, and those of the table. */
static uint64_t odd_value(void)
{
    return below(3) != 0 ? below(10) : values[below(VALUES)];
}

static void damage(void)
{
    for (uint64_t n = 1 + below(16); n > 0; n--) {
        const uint64_t value = odd_value();
        const uint64_t any = next_random();
        switch (below(5)) {
        case 0:
            memcpy(slice_data(WORDS) + 8 * below(BOZTERRUN_WORDS_LENGTH), below(2) != 0 ? &value : &any, 8);
            break;
        case 1:
            memcpy(slice_data(REALS) + 4 * below(BOZTERRUN_REALS_LENGTH), &any, 4);
            break;
        case 2:
            slice_data(TEXTS)[below(BOZTERRUN_TEXTS_LENGTH)] = (uint8_t)any;
            break;
        case 3:
            memcpy(slice_data(HANDSHAKE) + 8 * below(BOZTERRUN_HANDSHAKE_LENGTH), below(2) != 0 ? &value : &any, 8);
            break;
        default:
            memcpy(slice_data(CONTROL) + 8 * below(BOZTERRUN_CONTROL_LENGTH), &value, 8);
        }
    }
}

static void try_random(unsigned long rounds)
{
    const arguments good = with;
    for (unsigned long round = 0; round < rounds; round++) {
        alarm(20);
        slices_lend();
        damage();
        for (size_t n = 0; n < CALLS_A_ROUND; n++) {
            const size_t k = below(CALLS);
            with = good;
            with.device += 9 * below(2); /* the second device: behind seven interfaces and a seat */
            with.touch = (uint32_t)below(3);
            snprintf(where, sizeof where, "%s, call %zu of random round %lu", calls[k].name, n + 1, round);
            if (!begins_session(k) || n + 1 == CALLS_A_ROUND) {
                make(k, n < 2);
            }
        }
        check_overrun();
    }
    with = good;
}

int main(int count, char **words)
{
    const unsigned long rounds = count > 1 ? strtoul(words[1], NULL, 10) : 50000;
    const size_t step = count > 2 ? strtoul(words[2], NULL, 10) : 1;
    if (count > 3 || step == 0) {
        fprintf(stderr, "usage: scribble [ROUNDS [STEP]]\n");
        return 2;
    }
    watch();
    slices_make();
    for (unsigned devices = 2; devices <= 8; devices += 6) {
        session_make(devices, 0);
        try_words(CONTROL, step);
        try_random(rounds);
    }
    try_words(HANDSHAKE, step);
    unsigned long all[ANSWERS] = {0};
    for (size_t k = 0; k < CALLS; k++) {
        printf("%-34s", calls[k].name);
        for (size_t a = 0; a < ANSWERS; a++) {
            if (answers[k][a] != 0) {
                printf(" %zu:%lu", a, answers[k][a]);
                all[a] += answers[k][a];
            }
        }
        printf("\n");
    }
    printf("%-34s", "answers in all");
    for (size_t a = 0; a < ANSWERS; a++) {
        if (all[a] != 0) {
            printf(" %zu:%lu", a, all[a]);
        }
    }
    printf("\nscribble: %lu calls on damaged memory, %lu refused as such, %lu failed\n", made,
           all[BOZTERRUN_BAD_STATE], failures);
    return failures != 0;
}
