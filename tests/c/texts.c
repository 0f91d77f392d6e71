/*
 * texts LENGTH MAKEUP [SEED]: a random text of so many bytes (1 to 254) and this make-up (utf8.h has them), sent,
 * framed and taken ten times, a new one each time. For counting the instructions of bozterrun_text_utf8 by length and
 * make-up; tests/timing.py does that.
 */
#include "session.h"
#include "utf8.h"

int main(int count, char **words)
{
    uint8_t text[BOZTERRUN_NAME_LENGTH], buffer[BOZTERRUN_NAME_LENGTH];
    bozterrun_request request;
    const size_t length = count > 2 ? strtoul(words[1], NULL, 10) : 0;
    random_state = count > 3 ? strtoull(words[3], NULL, 10) : 1;
    if (count > 4 || length < 1 || length > sizeof text || !fill_text(text, length, words[2])) {
        fprintf(stderr, "usage: texts LENGTH digits|letters|ascii|2-byte|3-byte|4-byte|mixed [SEED]\n");
        return 2;
    }
    const uint64_t device = begin_session(1, BOZTERRUN_CAPABILITY_TEXT);
    for (unsigned i = 0; i < 10; i++) {
        fill_text(text, length, words[2]);
        must("utf8", bz_text_utf8(&session, device + 1, text, length));
        must("frame", bz_device_frame(&session, device, 7, i));
        must("next_request", bz_next_request(&session, &request, buffer, sizeof buffer));
        if (request.kind != BOZTERRUN_REQUEST_TEXT_UTF8 || request.length != length ||
            memcmp(buffer, text, length) != 0) {
            printf("another text was delivered\n");
            return 1;
        }
        must("next_request", bz_next_request(&session, &request, buffer, sizeof buffer));
    }
    printf("10 texts of %zu bytes, %s\n", length, words[2]);
    return 0;
}
