/* The ICD's Annex C from C: its 15 pages are fed to a collector until the message comes out, the message is read, and its records are written again. */
#include <stdio.h>
#include <string.h>
#include "annex_c.h"
#include "has.h"

enum { PAGES = sizeof annex_c_numbers };

static uint8_t head[HAS_HEAD], store[HAS_STORE], message[HAS_MESSAGE], again[HAS_MESSAGE], records[HAS_RECORDS];

/* Whether the answer of a call is good; says its refusal if not. */
static int is_good(const char *call, uint64_t answer) {
    if (has_refusal_of(answer) == HAS_NONE) return 1;
    printf("%s: refusal %d, value %u\n", call, (int)has_refusal_of(answer), (unsigned)has_value(answer));
    return 0;
}

/* Page i of the annex as it comes off the air: status 0, type 1, message number 15, size 15. */
static void receive(int i, uint8_t page[HAS_PAGE]) {
    const uint8_t header[3] = {0x05, 0xEE, annex_c_numbers[i]};
    memcpy(page, header, sizeof header);
    memcpy(page + sizeof header, annex_c_contents + HAS_CONTENT * i, HAS_CONTENT);
}

/* The size of the message, which is in `message` then; 0 if it does not come out. */
static unsigned collect(void) {
    if (!is_good("has_start", has_start(head, sizeof head, store, sizeof store, 150))) return 0;
    for (int i = 0; i < PAGES; i++) {
        uint8_t page[HAS_PAGE];
        receive(i, page);
        uint64_t fed = has_feed(head, sizeof head, store, sizeof store, 1000 + (uint64_t)i, page, sizeof page, message, sizeof message);
        if (!is_good("has_feed", fed)) return 0;
        if (has_fed(fed) == HAS_READY) {
            printf("Fed %d pages: a message of %u pages is ready.\n", i + 1, has_count(fed));
            return has_count(fed);
        }
    }
    printf("Fed %d pages: no message.\n", PAGES);
    return 0;
}

int main(void) {
    const uint8_t none[1] = {0}; /* no mask is lent: of these octets none is given */

    unsigned size = collect();
    if (size == 0) return 1;
    size_t length = (size_t)HAS_CONTENT * size;

    uint64_t read = has_read(message, length, 0, none, 0, records, sizeof records);
    if (!is_good("has_read", read)) return 1;
    printf("Read: %u records.\n", (unsigned)has_value(read));

    uint64_t written = has_write(records, (size_t)HAS_RECORD * has_value(read), 0, none, 0, again, sizeof again);
    if (!is_good("has_write", written)) return 1;
    int same = has_value(written) == size && memcmp(again, message, length) == 0;
    printf("Written again: %u pages, %s.\n", (unsigned)has_value(written), same ? "the same octets" : "other octets");
    return same ? 0 : 1;
}
