/* The box for C: the calls of Lysegnom. crates/has_c/src/lib.rt has the contract of each.
 *
 * Link crates/has_c/out/libhas_c.a, which `rt lib` in crates/has_c proves and builds for x86-64. It calls memcpy and memset and nothing else:
 * no heap, no file, no clock, no memory of its own between calls. So calls may run at once in several threads. A collector is kept by the caller, in
 * two buffers of octets.
 *
 * Every call answers one number of 64 bits. Its high half is 0, and then its low half is the value of the call; or its high half is the number of
 * a refusal, and then its low half is 0, or of has_read the bit place of the refusal. A refusal writes no octet of any buffer, but that has_feed, when it
 * refuses a page from HAS_DUMMY on, has moved the collector's clock and freed what was over.
 *
 * Any octets, numbers and lengths may be given: what a call cannot take it refuses. What C must see to:
 * - A pointer is valid for the length that goes with it: for reading, or for writing too if it is not const.
 * - No pointer is null. If its length is 0 it may be any other address: nothing is read or written through it.
 * - A buffer that a call writes has no octet in common with any other buffer of the call, and no other thread touches one while the call runs.
 */
#ifndef HAS_H
#define HAS_H

#include <stddef.h>
#include <stdint.h>

#ifdef __cplusplus
extern "C" {
#endif

/* Lengths in octets. The buffers that are written have these lengths exactly. */
#define HAS_PAGE 56       /* a page: 3 octets of header and 53 of content */
#define HAS_CONTENT 53    /* the content of a page; a message of k pages is 53 k octets, k from 1 to 32 */
#define HAS_MESSAGE 1696  /* the buffer for a message: 32 times 53 */
#define HAS_RECORD 16     /* a record */
#define HAS_RECORDS 21808 /* the buffer for the records of a message: 1363 of them */
#define HAS_HEAD 336      /* a collector's clock and places */
#define HAS_STORE 13568   /* a collector's waiting pages: 8 places of 32 contents */
#define HAS_ENTRY 64      /* an entry of a recorded drive: 8 octets of second and a page */
#define HAS_LOG 55        /* the log of a drive: so many octets for each of its entries */

/* What has_feed answers where nothing is refused, and what stands first in a log. */
#define HAS_KEPT 1
#define HAS_READY 2
#define HAS_REFUSED 3

/* The refusals and their numbers. docs/REFUSALS.md has the cause of each. */
enum has_refusal {
    HAS_NONE = 0, /* nothing is refused */
    HAS_LENGTH = 1,
    HAS_OUT = 2,
    HAS_SECOND = 3,
    HAS_CLOCK = 4,
    HAS_DUMMY = 5,
    HAS_STOP = 6,
    HAS_STATUS = 7,
    HAS_TYPE = 8,
    HAS_PAGENUMBER = 9,
    HAS_DONE = 10,
    HAS_REPEAT = 11,
    HAS_CONFLICT = 12,
    HAS_FULL = 13,
    HAS_TIMEOUT = 14,
    HAS_ID = 15,
    HAS_TOH = 16,
    HAS_MASK = 17,
    HAS_SHORT = 18,
    HAS_COUNT = 19,
    HAS_SYSTEM = 20,
    HAS_TWICE = 21,
    HAS_NAVMSG = 22,
    HAS_VALIDITY = 23,
    HAS_FORM = 24,
    HAS_LONG = 25
};

/* The refusal of an answer, HAS_NONE if nothing is refused. */
static inline enum has_refusal has_refusal_of(uint64_t answer) {
    return (enum has_refusal)(answer >> 32);
}

/* The value of an answer. */
static inline uint32_t has_value(uint64_t answer) {
    return (uint32_t)answer;
}

/* Of what has_feed answers: HAS_KEPT or HAS_READY, and the count of pages or the size. */
static inline unsigned has_fed(uint64_t answer) {
    return (unsigned)(answer >> 24 & 255);
}
static inline unsigned has_count(uint64_t answer) {
    return (unsigned)(answer & 0xFFFFFF);
}

/* One page of a message.
 *   message  the message, message_length octets
 *   status   the page's HAS status, 0 or 1
 *   number   the message's number, 0 to 31
 *   page     the page's number, 1 to k or 33 to 255, k being the size of the message in pages
 *   out      HAS_PAGE octets, written whole: the page
 * The value is 0. It refuses, in this order:
 *   HAS_LENGTH      message_length is not 53 k, k from 1 to 32
 *   HAS_OUT         out_length is not HAS_PAGE
 *   HAS_STATUS      the status is over 1
 *   HAS_ID          the message's number is over 31
 *   HAS_PAGENUMBER  the page's number is not 1 to k or 33 to 255
 */
uint64_t has_encode_page(const uint8_t *message, size_t message_length, uint64_t status, uint64_t number, uint64_t page, uint8_t *out, size_t out_length);

/* The message that has k given pages: there is exactly one.
 *   contents  the contents of the pages one after another, 53 k octets
 *   numbers   their page numbers in the same order, an octet each: k is numbers_length
 *   out       HAS_MESSAGE octets; the first 53 k are written: the message
 * The value is k. It refuses, in this order:
 *   HAS_LENGTH      numbers_length is not 1 to 32, or contents_length not 53 times as much
 *   HAS_OUT         out_length is not HAS_MESSAGE
 *   HAS_PAGENUMBER  some number is not 1 to k or 33 to 255
 *   HAS_REPEAT      some number stands twice
 */
uint64_t has_solve(const uint8_t *contents, size_t contents_length, const uint8_t *numbers, size_t numbers_length, uint8_t *out, size_t out_length);

/* The records of a message of message type 1. crates/mt1/specs/Records.antt has the octets of each kind of record, and their order.
 *   message  the message, message_length octets
 *   mask_id  the Mask ID of the lent mask
 *   mask     the lent mask, for a message without its own: the Mask block's bits from the first on, octets behind them ignored; mask_length 0 for none
 *   records  HAS_RECORDS octets; the first 16 n are written: the records
 * The value is n, how many records; of a refusal it is the bit place in the message, from 0 on. It refuses, in this order:
 *   HAS_LENGTH    message_length is not 53 k, k from 1 to 32; place 0
 *   HAS_OUT       records_length is not HAS_RECORDS; place 0
 *   HAS_TOH       the time of hour is over 3599; place 0
 *   HAS_MASK      the message needs a mask, has none of its own, and the lent one is none, has another ID or does not read; place 22
 * then the fields in reading order, each at the place of its first bit:
 *   HAS_SHORT     the field does not fit; before its value is judged
 *   HAS_COUNT     the mask has not 1 or 2 systems, or the subset not 1 to as many as the mask
 *   HAS_SYSTEM    a GNSS ID is not 0 or 2 or, in the subset, not in the mask
 *   HAS_TWICE     a GNSS ID stands twice in a block
 *   HAS_NAVMSG    a navigation message is not 0
 *   HAS_VALIDITY  a validity interval has the reserved index 15
 */
uint64_t has_read(const uint8_t *message, size_t message_length, uint64_t mask_id, const uint8_t *mask, size_t mask_length, uint8_t *records, size_t records_length);

/* The message of records, in the fewest pages: with the same mask lent it reads to the same records.
 *   records        the records, records_length octets
 *   mask_id, mask  as for has_read
 *   out            HAS_MESSAGE octets; the first 53 k are written: the message
 * The value is k, the size of the message in pages. It refuses, in this order:
 *   HAS_OUT   out_length is not HAS_MESSAGE
 *   HAS_FORM  records_length is 0 or no multiple of 16, or the first record is no header record that a message has
 *   HAS_MASK  the message needs a mask, has none of its own, and the lent one is none, has another ID or does not read
 *   HAS_FORM  no message of any length reads, with that mask lent, to these records
 *   HAS_LONG  one does, but none of 32 pages or fewer
 */
uint64_t has_write(const uint8_t *records, size_t records_length, uint64_t mask_id, const uint8_t *mask, size_t mask_length, uint8_t *out, size_t out_length);

/* The second that a time of hour means: the start of the hour of reception plus the time of hour.
 *   second  the second of reception, in GST: 0 to 2477260799
 *   time    the time of hour, 0 to 3599
 * The value is the second. It refuses, in this order:
 *   HAS_SECOND  the second is over 2477260799
 *   HAS_TOH     the time of hour is over 3599
 */
uint64_t has_reference_time(uint64_t second, uint64_t time);

/* A collector, made fresh in the caller's two buffers.
 *   head     HAS_HEAD octets, written whole: the clock and the places
 *   store    HAS_STORE octets, written whole: the waiting pages, of which there are none
 *   timeout  the time-out in seconds, 1 to 600; HAS asks for 150
 * The value is 0. It refuses, in this order:
 *   HAS_LENGTH   head_length is not HAS_HEAD, or store_length not HAS_STORE
 *   HAS_TIMEOUT  the time-out is not 1 to 600
 *
 * The octets are the same on every machine and may be kept over a reset or sent elsewhere. Numbers have their highest octet first; what is not in use is 0.
 * The head: the time-out (4 octets), the last second (4), and eight places of 41 octets: 0 free, 1 open or 2 done (1); the status, the number and the size
 * of the message (1 each); the second of its first page (4); how many pages are held (1); their numbers in the order of arrival (32). The store: for each
 * place 1,696 octets, the contents of its pages in the same order, 53 octets each. A done place holds no pages. A new message takes the first free place.
 */
uint64_t has_start(uint8_t *head, size_t head_length, uint8_t *store, size_t store_length, uint64_t timeout);

/* A page, fed to a collector.
 *   head, store  the collector, as has_start and has_feed left it; both are written
 *   second       the second of reception, in GST: 0 to 2477260799, and never lower than the one before
 *   page         the page, HAS_PAGE octets
 *   out          HAS_MESSAGE octets; written by HAS_READY alone, its first 53 k octets: the message
 * The value says HAS_KEPT and how many pages of the message are held now, or HAS_READY and the size k of the message that is solved: see has_fed, has_count.
 * It refuses, in this order, with nothing written:
 *   HAS_LENGTH      head_length is not HAS_HEAD, or store_length not HAS_STORE
 *   HAS_FORM        head and store are not the octets of a collector (see below)
 *   HAS_LENGTH      page_length is not HAS_PAGE
 *   HAS_OUT         out_length is not HAS_MESSAGE
 *   HAS_SECOND      the second is over 2477260799
 *   HAS_CLOCK       the second is below the last one
 * and then, the clock being set and every place freed whose first second is a time-out or more ago:
 *   HAS_DUMMY       a dummy page
 *   HAS_STOP        status 3; every place is freed
 *   HAS_STATUS      status 2
 *   HAS_TYPE        the type is not 1
 *   HAS_PAGENUMBER  the page's number is not 1 to k or 33 to 255
 *   HAS_DONE        the message has come out already
 *   HAS_REPEAT      the page is held already, with the same content
 *   HAS_CONFLICT    a page of this number is held, with other content; it stays
 *   HAS_FULL        a page of another message, and no place is free
 *
 * Octets are those of a collector if the time-out is 1 to 600, the last second at most 2477260799, no place's first second is after it, the places that are
 * not free have a status of at most 1, a number of at most 31 and a size of 1 to 32, no two of them the same three, each place is free, open or done, each open place holds 1 to k - 1 pages with different
 * numbers that are 1 to k or 33 to 255, and every octet that is not in use is 0. What has_start and has_feed leave is always so: then HAS_FORM is never given.
 */
uint64_t has_feed(uint8_t *head, size_t head_length, uint8_t *store, size_t store_length, uint64_t second, const uint8_t *page, size_t page_length, uint8_t *out, size_t out_length);

/* A recorded drive: its pages are fed to a fresh collector, and each answer is logged.
 *   timeout  the time-out in seconds, 1 to 600
 *   entries  the drive: for each page the second of reception (8 octets, the highest first) and the page, HAS_ENTRY octets together
 *   log      HAS_LOG octets for each entry; the first of them are written: the log
 * The log has two octets for each entry: HAS_KEPT and the count, HAS_READY and the size k, HAS_REFUSED and the refusal's number. The 53 k octets of the
 * message stand behind a HAS_READY. However the pages come, the log is not longer than HAS_LOG octets for each of them.
 * The value is how many octets the log has. It refuses, in this order:
 *   HAS_LENGTH   entries_length is no multiple of HAS_ENTRY, or over 4294967296
 *   HAS_OUT      log_length is not HAS_LOG for each entry
 *   HAS_TIMEOUT  the time-out is not 1 to 600
 */
uint64_t has_replay(uint64_t timeout, const uint8_t *entries, size_t entries_length, uint8_t *log, size_t log_length);

#ifdef __cplusplus
}
#endif

#endif
