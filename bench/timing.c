/* Times the calls of include/has.h beside ISA-L and libfec, on fresh random data in every round, and prints a table: the median time of a call in microseconds, and how many
   times as long the others take. Every result of every library is compared with the message sent.

   ISA-L recovers the missing pages as its users do: the matrix of the received rows is inverted, tables are made of the rows that are missing, and these are multiplied.
   Its matrix is given. Once with rows of 53 octets, once padded to 64, which is its best. libfec decodes the 53 words, in each of which 223 places are erased; to encode a page it
   encodes the 53 words. */
#include <fec.h>
#include <isa-l.h>
#include <stdint.h>
#include <stdio.h>
#include <stdlib.h>
#include <string.h>
#include <time.h>
#include "has.h"

enum { ROUNDS = 1001, FEW = 25, MOST = 32, PAGES = 255, CODE = 255, PARITY = 223, WIDE = 64 };

static double micros(void) {
    struct timespec t;
    clock_gettime(CLOCK_MONOTONIC, &t);
    return t.tv_sec * 1e6 + t.tv_nsec / 1e3;
}

static uint64_t state = 88172645463325252ULL;
static uint64_t draw(void) {
    state ^= state << 13;
    state ^= state >> 7;
    state ^= state << 17;
    return state;
}

static int wrong;

/* ---- the times of one kind of work, and their median */
struct times {
    int n;
    double all[ROUNDS];
};

static int by_size(const void *a, const void *b) {
    double x = *(const double *)a, y = *(const double *)b;
    return (x > y) - (x < y);
}

static double median(struct times *t) {
    if (t->n == 0) return 0;
    qsort(t->all, t->n, sizeof *t->all, by_size);
    return t->all[t->n / 2];
}

static struct times ours, narrow, wide, fec;

static void forget(void) {
    ours.n = narrow.n = wide.n = fec.n = 0;
}

static void took(struct times *t, double start) {
    t->all[t->n++] = micros() - start;
}

static void cell(double own, struct times *t) {
    double x = median(t);
    if (x == 0) printf(" | | ");
    else printf(" | %.2f | %.1f", x, x / own);
}

static void row(const char *what) {
    double own = median(&ours);
    printf("| %s | %.2f", what, own);
    cell(own, &narrow);
    cell(own, &wide);
    cell(own, &fec);
    printf(" |\n");
    fflush(stdout);
}

/* ---- a message, its pages, and those that are received */
static uint8_t message[HAS_MESSAGE], page[HAS_PAGE], contents[HAS_MESSAGE], out[HAS_MESSAGE];
static uint8_t numbers[MOST], matrix[PAGES * MOST];
static int size;

static void fill(uint8_t *octets, int n) {
    for (int i = 0; i < n; i++) octets[i] = draw();
}

/* row p - 1: the octets of page p for the 32 unit words, by libfec */
static void *code;
static void make_matrix(void) {
    for (int j = 0; j < MOST; j++) {
        uint8_t word[CODE] = {0};
        word[j] = 1;
        encode_rs_char(code, word, word + MOST);
        for (int p = 0; p < PAGES; p++) matrix[p * MOST + j] = word[p];
    }
}

/* k different numbers, `plain` of them from 1 to k, the others from the parity part, in any order */
static void choose(int plain) {
    int used[256] = {0};
    for (int i = 0; i < size; i++) {
        int p;
        do p = i < plain ? 1 + draw() % size : 33 + draw() % PARITY;
        while (used[p]);
        used[p] = 1;
        numbers[i] = p;
    }
    for (int i = size - 1; i > 0; i--) {
        int j = draw() % (i + 1);
        uint8_t p = numbers[i];
        numbers[i] = numbers[j], numbers[j] = p;
    }
}

static void receive(void) {
    fill(message, HAS_CONTENT * size);
    for (int i = 0; i < size; i++) {
        wrong += has_encode_page(message, HAS_CONTENT * size, 1, 3, numbers[i], page, HAS_PAGE) != 0;
        memcpy(contents + HAS_CONTENT * i, page + 3, HAS_CONTENT);
    }
}

/* ---- solving */
static void solve_ours(void) {
    fill(out, HAS_MESSAGE);
    double start = micros();
    uint64_t answer = has_solve(contents, HAS_CONTENT * size, numbers, size, out, HAS_MESSAGE);
    took(&ours, start);
    wrong += answer != (uint64_t)size || memcmp(out, message, HAS_CONTENT * size) != 0;
}

static void solve_isal(int length, struct times *t) {
    static uint8_t in[MOST][WIDE], back[MOST][WIDE], square[MOST * MOST], inverse[MOST * MOST], missing[MOST * MOST], tables[32 * MOST * MOST];
    uint8_t *from[MOST], *to[MOST];
    int places[MOST], n = 0, have[MOST] = {0};
    memset(in, 0, sizeof in);
    for (int i = 0; i < size; i++) {
        memcpy(in[i], contents + HAS_CONTENT * i, HAS_CONTENT);
        from[i] = in[i], to[i] = back[i];
    }
    double start = micros();
    for (int i = 0; i < size; i++) {
        memcpy(square + size * i, matrix + MOST * (numbers[i] - 1), size);
        if (numbers[i] <= size) have[numbers[i] - 1] = 1;
    }
    for (int i = 0; i < size; i++)
        if (!have[i]) places[n++] = i;
    if (n > 0) {
        wrong += gf_invert_matrix(square, inverse, size) != 0;
        for (int i = 0; i < n; i++) memcpy(missing + size * i, inverse + size * places[i], size);
        ec_init_tables(size, n, missing, tables);
        ec_encode_data(length, size, n, tables, from, to);
    }
    for (int i = 0; i < size; i++)
        if (numbers[i] <= size) memcpy(out + HAS_CONTENT * (numbers[i] - 1), in[i], HAS_CONTENT);
    for (int i = 0; i < n; i++) memcpy(out + HAS_CONTENT * places[i], back[i], HAS_CONTENT);
    took(t, start);
    wrong += memcmp(out, message, HAS_CONTENT * size) != 0;
}

static void solve_fec(void) {
    double start = micros();
    int erased[PARITY], n = 0, known[CODE];
    for (int p = 0; p < CODE; p++) known[p] = p >= size && p < MOST;
    for (int i = 0; i < size; i++) known[numbers[i] - 1] = 1;
    for (int p = 0; p < CODE; p++)
        if (!known[p]) erased[n++] = p;
    for (int j = 0; j < HAS_CONTENT; j++) {
        uint8_t word[CODE] = {0};
        int places[PARITY];
        for (int i = 0; i < size; i++) word[numbers[i] - 1] = contents[HAS_CONTENT * i + j];
        memcpy(places, erased, sizeof places);
        decode_rs_char(code, word, places, n);
        for (int i = 0; i < size; i++) out[HAS_CONTENT * i + j] = word[i];
    }
    took(&fec, start);
    wrong += memcmp(out, message, HAS_CONTENT * size) != 0;
}

static void time_solving(int k, int plain, const char *which) {
    char what[64];
    size = k;
    forget();
    for (int n = 0; n < ROUNDS; n++) {
        choose(plain);
        receive();
        solve_ours();
        solve_isal(HAS_CONTENT, &narrow);
        solve_isal(WIDE, &wide);
        if (n < FEW) solve_fec();
    }
    snprintf(what, sizeof what, "solve, size %d, %s", k, which);
    row(what);
}

/* ---- encoding one page of the parity part, at size 32 */
static void encode_isal(int p, int length, struct times *t) {
    static uint8_t in[MOST][WIDE], back[WIDE], tables[32 * MOST];
    uint8_t *from[MOST], *to = back;
    for (int i = 0; i < MOST; i++) memcpy(in[i], message + HAS_CONTENT * i, HAS_CONTENT), from[i] = in[i];
    double start = micros();
    ec_init_tables(MOST, 1, matrix + MOST * (p - 1), tables);
    ec_encode_data(length, MOST, 1, tables, from, &to);
    took(t, start);
    wrong += memcmp(back, page + 3, HAS_CONTENT) != 0;
}

static void encode_fec(int p) {
    double start = micros();
    for (int j = 0; j < HAS_CONTENT; j++) {
        uint8_t word[CODE];
        for (int i = 0; i < MOST; i++) word[i] = message[HAS_CONTENT * i + j];
        encode_rs_char(code, word, word + MOST);
        out[j] = word[p - 1];
    }
    took(&fec, start);
    wrong += memcmp(out, page + 3, HAS_CONTENT) != 0;
}

static void time_encoding(void) {
    forget();
    for (int n = 0; n < ROUNDS; n++) {
        int p = 33 + draw() % PARITY;
        fill(message, HAS_MESSAGE);
        double start = micros();
        uint64_t answer = has_encode_page(message, HAS_MESSAGE, 1, 3, p, page, HAS_PAGE);
        took(&ours, start);
        wrong += answer != 0;
        encode_isal(p, HAS_CONTENT, &narrow);
        encode_isal(p, WIDE, &wide);
        if (n < FEW) encode_fec(p);
    }
    row("encode one page of 32");
}

/* ---- the collector: 32 pages of the parity part to a fresh one */
static void time_feeding(void) {
    static uint8_t head[HAS_HEAD], store[HAS_STORE];
    static struct times kept, ready;
    size = MOST;
    for (int n = 0; n < ROUNDS; n++) {
        choose(0);
        fill(message, HAS_MESSAGE);
        wrong += has_start(head, HAS_HEAD, store, HAS_STORE, 150) != 0;
        for (int i = 0; i < MOST; i++) {
            has_encode_page(message, HAS_MESSAGE, 1, 3, numbers[i], page, HAS_PAGE);
            double start = micros();
            uint64_t answer = has_feed(head, HAS_HEAD, store, HAS_STORE, 1000 + i, page, HAS_PAGE, out, HAS_MESSAGE);
            if (i == MOST / 2) took(&kept, start);
            if (i == MOST - 1) took(&ready, start);
            wrong += answer != (uint64_t)(i < MOST - 1 ? (HAS_KEPT << 24) + i + 1 : (HAS_READY << 24) + MOST);
        }
        wrong += memcmp(out, message, HAS_MESSAGE) != 0;
    }
    forget();
    memcpy(&ours, &kept, sizeof ours);
    row("feed, KEPT");
    memcpy(&ours, &ready, sizeof ours);
    row("feed, READY of 32 pages");
}

/* ---- message type 1: two systems, 80 satellites, 320 cells, all blocks but the subset; 12,590 bits, 403 records */
static int bit;
static void put(uint64_t v, int n) {
    while (n--) {
        message[bit / 8] |= (v >> n & 1) << (7 - bit % 8);
        bit++;
    }
}

static void make_message(void) {
    memset(message, 0, HAS_MESSAGE);
    bit = 0;
    put(1234, 12), put(0x3B, 6), put(0, 4), put(5, 5), put(9, 5);
    put(2, 4);
    for (int id = 0; id <= 2; id += 2) put(id, 4), put(0xFFFFFFFFFF, 40), put(0xA900, 16), put(0, 1), put(0, 3);
    put(0, 6);
    put(5, 4);
    for (int i = 0; i < 80; i++) put(draw(), i < 40 ? 8 : 10), put(draw(), 13), put(draw(), 12), put(draw(), 12);
    put(5, 4), put(draw(), 4);
    for (int i = 0; i < 80; i++) put(draw(), 13);
    put(5, 4);
    for (int i = 0; i < 320; i++) put(draw(), 11);
    put(5, 4);
    for (int i = 0; i < 320; i++) put(draw(), 13);
}

static void time_messages(void) {
    static uint8_t records[HAS_RECORDS];
    static struct times reads, writes;
    uint8_t none[1] = {0};
    for (int n = 0; n < ROUNDS; n++) {
        make_message();
        double start = micros();
        uint64_t count = has_read(message, HAS_MESSAGE, 0, none, 0, records, HAS_RECORDS);
        took(&reads, start);
        wrong += count != 403;
        start = micros();
        uint64_t answer = has_write(records, HAS_RECORD * count, 0, none, 0, out, HAS_MESSAGE);
        took(&writes, start);
        wrong += answer >> 32 != 0 || answer * HAS_CONTENT < (uint64_t)bit / 8 || memcmp(out, message, bit / 8) != 0;
    }
    forget();
    memcpy(&ours, &reads, sizeof ours);
    row("read, 403 records");
    memcpy(&ours, &writes, sizeof ours);
    row("write, 403 records");
}

int main(void) {
    static const int sizes[] = {1, 4, 8, 15, 32};
    code = init_rs_char(8, 0x11D, 1, 1, PARITY, 0);
    make_matrix();
    printf("| work | ours, us | ISA-L, us | times | ISA-L padded, us | times | libfec, us | times |\n|---|---|---|---|---|---|---|---|\n");
    time_encoding();
    for (unsigned i = 0; i < sizeof sizes / sizeof *sizes; i++) time_solving(sizes[i], 0, "parity pages");
    for (unsigned i = 1; i < sizeof sizes / sizeof *sizes; i++) time_solving(sizes[i], sizes[i] / 2, "half of them plain");
    for (unsigned i = 0; i < sizeof sizes / sizeof *sizes; i++) time_solving(sizes[i], sizes[i], "plain pages");
    time_feeding();
    time_messages();
    printf("\n%d rounds of each, %d of libfec; %d results wrong.\n", ROUNDS, FEW, wrong);
    return wrong != 0;
}
