/*
 * NULL with length 0, in every place of every function where a pointer is lent: it is answered as any other empty buffer is, and
 * what the other buffers then hold is the same too. The gate also runs this under valgrind.
 */
#include <dawnhawse.h>
#include <stdio.h>
#include <string.h>

static const char line[] = "PROXY TCP4 192.168.0.1 192.168.0.11 56324 443\r\n";
static const uint8_t area[] = {0x04, 0, 0};
static const uint8_t stored[] = {'C', 'S', 'R', 0, 1, DAWNHAWSE_LOCAL};
static const uint8_t stored_v2[] = {'C', 'S', 'R', 0, 2, DAWNHAWSE_LOCAL, DAWNHAWSE_CHECKSUM_ABSENT};
static const uint8_t caller[DAWNHAWSE_CONNECTION] = {DAWNHAWSE_IP4_STREAM};
static const uint8_t row[DAWNHAWSE_ROW] = {4, 8, 1, 10};
static const uint8_t ssl[] = {0, 0, 0, 0, 1, 0x21, 0, 0};
static const uint8_t local[] = {0x0d, 0x0a, 0x0d, 0x0a, 0x00, 0x0d, 0x0a, 'Q', 'U', 'I', 'T', 0x0a, 0x20, 0x00, 0, 0};

/* What may be written, and one place more that never is. */
static struct lent {
    uint64_t numbers[DAWNHAWSE_SSL_NUMBERS + 1];
    uint8_t bytes[DAWNHAWSE_LONGEST_STORED_V2 + 1];
} lent, kept;

static int passed, failed;

static void fill(void) { memset(&lent, 0xee, sizeof lent); }

/* Holds a call with NULL to its answer, and to a call with a pointer to something. */
static void hold(const char *call, uint32_t with_null, uint32_t with_pointer, uint32_t answer)
{
    if (with_null == answer && with_pointer == answer && memcmp(&lent, &kept, sizeof lent) == 0) {
        passed++;
    } else {
        failed++;
        printf("%s answers %s, with a pointer %s; expected %s and the same buffers\n", call, dawnhawse_answer_name(with_null),
               dawnhawse_answer_name(with_pointer), dawnhawse_answer_name(answer));
    }
}

/* The call first with each NOTHING as a pointer to a place that must not be touched, then as NULL. */
#define HOLD(CALL, ANSWER)                            \
    do {                                              \
        uint32_t with_pointer, with_null;             \
        fill();                                       \
        nothing = (void *)&untouched;                 \
        with_pointer = (CALL);                        \
        memcpy(&kept, &lent, sizeof kept);            \
        fill();                                       \
        nothing = NULL;                               \
        with_null = (CALL);                           \
        hold(#CALL, with_null, with_pointer, ANSWER); \
    } while (0)
#define NOTHING nothing, 0
#define NUMBERS lent.numbers, DAWNHAWSE_NUMBERS
#define SSL_NUMBERS lent.numbers, DAWNHAWSE_SSL_NUMBERS
#define SSL ssl, sizeof ssl
#define BYTES lent.bytes, DAWNHAWSE_LONGEST_STORED_V2
#define CALLER caller, sizeof caller
#define STORED stored, sizeof stored
#define STORED_V2 stored_v2, sizeof stored_v2
#define ROW row, sizeof row
#define CUT_ROW row, sizeof row - 1
#define HEADER local, sizeof local

int main(void)
{
    static uint64_t untouched = 7;
    const uint8_t *bytes = (const uint8_t *)line;
    size_t length = strlen(line);
    void *nothing;

    HOLD(dawnhawse_read(NOTHING, NUMBERS, BYTES), DAWNHAWSE_MORE);
    HOLD(dawnhawse_read(bytes, length, NOTHING, BYTES), DAWNHAWSE_NO_ROOM);
    HOLD(dawnhawse_read(bytes, length, NUMBERS, NOTHING), DAWNHAWSE_NO_ROOM);
    HOLD(dawnhawse_read(NOTHING, NOTHING, NOTHING), DAWNHAWSE_NO_ROOM);
    HOLD(dawnhawse_read_checked(NOTHING, NUMBERS, BYTES), DAWNHAWSE_MORE);
    HOLD(dawnhawse_read_checked(bytes, length, NOTHING, BYTES), DAWNHAWSE_NO_ROOM);
    HOLD(dawnhawse_read_checked(bytes, length, NUMBERS, NOTHING), DAWNHAWSE_NO_ROOM);
    HOLD(dawnhawse_read_checked(NOTHING, NOTHING, NOTHING), DAWNHAWSE_NO_ROOM);
    HOLD(dawnhawse_next(NOTHING, 0, NUMBERS), DAWNHAWSE_END);
    HOLD(dawnhawse_next(NOTHING, 1, NUMBERS), DAWNHAWSE_ILL_FORMED);
    HOLD(dawnhawse_next(area, sizeof area, 0, NOTHING), DAWNHAWSE_NO_ROOM);
    HOLD(dawnhawse_next(NOTHING, 0, NOTHING), DAWNHAWSE_NO_ROOM);
    HOLD(dawnhawse_step(NOTHING, 0, NUMBERS), DAWNHAWSE_END);
    HOLD(dawnhawse_step(NOTHING, 1, NUMBERS), DAWNHAWSE_ILL_FORMED);
    HOLD(dawnhawse_step(area, sizeof area, 0, NOTHING), DAWNHAWSE_NO_ROOM);
    HOLD(dawnhawse_step(NOTHING, 0, NOTHING), DAWNHAWSE_NO_ROOM);
    HOLD(dawnhawse_lookup(NOTHING, 4, 9, NUMBERS), DAWNHAWSE_ABSENT);
    HOLD(dawnhawse_lookup(NOTHING, 4, 0, NUMBERS), DAWNHAWSE_ABSENT);
    HOLD(dawnhawse_lookup(area, sizeof area, 4, 9, NOTHING), DAWNHAWSE_NO_ROOM);
    HOLD(dawnhawse_lookup(NOTHING, 4, 9, NOTHING), DAWNHAWSE_NO_ROOM);
    HOLD(dawnhawse_write_v1(NOTHING, BYTES, NUMBERS), DAWNHAWSE_WRONG_SIZE);
    HOLD(dawnhawse_write_v1(CALLER, NOTHING, NUMBERS), DAWNHAWSE_NO_ROOM);
    HOLD(dawnhawse_write_v1(CALLER, BYTES, NOTHING), DAWNHAWSE_NO_ROOM);
    HOLD(dawnhawse_write_v1(NOTHING, NOTHING, NOTHING), DAWNHAWSE_WRONG_SIZE);
    HOLD(dawnhawse_write_v2(NOTHING, area, sizeof area, BYTES, NUMBERS), DAWNHAWSE_WRONG_SIZE);
    HOLD(dawnhawse_write_v2(CALLER, NOTHING, BYTES, NUMBERS), DAWNHAWSE_WRITTEN);
    HOLD(dawnhawse_write_v2(CALLER, area, sizeof area, NOTHING, NUMBERS), DAWNHAWSE_NO_ROOM);
    HOLD(dawnhawse_write_v2(CALLER, area, sizeof area, BYTES, NOTHING), DAWNHAWSE_NO_ROOM);
    HOLD(dawnhawse_write_v2(CALLER, NOTHING, NOTHING, NOTHING), DAWNHAWSE_NO_ROOM);
    HOLD(dawnhawse_write_v2(NOTHING, NOTHING, NOTHING, NOTHING), DAWNHAWSE_WRONG_SIZE);
    HOLD(dawnhawse_write_v2_checked(NOTHING, area, sizeof area, BYTES, NUMBERS), DAWNHAWSE_WRONG_SIZE);
    HOLD(dawnhawse_write_v2_checked(CALLER, NOTHING, BYTES, NUMBERS), DAWNHAWSE_WRITTEN);
    HOLD(dawnhawse_write_v2_checked(CALLER, area, sizeof area, NOTHING, NUMBERS), DAWNHAWSE_NO_ROOM);
    HOLD(dawnhawse_write_v2_checked(CALLER, area, sizeof area, BYTES, NOTHING), DAWNHAWSE_NO_ROOM);
    HOLD(dawnhawse_write_v2_checked(CALLER, NOTHING, NOTHING, NOTHING), DAWNHAWSE_NO_ROOM);
    HOLD(dawnhawse_write_v2_checked(NOTHING, NOTHING, NOTHING, NOTHING), DAWNHAWSE_WRONG_SIZE);
    HOLD(dawnhawse_store(NOTHING, BYTES, NUMBERS), DAWNHAWSE_WRONG_SIZE);
    HOLD(dawnhawse_store(CALLER, NOTHING, NUMBERS), DAWNHAWSE_NO_ROOM);
    HOLD(dawnhawse_store(CALLER, BYTES, NOTHING), DAWNHAWSE_NO_ROOM);
    HOLD(dawnhawse_store(NOTHING, NOTHING, NOTHING), DAWNHAWSE_WRONG_SIZE);
    HOLD(dawnhawse_load(NOTHING, BYTES), DAWNHAWSE_WRONG_SIZE);
    HOLD(dawnhawse_load(STORED, NOTHING), DAWNHAWSE_NO_ROOM);
    HOLD(dawnhawse_load(NOTHING, NOTHING), DAWNHAWSE_NO_ROOM);
    HOLD(dawnhawse_store_v2(NOTHING, BYTES, NUMBERS), DAWNHAWSE_WRONG_SIZE);
    HOLD(dawnhawse_store_v2(CALLER, NOTHING, NUMBERS), DAWNHAWSE_NO_ROOM);
    HOLD(dawnhawse_store_v2(CALLER, BYTES, NOTHING), DAWNHAWSE_NO_ROOM);
    HOLD(dawnhawse_store_v2(NOTHING, NOTHING, NOTHING), DAWNHAWSE_WRONG_SIZE);
    HOLD(dawnhawse_load_v2(NOTHING, BYTES), DAWNHAWSE_WRONG_SIZE);
    HOLD(dawnhawse_load_v2(STORED_V2, NOTHING), DAWNHAWSE_NO_ROOM);
    HOLD(dawnhawse_load_v2(NOTHING, NOTHING), DAWNHAWSE_NO_ROOM);
    HOLD(dawnhawse_forward(NOTHING, BYTES, NUMBERS), DAWNHAWSE_WRONG_SIZE);
    HOLD(dawnhawse_forward(STORED, NOTHING, NUMBERS), DAWNHAWSE_NO_ROOM);
    HOLD(dawnhawse_forward(STORED, BYTES, NOTHING), DAWNHAWSE_NO_ROOM);
    HOLD(dawnhawse_forward(NOTHING, NOTHING, NOTHING), DAWNHAWSE_WRONG_SIZE);
    HOLD(dawnhawse_back(NOTHING, BYTES, NUMBERS), DAWNHAWSE_WRONG_SIZE);
    HOLD(dawnhawse_back(STORED_V2, NOTHING, NUMBERS), DAWNHAWSE_NO_ROOM);
    HOLD(dawnhawse_back(STORED_V2, BYTES, NOTHING), DAWNHAWSE_NO_ROOM);
    HOLD(dawnhawse_back(NOTHING, NOTHING, NOTHING), DAWNHAWSE_WRONG_SIZE);
    HOLD(dawnhawse_crc32c(NOTHING), 0);
    HOLD(dawnhawse_read_ssl(NOTHING, SSL_NUMBERS), DAWNHAWSE_WRONG_SSL);
    HOLD(dawnhawse_read_ssl(SSL, NOTHING), DAWNHAWSE_NO_ROOM);
    HOLD(dawnhawse_read_ssl(NOTHING, NOTHING), DAWNHAWSE_NO_ROOM);
    HOLD(dawnhawse_write_ssl(0, 0, 0x1f, NOTHING, NOTHING, NOTHING, NOTHING, NOTHING, BYTES, NUMBERS), DAWNHAWSE_WRITTEN);
    HOLD(dawnhawse_write_ssl(1, 0, 0x1e, NOTHING, NOTHING, NOTHING, NOTHING, NOTHING, BYTES, NUMBERS), DAWNHAWSE_NO_SSL_VERSION);
    HOLD(dawnhawse_write_ssl(0, 0, 0, NOTHING, NOTHING, NOTHING, NOTHING, NOTHING, NOTHING, NUMBERS), DAWNHAWSE_NO_ROOM);
    HOLD(dawnhawse_write_ssl(0, 0, 0, NOTHING, NOTHING, NOTHING, NOTHING, NOTHING, BYTES, NOTHING), DAWNHAWSE_NO_ROOM);
    HOLD(dawnhawse_write_ssl(0, 0, 0, NOTHING, NOTHING, NOTHING, NOTHING, NOTHING, NOTHING, NOTHING), DAWNHAWSE_NO_ROOM);
    HOLD(dawnhawse_doorman(NOTHING, HEADER, NUMBERS), DAWNHAWSE_ADMITTED);
    HOLD(dawnhawse_doorman(ROW, NOTHING, NUMBERS), DAWNHAWSE_MORE);
    HOLD(dawnhawse_doorman(CUT_ROW, NOTHING, NUMBERS), DAWNHAWSE_WRONG_TABLE);
    HOLD(dawnhawse_doorman(ROW, HEADER, NOTHING), DAWNHAWSE_NO_ROOM);
    HOLD(dawnhawse_doorman(CUT_ROW, HEADER, NOTHING), DAWNHAWSE_NO_ROOM);
    HOLD(dawnhawse_doorman(NOTHING, NOTHING, NUMBERS), DAWNHAWSE_MORE);
    HOLD(dawnhawse_doorman(NOTHING, NOTHING, NOTHING), DAWNHAWSE_NO_ROOM);
    if (untouched != 7)
        failed++;
    printf("%d passed, %d failed\n", passed, failed);
    return failed != 0;
}
