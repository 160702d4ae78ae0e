/*
 * How much stack each function uses: a call runs on a painted stack, and the lowest byte that it changed tells. Prints for each
 * function the most over inputs of every kind, in bytes; the gate holds that to the table in include/dawnhawse.h.
 */
#include <dawnhawse.h>
#include <stdio.h>
#include <string.h>
#include <ucontext.h>

/* The arguments of the next call. */
static uint8_t bytes[1024], connection[DAWNHAWSE_CONNECTION], out[1024], table[DAWNHAWSE_MOST_ROWS * DAWNHAWSE_ROW];
static uint64_t numbers[DAWNHAWSE_NUMBERS], ssl_numbers[DAWNHAWSE_SSL_NUMBERS];
static uint8_t client, present;
static size_t length, at, room, table_length;

#define NUMBERS numbers, DAWNHAWSE_NUMBERS
#define CONNECTION connection, sizeof connection
static void nothing(void) {}
static void do_read(void) { dawnhawse_read(bytes, length, NUMBERS, CONNECTION); }
static void do_read_checked(void) { dawnhawse_read_checked(bytes, length, NUMBERS, CONNECTION); }
static void do_next(void) { dawnhawse_next(bytes, length, at, NUMBERS); }
static void do_step(void) { dawnhawse_step(bytes, length, at, NUMBERS); }
static void do_lookup(void) { dawnhawse_lookup(bytes, length, 0xee, at, NUMBERS); }
static void do_read_ssl(void) { dawnhawse_read_ssl(bytes, length, ssl_numbers, at); }
static void do_write_ssl(void)
{
    dawnhawse_write_ssl(client, 0x01020304, present, bytes, length, bytes, length, bytes, length, bytes, length, bytes, length, out, room,
                        NUMBERS);
}
static void do_write_v1(void) { dawnhawse_write_v1(CONNECTION, out, room, NUMBERS); }
static void do_write_v2(void) { dawnhawse_write_v2(CONNECTION, bytes, length, out, room, NUMBERS); }
static void do_write_v2_checked(void) { dawnhawse_write_v2_checked(CONNECTION, bytes, length, out, room, NUMBERS); }
static void do_store(void) { dawnhawse_store(CONNECTION, out, room, NUMBERS); }
static void do_load(void) { dawnhawse_load(bytes, length, CONNECTION); }
static void do_store_v2(void) { dawnhawse_store_v2(CONNECTION, out, room, NUMBERS); }
static void do_load_v2(void) { dawnhawse_load_v2(bytes, length, CONNECTION); }
static void do_forward(void) { dawnhawse_forward(bytes, length, out, room, NUMBERS); }
static void do_back(void) { dawnhawse_back(bytes, length, out, room, NUMBERS); }
static void do_crc32c(void) { dawnhawse_crc32c(bytes, length); }
static void do_doorman(void) { dawnhawse_doorman(table, table_length, bytes, length, NUMBERS); }

/* How far down a call writes, in whole words. */
static size_t depth(void (*call)(void))
{
    static uint8_t stack[8192];
    static ucontext_t here, there;
    size_t clean = 0;

    memset(stack, 0xa5, sizeof stack);
    getcontext(&there);
    there.uc_stack.ss_sp = stack;
    there.uc_stack.ss_size = sizeof stack;
    there.uc_link = &here;
    makecontext(&there, call, 0);
    swapcontext(&here, &there);
    while (clean < sizeof stack && stack[clean] == 0xa5)
        clean++;
    return sizeof stack - clean / 8 * 8;
}

/* The most that calls of a function used, beyond a call of nothing. */
static struct most {
    void (*call)(void);
    const char *name;
    size_t use;
} most[] = {
    {do_read, "dawnhawse_read", 0},
    {do_read_checked, "dawnhawse_read_checked", 0},
    {do_next, "dawnhawse_next", 0},
    {do_step, "dawnhawse_step", 0},
    {do_lookup, "dawnhawse_lookup", 0},
    {do_read_ssl, "dawnhawse_read_ssl", 0},
    {do_write_ssl, "dawnhawse_write_ssl", 0},
    {do_write_v1, "dawnhawse_write_v1", 0},
    {do_write_v2, "dawnhawse_write_v2", 0},
    {do_write_v2_checked, "dawnhawse_write_v2_checked", 0},
    {do_store, "dawnhawse_store", 0},
    {do_load, "dawnhawse_load", 0},
    {do_store_v2, "dawnhawse_store_v2", 0},
    {do_load_v2, "dawnhawse_load_v2", 0},
    {do_forward, "dawnhawse_forward", 0},
    {do_back, "dawnhawse_back", 0},
    {do_crc32c, "dawnhawse_crc32c", 0},
    {do_doorman, "dawnhawse_doorman", 0},
};

static void measure(void (*call)(void))
{
    size_t use = depth(call) - depth(nothing);

    for (struct most *m = most; m < most + sizeof most / sizeof *most; m++)
        if (m->call == call && m->use < use)
            m->use = use;
}

/* Each beginning of the bytes, as it is and with its last byte altered. */
static void beginnings(void (*call)(void), size_t whole)
{
    for (length = 1; length <= whole; length++) {
        measure(call);
        bytes[length - 1] ^= 0x55;
        measure(call);
        bytes[length - 1] ^= 0x55;
    }
}

static const struct kind {
    uint8_t code;
    size_t address, port;
} kinds[] = {
    {DAWNHAWSE_LOCAL, 0, 0},       {DAWNHAWSE_UNSPECIFIED, 0, 0},
    {DAWNHAWSE_IP4_STREAM, 4, 2},  {DAWNHAWSE_IP4_DATAGRAM, 4, 2},
    {DAWNHAWSE_IP6_STREAM, 16, 2}, {DAWNHAWSE_IP6_DATAGRAM, 16, 2},
    {DAWNHAWSE_UNIX_STREAM, 108, 0}, {DAWNHAWSE_UNIX_DATAGRAM, 108, 0},
};
static const uint8_t tlvs[] = {1, 0, 2, 'h', '2', 4, 0, 0, 4, 0, 0, 5, 0, 1, 7, 0xee, 0, 1, 7};

/* A connection of this kind and state whose used bytes are all this one, room for it, and TLVs where it may have some. */
static void prepare(const struct kind *kind, uint8_t state, int byte)
{
    memset(connection, 0, sizeof connection);
    connection[DAWNHAWSE_KIND] = kind->code;
    connection[DAWNHAWSE_CHECKSUM] = state;
    memset(connection + DAWNHAWSE_SOURCE, byte, kind->address);
    memset(connection + DAWNHAWSE_DESTINATION, byte, kind->address);
    memset(connection + DAWNHAWSE_SOURCE_PORT, byte, 2 * kind->port);
    room = sizeof out;
    length = kind->address ? sizeof tlvs : 0;
    memcpy(bytes, tlvs, length);
}

/* IPv6 lines of every choice of zero groups, among others of four digits. */
static void zero_groups(void)
{
    static const struct kind ip6 = {DAWNHAWSE_IP6_STREAM, 16, 2};

    for (int zeros = 0; zeros < 256; zeros++) {
        prepare(&ip6, DAWNHAWSE_CHECKSUM_ABSENT, 0xff);
        for (int group = 0; group < 8; group++) {
            if (zeros >> group & 1) {
                memset(connection + DAWNHAWSE_SOURCE + 2 * group, 0, 2);
                memset(connection + DAWNHAWSE_DESTINATION + 2 * group, 0, 2);
            }
        }
        measure(do_write_v1);
    }
}

/* Reads or moves what a writer has written of such a connection; moves it once more without room. */
static void read_back(const struct kind *kind, uint8_t state, void (*write)(void), void (*call)(void))
{
    size_t written;

    prepare(kind, state, 7);
    write();
    written = numbers[DAWNHAWSE_WRITTEN_LENGTH];
    memcpy(bytes, out, written);
    beginnings(call, written);
    room = 0;
    beginnings(call, written);
}

/* Fills the table with 64 rows, 32 of each family: ever longer prefixes of the address whose bytes are all 7. */
static void fill_table(void)
{
    memset(table, 0, sizeof table);
    table_length = sizeof table;
    for (size_t i = 0; i < DAWNHAWSE_MOST_ROWS; i++) {
        uint8_t *row = table + i * DAWNHAWSE_ROW;
        size_t bits = i < 32 ? i + 1 : (i - 31) * 4;

        row[DAWNHAWSE_ROW_FAMILY] = i < 32 ? 4 : 6;
        row[DAWNHAWSE_ROW_BITS] = (uint8_t)bits;
        row[DAWNHAWSE_ROW_LEVEL] = i % 4;
        for (size_t bit = 0; bit < bits; bit++)
            row[DAWNHAWSE_ROW_ADDRESS + bit / 8] |= 7 & 0x80 >> bit % 8;
    }
}

/* Other tables: none; the last row cut; its level out of range; a bit of it set beyond the prefix; in its place the row before it. */
static void other_tables(void)
{
    uint8_t *last = table + sizeof table - DAWNHAWSE_ROW;

    table_length = 0;
    measure(do_doorman);
    table_length = sizeof table - 1;
    measure(do_doorman);
    table_length = sizeof table;
    last[DAWNHAWSE_ROW_LEVEL] += 4;
    measure(do_doorman);
    last[DAWNHAWSE_ROW_LEVEL] -= 4;
    last[DAWNHAWSE_ROW_BITS]--;
    measure(do_doorman);
    memcpy(last, last - DAWNHAWSE_ROW, DAWNHAWSE_ROW);
    measure(do_doorman);
}

/* Values of TLV 0x20 with every choice of pieces, written with room and without, and read as they are, cut and altered. */
static void ssl_values(void)
{
    size_t written;

    for (present = 0; present < 32; present++) {
        client = present & DAWNHAWSE_SSL_CLIENT_TLS;
        room = sizeof out;
        length = present;
        measure(do_write_ssl);
        client ^= DAWNHAWSE_SSL_CLIENT_TLS;
        measure(do_write_ssl);
        client = 0;
        do_write_ssl();
        written = numbers[DAWNHAWSE_WRITTEN_LENGTH];
        room = written - 1;
        measure(do_write_ssl);
        memcpy(bytes, out, written);
        for (at = DAWNHAWSE_SSL_NUMBERS - 1; at <= DAWNHAWSE_SSL_NUMBERS; at++)
            beginnings(do_read_ssl, written);
    }
}

/* Headers of this kind with one byte altered, so that some do not keep the profile; then a local one of 16 + 0x209 = 537 bytes. */
static void profile(const struct kind *kind)
{
    prepare(kind, DAWNHAWSE_CHECKSUM_ABSENT, 7);
    do_write_v2();
    length = numbers[DAWNHAWSE_WRITTEN_LENGTH];
    memcpy(bytes, out, length);
    for (size_t i = 0; i < length; i++) {
        bytes[i] ^= 0x01;
        measure(do_doorman);
        bytes[i] ^= 0x01;
    }
    bytes[12] = 0x20;
    bytes[14] = 0x02;
    bytes[15] = 0x09;
    length = 537;
    measure(do_doorman);
}

int main(void)
{
    static const char *const lines[] = {
        "PROXY TCP4 255.255.255.255 255.255.255.255 65535 65535\r\n",
        "PROXY TCP6 ffff:ffff:ffff:ffff:ffff:ffff:ffff:ffff ffff:ffff:ffff:ffff:ffff:ffff:ffff:ffff 65535 65535\r\n",
        "PROXY TCP6 1:2:3:4::5:6:7 :: 0 1\r\n",
        "PROXY TCP6 1::2 ::3:4:5 0 1\r\n",
        "PROXY UNKNOWN and whatever follows\r\n",
    };

    fill_table();
    for (size_t i = 0; i < sizeof lines / sizeof *lines; i++) {
        memcpy(bytes, lines[i], strlen(lines[i]));
        beginnings(do_read, strlen(lines[i]));
        beginnings(do_read_checked, strlen(lines[i]));
        beginnings(do_crc32c, strlen(lines[i]));
        beginnings(do_doorman, strlen(lines[i]));
    }
    zero_groups();
    ssl_values();
    for (const struct kind *kind = kinds; kind < kinds + sizeof kinds / sizeof *kinds; kind++) {
        for (int byte = 0; byte < 256; byte++) {
            for (uint8_t state = DAWNHAWSE_CHECKSUM_ABSENT; state <= DAWNHAWSE_CHECKSUM_MATCHED; state++) {
                prepare(kind, state, byte);
                for (room = 0; room <= sizeof out; room += sizeof out / 8) {
                    measure(do_write_v1);
                    measure(do_write_v2);
                    measure(do_write_v2_checked);
                    measure(do_store);
                    measure(do_store_v2);
                }
            }
        }
        read_back(kind, DAWNHAWSE_CHECKSUM_ABSENT, do_write_v2, do_read);
        read_back(kind, DAWNHAWSE_CHECKSUM_ABSENT, do_write_v2, do_read_checked);
        read_back(kind, DAWNHAWSE_CHECKSUM_ABSENT, do_write_v2, do_doorman);
        profile(kind);
        read_back(kind, DAWNHAWSE_CHECKSUM_ABSENT, do_store, do_load);
        read_back(kind, DAWNHAWSE_CHECKSUM_ABSENT, do_store, do_forward);
        read_back(kind, DAWNHAWSE_CHECKSUM_ABSENT, do_store_v2, do_load_v2);
        read_back(kind, DAWNHAWSE_CHECKSUM_ABSENT, do_store_v2, do_back);
        if (kind->address) {
            read_back(kind, DAWNHAWSE_CHECKSUM_MATCHED, do_write_v2_checked, do_read_checked);
            read_back(kind, DAWNHAWSE_CHECKSUM_MATCHED, do_store_v2, do_load_v2);
            read_back(kind, DAWNHAWSE_CHECKSUM_MATCHED, do_store_v2, do_back);
        }
    }
    other_tables();
    memcpy(bytes, tlvs, sizeof tlvs);
    for (at = 0; at < sizeof tlvs + 2; at++) {
        beginnings(do_next, sizeof tlvs);
        beginnings(do_step, sizeof tlvs);
        beginnings(do_lookup, sizeof tlvs);
    }
    for (size_t i = 0; i < sizeof most / sizeof *most; i++)
        printf("%s %zu\n", most[i].name, most[i].use);
    return 0;
}
