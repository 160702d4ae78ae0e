/*
 * Takes version 2 headers from sockets, and prints the level that a table of address prefixes gives to who called.
 */
#include <ctype.h>
#include <dawnhawse.h>
#include <stdio.h>
#include <sys/socket.h>
#include <unistd.h>

/* Types of the PROXY protocol: application protocol, name of the connection. */
#define ALPN "\x01"
#define UNIQUE_ID "\x05"

/* Family, bits, level, address: 10.0.0.0/8 has level 1, 10.1.2.0/24 inside it level 3, 2001:db8::/32 level 2. */
static const uint8_t table[3][DAWNHAWSE_ROW] = {
    {4, 8, 1, 10},
    {4, 24, 3, 10, 1, 2},
    {6, 32, 2, 0x20, 0x01, 0x0d, 0xb8},
};

/* The value may hold any bytes: the sender chooses them. Local has none. */
static void print_admitted(const uint8_t *bytes, const uint64_t *numbers)
{
    const uint8_t *value = bytes + numbers[DAWNHAWSE_UNIQUE_ID_START];
    uint64_t length = numbers[DAWNHAWSE_UNIQUE_ID_LENGTH];

    printf("level %d, header of %d bytes", (int)numbers[DAWNHAWSE_LEVEL], (int)numbers[DAWNHAWSE_ADMITTED_LENGTH]);
    if (length > 0) {
        printf(", unique ID \"");
        for (uint64_t i = 0; i < length; i++)
            printf(isprint(value[i]) ? "%c" : "\\x%02x", value[i]);
        printf("\"");
    }
    puts("");
}

/* Reads the header of one connection, and leaves its payload unread (examples/read_exactly.c). A header that would be longer than any
   that is admitted is not waited for, so a small buffer is enough. */
static void admit(int connected)
{
    uint64_t numbers[DAWNHAWSE_NUMBERS];
    uint8_t bytes[DAWNHAWSE_LONGEST_ADMITTED];
    uint32_t answer;
    size_t received = 0;

    for (;;) {
        ssize_t got;

        answer = dawnhawse_doorman(table[0], sizeof table, bytes, received, numbers, DAWNHAWSE_NUMBERS);
        if (answer != DAWNHAWSE_MORE || numbers[DAWNHAWSE_LEAST] > sizeof bytes - received)
            break;
        got = read(connected, bytes + received, numbers[DAWNHAWSE_LEAST]);
        if (got <= 0)
            break;
        received += (size_t)got;
    }
    if (answer == DAWNHAWSE_ADMITTED) {
        print_admitted(bytes, numbers);
    } else if (answer == DAWNHAWSE_MORE && numbers[DAWNHAWSE_LEAST] > sizeof bytes - received) {
        printf("too long, with %d bytes at least; %d were read\n", (int)(received + numbers[DAWNHAWSE_LEAST]), (int)received);
    } else if (answer == DAWNHAWSE_MORE) {
        printf("ended inside the header, after %d bytes\n", (int)received);
    } else if (answer <= DAWNHAWSE_REFUSED_TLV) {
        printf("%s at place %d\n", dawnhawse_answer_name(answer), (int)numbers[DAWNHAWSE_PLACE]);
    } else {
        puts(dawnhawse_answer_name(answer));
    }
}

/* What the proxy sends: head, length; source, destination and ports; TLVs. */
#define SIGNATURE "\r\n\r\n\0\r\nQUIT\n"
#define IP4 SIGNATURE "\x21\x11"
#define IP6 SIGNATURE "\x21\x21"
#define TO4 "\xc0\xa8\0\x0b\xdc\x04\x01\xbb"
#define TO6 "\x20\x01\x0d\xb8\0\0\0\0\0\0\0\0\0\0\0\x02\xdc\x04\x01\xbb"

/* 10.1.2.7; 12 + 3 + 8 = 0x17 */
static const char inner[] = IP4 "\0\x17"
                                "\x0a\x01\x02\x07" TO4 UNIQUE_ID "\0\x08"
                                "tester 7";
/* 10.200.0.1; 12 + 3 + 9 = 0x18 */
static const char outer[] = IP4 "\0\x18"
                                "\x0a\xc8\0\x01" TO4 UNIQUE_ID "\0\x09"
                                "tester 12";
/* 2001:db8::5; 36 + 3 + 2 + 3 + 8 = 0x34 */
static const char remote[] = IP6 "\0\x34"
                                 "\x20\x01\x0d\xb8\0\0\0\0\0\0\0\0\0\0\0\x05" TO6 ALPN "\0\x02"
                                 "h2" UNIQUE_ID "\0\x08"
                                 "remote 3";
/* 192.168.0.1; 12 + 3 + 2 = 0x11 */
static const char unknown[] = IP4 "\0\x11"
                                  "\xc0\xa8\0\x01" TO4 UNIQUE_ID "\0\x02"
                                  "\0*";
/* ::ffff:10.1.2.7, which counts as IPv6; 36 + 3 + 8 = 0x2f */
static const char mapped[] = IP6 "\0\x2f"
                                 "\0\0\0\0\0\0\0\0\0\0\xff\xff\x0a\x01\x02\x07" TO6 UNIQUE_ID "\0\x08"
                                 "tester 7";
static const char local[] = SIGNATURE "\x20\0\0\0";
static const char line[] = "PROXY TCP4 10.1.2.7 192.168.0.11 56324 443\r\n";
/* 10.1.2.7 again; 12 = 0x0c */
static const char without[] = IP4 "\0\x0c"
                                  "\x0a\x01\x02\x07" TO4;
/* 0x300 = 768: the length alone rules it out. */
static const char longer[] = IP6 "\x03\0"
                                 "\x20\x01\x0d\xb8\0\0\0\0\0\0\0\0\0\0\0\x05" TO6;

static void serve(const char *who, const char *sent, size_t size)
{
    int ends[2];

    if (socketpair(AF_UNIX, SOCK_STREAM, 0, ends) != 0 || write(ends[0], sent, size) != (ssize_t)size) {
        perror("socketpair");
        return;
    }
    close(ends[0]);
    printf("%s: ", who);
    admit(ends[1]);
    close(ends[1]);
}

int main(void)
{
    serve("10.1.2.7", inner, sizeof inner - 1);
    serve("10.200.0.1", outer, sizeof outer - 1);
    serve("2001:db8::5", remote, sizeof remote - 1);
    serve("192.168.0.1", unknown, sizeof unknown - 1);
    serve("::ffff:10.1.2.7", mapped, sizeof mapped - 1);
    serve("the proxy itself", local, sizeof local - 1);
    serve("a version 1 line", line, sizeof line - 1);
    serve("without a unique ID", without, sizeof without - 1);
    serve("a long header", longer, sizeof longer - 1);
    return 0;
}
