/*
 * Takes PROXY protocol headers from sockets, and prints who called.
 */
#include <arpa/inet.h>
#include <ctype.h>
#include <dawnhawse.h>
#include <stdio.h>
#include <sys/socket.h>
#include <unistd.h>

/* The bytes of a header as they come: too many for a small stack. */
static uint8_t bytes[DAWNHAWSE_LONGEST_HEADER];

/* A path ends at its first zero. An abstract name starts with a zero and ends at its last other byte; its zeros are shown as @. */
static void print_name(const uint8_t *name)
{
    size_t length = 0;

    for (size_t i = 0; i < 108 && (name[0] == 0 || name[i] != 0); i++)
        if (name[i] != 0)
            length = i + 1;
    for (size_t i = 0; i < length; i++) {
        if (name[i] == 0)
            putchar('@');
        else if (isprint(name[i]))
            putchar(name[i]);
        else
            printf("\\x%02x", name[i]);
    }
}

static void print_caller(const uint8_t *connection)
{
    const uint8_t *source = connection + DAWNHAWSE_SOURCE;
    const uint8_t *port = connection + DAWNHAWSE_SOURCE_PORT;
    char text[INET6_ADDRSTRLEN];

    switch (connection[DAWNHAWSE_KIND]) {
    case DAWNHAWSE_LOCAL:
        puts("local: the proxy itself");
        break;
    case DAWNHAWSE_UNSPECIFIED:
        puts("unspecified: the proxy does not say");
        break;
    case DAWNHAWSE_IP4_STREAM:
    case DAWNHAWSE_IP4_DATAGRAM:
        printf("IPv4 %s port %d\n", inet_ntop(AF_INET, source, text, sizeof text), port[0] * 256 + port[1]);
        break;
    case DAWNHAWSE_IP6_STREAM:
    case DAWNHAWSE_IP6_DATAGRAM:
        printf("IPv6 %s port %d\n", inet_ntop(AF_INET6, source, text, sizeof text), port[0] * 256 + port[1]);
        break;
    default:
        printf("UNIX ");
        print_name(source);
        puts("");
    }
}

/* Reads the header of one connection, and leaves its payload unread (examples/read_exactly.c). */
static void who_called(int connected)
{
    uint64_t numbers[DAWNHAWSE_NUMBERS];
    uint8_t connection[DAWNHAWSE_CONNECTION];
    uint32_t answer;
    size_t received = 0;

    for (;;) {
        ssize_t got;

        answer = dawnhawse_read(bytes, received, numbers, DAWNHAWSE_NUMBERS, connection, sizeof connection);
        if (answer != DAWNHAWSE_MORE || (got = read(connected, bytes + received, numbers[DAWNHAWSE_LEAST])) <= 0)
            break;
        received += (size_t)got;
    }
    if (answer == DAWNHAWSE_ACCEPTED) {
        printf("version %d, %d bytes: ", (int)numbers[DAWNHAWSE_HEADER_VERSION], (int)numbers[DAWNHAWSE_LENGTH]);
        print_caller(connection);
    } else if (answer == DAWNHAWSE_MORE) {
        printf("ended inside the header, after %d bytes\n", (int)received);
    } else {
        printf("%s at place %d\n", dawnhawse_answer_name(answer), (int)numbers[DAWNHAWSE_PLACE]);
    }
}

/* What the proxy sends. */
#define SIGNATURE "\r\n\r\n\0\r\nQUIT\n"
static const char line[] = "PROXY TCP4 192.168.0.1 192.168.0.11 56324 443\r\nGET / HTTP/1.0\r\n\r\n";
static const char ip6[] = SIGNATURE "\x21\x21\0\x24"
                                    "\x20\x01\x0d\xb8\0\0\0\0\0\0\0\0\0\0\0\x01"
                                    "\x20\x01\x0d\xb8\0\0\0\0\0\0\0\0\0\0\0\x02"
                                    "\xdc\x04\x01\xbb";
static const char abstract[16 + 216 + 1] = SIGNATURE "\x21\x31\0\xd8"
                                                     "\0tester/7";
static const char local[] = SIGNATURE "\x20\0\0\0";
/* A relay that names a family without a transport: its twelve bytes are not looked at. */
static const char relay[] = SIGNATURE "\x21\x10\0\x0c"
                                      "\xc0\xa8\0\x01\xc0\xa8\0\x0b\xdc\x04\x01\xbb";
static const char wrong[] = "PROXY TCP4 256.168.0.1 192.168.0.11 56324 443\r\n";
static const char cut[] = "PROXY TCP4 192.168";

static void serve(const char *sent, size_t size)
{
    int ends[2];

    if (socketpair(AF_UNIX, SOCK_STREAM, 0, ends) != 0 || write(ends[0], sent, size) != (ssize_t)size) {
        perror("socketpair");
        return;
    }
    close(ends[0]);
    who_called(ends[1]);
    close(ends[1]);
}

int main(void)
{
    serve(line, sizeof line - 1);
    serve(ip6, sizeof ip6 - 1);
    serve(abstract, sizeof abstract - 1);
    serve(local, sizeof local - 1);
    serve(relay, sizeof relay - 1);
    serve(wrong, sizeof wrong - 1);
    serve(cut, sizeof cut - 1);
    return 0;
}
