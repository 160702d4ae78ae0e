/*
 * Takes PROXY protocol headers from sockets and not a byte more: each read asks for the fewest bytes that could finish the header, so
 * the payload behind it is still in the socket, whole, for whoever reads there next.
 */
#include <dawnhawse.h>
#include <stdio.h>
#include <sys/socket.h>
#include <unistd.h>

/* The bytes of a header as they come: too many for a small stack. The bytes asked for always have room behind those received. */
static uint8_t bytes[DAWNHAWSE_LONGEST_HEADER];

/* Reads to the end of the header, and prints how many bytes each read took. 1 if the header is accepted, else 0. */
static int take_header(int connected)
{
    uint64_t numbers[DAWNHAWSE_NUMBERS];
    uint8_t connection[DAWNHAWSE_CONNECTION];
    uint32_t answer;
    size_t received = 0;

    printf("0");
    for (;;) {
        ssize_t got;

        answer = dawnhawse_read(bytes, received, numbers, DAWNHAWSE_NUMBERS, connection, sizeof connection);
        if (answer != DAWNHAWSE_MORE)
            break;
        got = read(connected, bytes + received, numbers[DAWNHAWSE_LEAST]);
        if (got < 0)
            perror("read");
        if (got <= 0)
            break;
        printf(" + %d", (int)got);
        received += (size_t)got;
    }
    printf(" = %d bytes read: ", (int)received);
    if (answer == DAWNHAWSE_ACCEPTED)
        printf("a version %d header of %d bytes\n", (int)numbers[DAWNHAWSE_HEADER_VERSION], (int)numbers[DAWNHAWSE_LENGTH]);
    else if (answer == DAWNHAWSE_MORE)
        puts("ended inside the header");
    else
        printf("%s at place %d\n", dawnhawse_answer_name(answer), (int)numbers[DAWNHAWSE_PLACE]);
    return answer == DAWNHAWSE_ACCEPTED;
}

/* Prints all that is still in the socket: what another process would get that is handed the socket now. */
static void take_payload(int connected)
{
    char payload[64];
    ssize_t got;

    printf("still in the socket: ");
    while ((got = read(connected, payload, sizeof payload)) > 0)
        printf("%.*s", (int)got, payload);
    puts("");
}

/* What two testers send: a version 1 line, and a version 2 header with 36 bytes of addresses and TLVs of 3 + 2 and 3 + 14 bytes. */
static const char line[] = "PROXY TCP6 2001:db8::1 2001:db8::2 56324 443\r\n"
                           "payload of the line";
static const char block[] = "\r\n\r\n\0\r\nQUIT\n\x21\x21\0\x3a"
                            "\x20\x01\x0d\xb8\0\0\0\0\0\0\0\0\0\0\0\x01"
                            "\x20\x01\x0d\xb8\0\0\0\0\0\0\0\0\0\0\0\x02"
                            "\xdc\x04\x01\xbb"
                            "\x01\0\x02h2"
                            "\x02\0\x0escreen.example"
                            "payload of the block";

/* Sends header and payload in one go, so that all of it can be read at once. */
static void serve(const char *sent, size_t size)
{
    int ends[2];

    if (socketpair(AF_UNIX, SOCK_STREAM, 0, ends) != 0 || write(ends[0], sent, size) != (ssize_t)size) {
        perror("socketpair");
        return;
    }
    close(ends[0]);
    if (take_header(ends[1]))
        take_payload(ends[1]);
    close(ends[1]);
}

int main(void)
{
    serve(line, sizeof line - 1);
    serve(block, sizeof block - 1);
    return 0;
}
