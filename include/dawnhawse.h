/*
 * dawnhawse.h: PROXY protocol headers, versions 1 and 2, for C and C++.
 *
 * Link with libdawnhawse.a; `./install DIR` puts it, this file and dawnhawse.pc below DIR. What each function answers, and what
 * each buffer then holds, is proved for every input. A caller owes this:
 *
 *   - a pointer is aligned for its type, and its length is the number of elements that may be used behind it; where the length
 *     is 0 the pointer may be NULL;
 *   - a buffer that is written overlaps no other buffer of the same call;
 *   - nobody else writes to the buffers during the call.
 *
 * What the library asks of its surroundings:
 *
 *   memory    It allocates nothing, keeps nothing between calls, reads only the bytes lent to it and writes only into the
 *             buffers lent to it.
 *   threads   Any function may run in any thread, in several at once, and in a signal handler: they share nothing.
 *   calls     Nothing but memcpy, memmove, memset and memcmp.
 *   target    x86-64 Linux, the System V calling convention, position-independent code, no instruction beyond SSE2.
 *
 *   function                     stack   time grows with
 *   dawnhawse_read                 704   version 1: at most 107 bytes; version 2: the TLVs among the bytes received, each once
 *   dawnhawse_read_checked        1792   the same; of a whole header also its TLVs, each up to three times, and its bytes, each once
 *   dawnhawse_next                  64   nothing: one TLV is looked at
 *   dawnhawse_step                  64   the TLVs from the place to the end of the area, each looked at once
 *   dawnhawse_lookup                64   the TLVs of the area, each looked at once, and those examined once more
 *   dawnhawse_read_ssl             128   the sub-TLVs of the value, each looked at once
 *   dawnhawse_write_ssl            256   the bytes written
 *   dawnhawse_write_v1            1600   nothing: at most 104 bytes are written
 *   dawnhawse_write_v2            1216   the TLVs of the area, each looked at once, and the bytes written
 *   dawnhawse_write_v2_checked    1728   the TLVs of the area, each looked at twice, and the bytes written, each looked at once
 *   dawnhawse_store               1088   nothing: at most 222 bytes are written
 *   dawnhawse_load                1408   nothing: at most 222 bytes are read
 *   dawnhawse_store_v2            1088   nothing: at most 223 bytes are written
 *   dawnhawse_load_v2             1408   nothing: at most 223 bytes are read
 *   dawnhawse_forward             1408   nothing: at most 222 bytes are read and 223 written
 *   dawnhawse_back                1408   nothing: at most 223 bytes are read and 222 written
 *   dawnhawse_crc32c              1152   the bytes, each looked at once
 *   dawnhawse_doorman              960   the pairs of the table's rows, at most 2016; then as dawnhawse_read, TLVs up to five times
 *
 * Stack is a bound in bytes, the return address among them; tests/stack.c measures each function on a painted stack.
 */
#ifndef DAWNHAWSE_H
#define DAWNHAWSE_H

#include <stddef.h>
#include <stdint.h>

/* The release of the library; README says what each of its numbers counts. */
#define DAWNHAWSE_RELEASE "0.8.4"
#define DAWNHAWSE_RELEASE_MAJOR 0
#define DAWNHAWSE_RELEASE_MINOR 8
#define DAWNHAWSE_RELEASE_PATCH 4

#ifdef __cplusplus
extern "C" {
#endif

/* ---- Answers ---- */

/* The bytes begin with a whole header. */
#define DAWNHAWSE_ACCEPTED 0

/* A TLV is found or shown, or the value of TLV 0x20 is read. */
#define DAWNHAWSE_FOUND 0

/* A header, a stored form or the value of TLV 0x20 is written. */
#define DAWNHAWSE_WRITTEN 0

/* A stored form is whole, and its connection is told. */
#define DAWNHAWSE_LOADED 0

/* The bytes begin with a whole header that keeps the profile of dawnhawse_doorman, and the level of who called is told. */
#define DAWNHAWSE_ADMITTED 0

/* The byte at the place told rules a header out; the number says which field holds it. */
#define DAWNHAWSE_REFUSED_START 1   /* "PROXY " of version 1, or the twelve bytes of the version 2 signature */
#define DAWNHAWSE_REFUSED_WORD 2    /* version 1: TCP4, TCP6 or UNKNOWN, or the byte after it */
#define DAWNHAWSE_REFUSED_ADDRESS 3 /* version 1: an address, or the byte that should end it */
#define DAWNHAWSE_REFUSED_PORT 4    /* version 1: a port, or the byte that should end it */
#define DAWNHAWSE_REFUSED_END 5     /* version 1: CR without LF where the line must end, or an UNKNOWN line too long */
#define DAWNHAWSE_REFUSED_COMMAND 6 /* version 2: byte 12, version or command */
#define DAWNHAWSE_REFUSED_FAMILY 7  /* version 2: byte 13, family and transport; PROXY takes 00-02, 10-12, 20-22, 30-32 */
#define DAWNHAWSE_REFUSED_LENGTH 8  /* version 2: bytes 14 and 15, length */
#define DAWNHAWSE_REFUSED_TLV 9     /* version 2: a TLV inside the header */

/* Writers: the record has no form in the version; an address byte or port that the kind does not use is not zero, or the checksum
   state is matched beside local or unspecified, or for a header that is written without a checksum. */
#define DAWNHAWSE_NO_FORM 10
#define DAWNHAWSE_UNUSED_NOT_ZERO 11

/* TLVs do not fill the area or what remains of it, or the one TLV looked at does not end in it; writers of version 2 headers: or an
   area that is not empty beside local or unspecified, or a checksum asked for beside these or beside a 0x03 TLV. */
#define DAWNHAWSE_ILL_FORMED 12

/* Writers of version 2 headers: address block and TLVs exceed 65535 bytes. dawnhawse_write_ssl: a piece or the value does. */
#define DAWNHAWSE_TOO_LARGE 13

/* A buffer that must be written is too short. */
#define DAWNHAWSE_NO_ROOM 14

/* Load, forward and back: the first three bytes of the form are not the mark; the next two are not the version that the function
   takes. */
#define DAWNHAWSE_WRONG_MARK 15
#define DAWNHAWSE_WRONG_VERSION 16

/* Load, forward and back: the form's kind code is unknown; its length is not the one of its kind. Writers: the kind code or the
   checksum state of a connection is unknown; it has not 222 bytes. */
#define DAWNHAWSE_UNKNOWN_KIND 17
#define DAWNHAWSE_WRONG_SIZE 18

/* dawnhawse_read_ssl: the value has fewer than 5 bytes, or sub-TLVs do not fill the rest of it. */
#define DAWNHAWSE_WRONG_SSL 19

/* dawnhawse_read_ssl and dawnhawse_write_ssl: the client came over TLS, and its version is not told. */
#define DAWNHAWSE_NO_SSL_VERSION 20

/* Checked reading: a whole header of an address kind whose checksum is wrong, or whose 0x03 TLV has a value that is not 4 bytes, or
   that has several 0x03 TLVs. */
#define DAWNHAWSE_WRONG_CHECKSUM 23

/* dawnhawse_load_v2 and dawnhawse_back: the form's checksum state is neither 0 nor 1, or it is matched beside local or unspecified.
   dawnhawse_store and dawnhawse_back: the state is matched, for which version 1 of the stored form has no place. */
#define DAWNHAWSE_WRONG_STATE 24

/* dawnhawse_doorman: the bytes begin with a whole header that does not keep the profile; the number says in what. */
#define DAWNHAWSE_NOT_ADMITTED_VERSION 30   /* it is of version 1 */
#define DAWNHAWSE_NOT_ADMITTED_KIND 31      /* it is unspecified, a datagram or UNIX */
#define DAWNHAWSE_NOT_ADMITTED_LENGTH 32    /* it has more than 536 bytes */
#define DAWNHAWSE_NOT_ADMITTED_UNIQUE_ID 33 /* not local, it has no 0x05 TLV, or several, or one whose value has not 1 to 128 bytes */

/* dawnhawse_doorman: the table is not whole rows, or has more than 64, or two with the same prefix, or one with a number out of range
   or with a bit set beyond its prefix. */
#define DAWNHAWSE_WRONG_TABLE 34

/* dawnhawse_next, dawnhawse_step: the walk is at the end of the area. */
#define DAWNHAWSE_END 252

/* dawnhawse_lookup: the area has no TLV of the type; or none is among those examined, and the area has more TLVs than the limit. */
#define DAWNHAWSE_ABSENT 253
#define DAWNHAWSE_GAVE_UP 254

/* The bytes are the beginning of a header, and at least numbers[DAWNHAWSE_LEAST] more are needed. */
#define DAWNHAWSE_MORE 255

/* ---- The numbers of an answer: uint64_t numbers[DAWNHAWSE_NUMBERS] ---- */

#define DAWNHAWSE_NUMBERS 4

/* dawnhawse_read and dawnhawse_read_checked; more and refused also dawnhawse_doorman */
#define DAWNHAWSE_LENGTH 0         /* accepted: the header's length, 15 to 65551; the payload starts there */
#define DAWNHAWSE_LEAST 0          /* more: the fewest further bytes that could make a whole header, 1 to 65535 */
#define DAWNHAWSE_PLACE 0          /* refused: the place of the first byte that rules a header out, counted from 0 */
#define DAWNHAWSE_HEADER_VERSION 1 /* accepted: 1 or 2 */
#define DAWNHAWSE_AREA_START 2     /* accepted: where the TLV area starts in the bytes read */
#define DAWNHAWSE_AREA_LENGTH 3    /* accepted: the area's length; 0 for version 1, local and unspecified */

/* dawnhawse_next, dawnhawse_step and dawnhawse_lookup */
#define DAWNHAWSE_NEXT 0         /* next, step: the place for the next step */
#define DAWNHAWSE_COUNT 0        /* lookup: how many TLVs were examined, never more than the limit */
#define DAWNHAWSE_TYPE 1         /* next, step: the type shown; lookup: the type asked for */
#define DAWNHAWSE_VALUE_START 2  /* where the value starts in the area */
#define DAWNHAWSE_VALUE_LENGTH 3 /* the value's length */

/* dawnhawse_write_v1, dawnhawse_write_v2, dawnhawse_write_v2_checked, dawnhawse_write_ssl, dawnhawse_store, dawnhawse_store_v2,
   dawnhawse_forward and dawnhawse_back */
#define DAWNHAWSE_WRITTEN_LENGTH 0 /* how many bytes were written; the other three numbers are 0 */

/* dawnhawse_doorman */
#define DAWNHAWSE_LEVEL 0            /* admitted: the level of who called, 0 to 3 */
#define DAWNHAWSE_ADMITTED_LENGTH 1  /* admitted: the header's length, 16 to 536; the payload starts there */
#define DAWNHAWSE_UNIQUE_ID_START 2  /* admitted: where the value of the 0x05 TLV starts in the bytes read; 0 for local */
#define DAWNHAWSE_UNIQUE_ID_LENGTH 3 /* admitted: the value's length, 1 to 128; 0 for local */

/* ---- The numbers of dawnhawse_read_ssl: uint64_t numbers[DAWNHAWSE_SSL_NUMBERS] ---- */

#define DAWNHAWSE_SSL_NUMBERS 12

#define DAWNHAWSE_SSL_CLIENT 0 /* the client byte, below */
#define DAWNHAWSE_SSL_VERIFY 1 /* 0 if the client presented a certificate and it was verified, else not 0 */

/* Where each piece starts in the value; its length is the number behind that. An absent piece has 0 and 0; one that is there starts at
   8 or later, also if it is empty. */
#define DAWNHAWSE_SSL_VERSION 2     /* sub-TLV 0x21: TLS version, as "TLSv1.3" */
#define DAWNHAWSE_SSL_COMMON_NAME 4 /* sub-TLV 0x22: common name of the client's certificate */
#define DAWNHAWSE_SSL_CIPHER 6      /* sub-TLV 0x23: cipher */
#define DAWNHAWSE_SSL_SIGNATURE 8   /* sub-TLV 0x24: algorithm that signed the front end's certificate */
#define DAWNHAWSE_SSL_KEY 10        /* sub-TLV 0x25: algorithm of that certificate's key */

/* The type of the TLV whose value this is, and the bits of its client byte */
#define DAWNHAWSE_SSL 0x20
#define DAWNHAWSE_SSL_CLIENT_TLS 0x01         /* the client came over TLS */
#define DAWNHAWSE_SSL_CLIENT_CONNECTION 0x02  /* it gave a certificate over this connection */
#define DAWNHAWSE_SSL_CLIENT_SESSION 0x04     /* it gave a certificate at least once over this TLS session */

/* The bits that tell dawnhawse_write_ssl which pieces are there */
#define DAWNHAWSE_SSL_HAS_VERSION 0x01
#define DAWNHAWSE_SSL_HAS_COMMON_NAME 0x02
#define DAWNHAWSE_SSL_HAS_CIPHER 0x04
#define DAWNHAWSE_SSL_HAS_SIGNATURE 0x08
#define DAWNHAWSE_SSL_HAS_KEY 0x10

/* ---- Outputs: so many bytes are room enough ---- */

#define DAWNHAWSE_LONGEST_V1 104        /* a version 1 line that is written; one that is read has at most 107 */
#define DAWNHAWSE_LONGEST_HEADER 65551  /* any header */
#define DAWNHAWSE_LONGEST_ADMITTED 536  /* a header that dawnhawse_doorman admits: 16 + 520 */
#define DAWNHAWSE_LONGEST_SSL 65535     /* a value of TLV 0x20 */
#define DAWNHAWSE_LONGEST_STORED 222    /* a stored form of version 1: 3 + 2 + 1 + 216 */
#define DAWNHAWSE_LONGEST_STORED_V2 223 /* a stored form of version 2: 3 + 2 + 1 + 1 + 216 */

/* ---- A connection: uint8_t connection[DAWNHAWSE_CONNECTION] ---- */

#define DAWNHAWSE_CONNECTION 222 /* 1 + 108 + 108 + 2 + 2 + 1 */

/* An address stands at the front of its 108 bytes, in network order; the bytes that the kind does not use are zero. */
#define DAWNHAWSE_KIND 0               /* 1 byte: a kind code */
#define DAWNHAWSE_SOURCE 1             /* 108 bytes: 4 used for IPv4, 16 for IPv6, 108 for UNIX, else 0 */
#define DAWNHAWSE_DESTINATION 109      /* 108 bytes, the same */
#define DAWNHAWSE_SOURCE_PORT 217      /* 2 bytes, high byte first; zero for UNIX, local and unspecified */
#define DAWNHAWSE_DESTINATION_PORT 219 /* 2 bytes, the same */
#define DAWNHAWSE_CHECKSUM 221         /* 1 byte: a checksum state */

/* Kind codes */
#define DAWNHAWSE_LOCAL 0x00       /* the proxy's own connection: keep the real addresses */
#define DAWNHAWSE_UNSPECIFIED 0x01 /* nothing is said of the caller: UNKNOWN, or byte 13 of PROXY is 00, 01, 02, 10, 20 or 30 */
#define DAWNHAWSE_IP4_STREAM 0x11
#define DAWNHAWSE_IP4_DATAGRAM 0x12
#define DAWNHAWSE_IP6_STREAM 0x21
#define DAWNHAWSE_IP6_DATAGRAM 0x22
#define DAWNHAWSE_UNIX_STREAM 0x31
#define DAWNHAWSE_UNIX_DATAGRAM 0x32

/* Checksum states. Of the writers only dawnhawse_write_v2_checked and dawnhawse_store_v2 take matched, and only beside IPv4, IPv6
   and UNIX; for the others set it to absent. */
#define DAWNHAWSE_CHECKSUM_ABSENT 0  /* no header was accepted, or it has no checksum, or the reading was not a checked one, or the
                                        connection comes from a stored form of version 1 */
#define DAWNHAWSE_CHECKSUM_MATCHED 1 /* the header has one checksum, and it is right */

/* ---- A table of address prefixes: uint8_t table[rows * DAWNHAWSE_ROW] ---- */

#define DAWNHAWSE_ROW 19       /* 1 + 1 + 1 + 16 */
#define DAWNHAWSE_MOST_ROWS 64 /* a table has at most so many; it may have none */

/* An address stands in network order: its first bit is the highest of its first byte. Its bits beyond the prefix are zero, and so are
   the 12 bytes behind an IPv4 address. */
#define DAWNHAWSE_ROW_FAMILY 0  /* 1 byte: 4 for IPv4, 6 for IPv6 */
#define DAWNHAWSE_ROW_BITS 1    /* 1 byte: how many bits of the address are the prefix, 0 to 32 for IPv4, 0 to 128 for IPv6 */
#define DAWNHAWSE_ROW_LEVEL 2   /* 1 byte: the level of the addresses that begin with the prefix, 0 to 3 */
#define DAWNHAWSE_ROW_ADDRESS 3 /* 16 bytes: 4 used for IPv4, 16 for IPv6 */

/* ---- Functions ---- */

/*
 * What the bytes received so far are. Call it again with all bytes from the first on when more have come: no answer but
 * DAWNHAWSE_MORE changes when further bytes follow. A checksum is a TLV as any other, and not compared.
 *
 * DAWNHAWSE_MORE tells n, the smallest number of further bytes with which some continuation is a whole header: at least 1 and at
 * most 65535. A caller who reads exactly n bytes each time, or fewer, never reads past the header. n may grow from one call to the
 * next, as bytes rule out short headers ("PROXY " gives 9, "PROXY T" gives 15), so it is not to be counted down. No header is whole
 * before n further bytes have come, so scraps may gather until then: each call begins at the first byte. Once 16 bytes of version 2
 * have come, n is all that is missing; behind "PROXY UNKNOWN " it is 1 or 2: CR LF may come at once.
 *
 * From a socket: call it with no bytes, and while it answers DAWNHAWSE_MORE, read numbers[DAWNHAWSE_LEAST] bytes behind those
 * received and call it again; DAWNHAWSE_LONGEST_HEADER bytes are room enough, and when it accepts, all the payload is still in the
 * socket (examples/read_exactly.c).
 *
 *   bytes, bytes_len             the bytes received so far; not altered
 *   numbers, numbers_len         at least DAWNHAWSE_NUMBERS elements
 *   connection, connection_len   at least DAWNHAWSE_CONNECTION bytes
 *
 * Answers, the first that applies
 *   DAWNHAWSE_NO_ROOM    numbers has fewer than 4 elements or connection fewer than 222 bytes; both are as they were.
 *   DAWNHAWSE_ACCEPTED   numbers: length, version, the TLV area's start and length. The area is the header's last bytes, so
 *                        start is length where it is empty. connection: who called, with DAWNHAWSE_CHECKSUM_ABSENT.
 *   DAWNHAWSE_MORE       numbers: n, 0, 0, 0. connection: unspecified, all else zero.
 *   1 to 9               DAWNHAWSE_REFUSED_..; numbers: place, 0, 0, 0. connection: unspecified, all else zero.
 *
 * Elements past the fourth and bytes past the 222nd stay as they were.
 */
uint32_t dawnhawse_read(const uint8_t *bytes, size_t bytes_len, uint64_t *numbers, size_t numbers_len,
                        uint8_t *connection, size_t connection_len);

/*
 * The same, but the checksum of a header is compared: the TLV of type 0x03, whose value is the CRC32C of the whole header with
 * these four bytes taken as zero, in network order. A version 1 line has none, and neither have local and unspecified: nothing of
 * their bytes is compared, and their state is absent.
 *
 * A header without a checksum is accepted, with DAWNHAWSE_CHECKSUM_ABSENT: a caller who insists on one also asks for
 * connection[DAWNHAWSE_CHECKSUM] == DAWNHAWSE_CHECKSUM_MATCHED (examples/checked.c).
 *
 * A checksum guards against damage on the way. It is no proof of who wrote the header, since anybody can compute it: let nothing
 * that a wrong caller must not do, as to reflash a unit, rest on it.
 *
 * Parameters are those of dawnhawse_read, and again no answer but DAWNHAWSE_MORE changes when further bytes follow. Answers, the
 * first that applies
 *   DAWNHAWSE_NO_ROOM          as dawnhawse_read; both buffers are as they were
 *   DAWNHAWSE_WRONG_CHECKSUM   the bytes begin with a whole header of version 2, IPv4, IPv6 or UNIX, in which the checksum is wrong,
 *                              or the value of a 0x03 TLV is not 4 bytes, or there are several 0x03 TLVs. numbers: 0, 0, 0, 0.
 *                              connection: unspecified, all else zero.
 *   DAWNHAWSE_ACCEPTED         as dawnhawse_read, with DAWNHAWSE_CHECKSUM_MATCHED where such a header has a 0x03 TLV
 *   any other                  as dawnhawse_read
 */
uint32_t dawnhawse_read_checked(const uint8_t *bytes, size_t bytes_len, uint64_t *numbers, size_t numbers_len,
                                uint8_t *connection, size_t connection_len);

/*
 * One step of a walk over the TLV area of an accepted header. Start at place 0, and go on at numbers[DAWNHAWSE_NEXT]. It looks at
 * one TLV, so a walk over N TLVs looks at N. Where TLVs fill all that remains, as they do at each place of such a walk, it answers
 * as dawnhawse_step does.
 *
 *   area, area_len         the TLV area, bytes + numbers[DAWNHAWSE_AREA_START]; not altered
 *   at                     the place of the step, counted from 0
 *   numbers, numbers_len   at least DAWNHAWSE_NUMBERS elements
 *
 * Answers, the first that applies
 *   DAWNHAWSE_NO_ROOM      numbers has fewer than 4 elements; it is as it was
 *   DAWNHAWSE_FOUND        a TLV stands there; numbers: the place behind it, its type, its value's start and length in the area
 *   DAWNHAWSE_END          the area ends there; numbers: at, 0, 0, 0
 *   DAWNHAWSE_ILL_FORMED   the TLV there does not end in the area, or the place lies beyond it; numbers: at, 0, 0, 0
 */
uint32_t dawnhawse_next(const uint8_t *area, size_t area_len, size_t at, uint64_t *numbers, size_t numbers_len);

/*
 * The same for a TLV area that no reader has accepted: a TLV is shown only where TLVs fill all that remains. So each step looks at
 * all TLVs from its place on, and a walk over N TLVs looks at about N * N / 2. A header can hold 21841: a walk over those takes
 * most of a second, and a tenth of a millisecond by dawnhawse_next.
 *
 * Parameters and numbers are those of dawnhawse_next. Answers, the first that applies
 *   DAWNHAWSE_NO_ROOM      numbers has fewer than 4 elements; it is as it was
 *   DAWNHAWSE_FOUND        a TLV stands there
 *   DAWNHAWSE_END          the area ends there
 *   DAWNHAWSE_ILL_FORMED   TLVs do not fill what remains, or the place lies beyond the area
 */
uint32_t dawnhawse_step(const uint8_t *area, size_t area_len, size_t at, uint64_t *numbers, size_t numbers_len);

/*
 * The first TLV of a type in a TLV area, of which at most limit TLVs are examined.
 *
 *   area, area_len         the TLV area; not altered
 *   wanted                 the type
 *   limit                  how many TLVs may be examined
 *   numbers, numbers_len   at least DAWNHAWSE_NUMBERS elements
 *
 * Answers, the first that applies
 *   DAWNHAWSE_NO_ROOM      numbers has fewer than 4 elements; it is as it was
 *   DAWNHAWSE_FOUND        numbers: TLVs examined, the type, the value's start and length in the area
 *   DAWNHAWSE_ABSENT       there is none; numbers: TLVs examined, the type, 0, 0
 *   DAWNHAWSE_GAVE_UP      none is among the first limit TLVs, and there are more; numbers: limit, the type, 0, 0
 *   DAWNHAWSE_ILL_FORMED   TLVs do not fill the area; numbers: 0, the type, 0, 0
 *
 * Two areas that TLVs fill, one behind the other, are again filled by TLVs. Answer and numbers for the whole are those for the
 * first, unless it answers DAWNHAWSE_ABSENT: then they are those for the second, with the limit less the TLVs examined in the
 * first, the counts added, and a found start moved by the first area's length. If TLVs fill the first and not the second, they do
 * not fill the whole: its answer is DAWNHAWSE_ILL_FORMED, even where the first has the type. If they do not fill the first, the
 * whole may be either.
 */
uint32_t dawnhawse_lookup(const uint8_t *area, size_t area_len, uint8_t wanted, size_t limit, uint64_t *numbers,
                          size_t numbers_len);

/*
 * What a TLS front end said of its client: the inside of TLV 0x20. Its value is one client byte, a verify number of 32 bits, high byte
 * first, and sub-TLVs that fill the rest. Readers of headers do not look into it: a header is accepted whatever stands there. Look the
 * TLV up by dawnhawse_lookup, and read its value (examples/tls_client.c).
 *
 * A piece is the value of the first sub-TLV of its type. Sub-TLVs of other types, and further ones of a type, are passed over. An empty
 * piece is there; an absent one is not.
 *
 * It is what the front end said. Whoever can send a header can say anything in it, so take headers from the front end only, and let
 * nothing rest on a common name unless verify is 0 and DAWNHAWSE_SSL_CLIENT_CONNECTION or DAWNHAWSE_SSL_CLIENT_SESSION is set. A piece may
 * hold any bytes, zeros among them: go by its length.
 *
 *   value, value_len       the value of TLV 0x20; not altered
 *   numbers, numbers_len   at least DAWNHAWSE_SSL_NUMBERS elements; those past the twelfth stay as they were
 *
 * Answers, the first that applies
 *   DAWNHAWSE_NO_ROOM          numbers has fewer than 12 elements; it is as it was
 *   DAWNHAWSE_WRONG_SSL        the value has fewer than 5 bytes, or sub-TLVs do not fill the rest of it; numbers: twelve zeros
 *   DAWNHAWSE_NO_SSL_VERSION   bit 0x01 of the client byte is set, and there is no sub-TLV 0x21; numbers: twelve zeros
 *   DAWNHAWSE_FOUND            numbers: client, verify, and for each type from 0x21 to 0x25 the piece's start and length in the value,
 *                              0 and 0 where it is absent
 */
uint32_t dawnhawse_read_ssl(const uint8_t *value, size_t value_len, uint64_t *numbers, size_t numbers_len);

/*
 * Writes the value of TLV 0x20 to the front of the output: client, verify, and the pieces that are there, in order of type.
 * dawnhawse_read_ssl gives the same client, verify and pieces of it, present and absent alike. To stand in a header, the value needs
 * the three bytes of a TLV in front of it: DAWNHAWSE_SSL and its length, high byte first.
 *
 *   client, verify                   the client byte, of which any bits may be set, and the verify number
 *   present                          which pieces are there, DAWNHAWSE_SSL_HAS_..; the three bits above them are ignored
 *   version, version_len             sub-TLV 0x21; not altered. The bytes of a piece that is not there are not looked at, and its
 *                                    length does not count: NULL and 0 will do
 *   common_name, common_name_len     sub-TLV 0x22, the same
 *   cipher, cipher_len               sub-TLV 0x23, the same
 *   signature, signature_len         sub-TLV 0x24, the same
 *   key, key_len                     sub-TLV 0x25, the same
 *   out, out_len                     the output, of which DAWNHAWSE_LONGEST_SSL bytes are enough; bytes past the value stay
 *   numbers, numbers_len             at least DAWNHAWSE_NUMBERS elements
 *
 * Answers, the first that applies; a refusal leaves both buffers as they were
 *   DAWNHAWSE_NO_SSL_VERSION   bit 0x01 of the client byte is set, and the version is not there
 *   DAWNHAWSE_TOO_LARGE        a piece that is there, or the value, 5 bytes and for each such piece 3 and its own, has over 65535 bytes
 *   DAWNHAWSE_NO_ROOM          the output is shorter than the value, or numbers has fewer than 4 elements
 *   DAWNHAWSE_WRITTEN          the value is written; numbers: its length, 0, 0, 0
 */
uint32_t dawnhawse_write_ssl(uint8_t client, uint32_t verify, uint8_t present, const uint8_t *version, size_t version_len,
                             const uint8_t *common_name, size_t common_name_len, const uint8_t *cipher, size_t cipher_len,
                             const uint8_t *signature, size_t signature_len, const uint8_t *key, size_t key_len, uint8_t *out,
                             size_t out_len, uint64_t *numbers, size_t numbers_len);

/*
 * Writes the version 1 line of a connection to the front of the output. Version 1 carries IPv4 stream, IPv6 stream and
 * unspecified. IPv6 addresses are written by RFC 5952, section 4: lower case, no leading zeros, and the longest run of two or more
 * zero groups, the first of equals, as "::"; never with a dotted tail, so ::ffff:192.0.2.1 is written ::ffff:c000:201. Two
 * lines that are written are the same only if the connections are. A TCP6 line has 22 to 104 bytes.
 *
 *   connection, connection_len   exactly DAWNHAWSE_CONNECTION bytes; not altered
 *   out, out_len                 the output, of which DAWNHAWSE_LONGEST_V1 bytes are enough; bytes past the line stay as they were
 *   numbers, numbers_len         at least DAWNHAWSE_NUMBERS elements
 *
 * Answers, the first that applies; a refusal leaves both buffers as they were
 *   DAWNHAWSE_WRONG_SIZE        connection has not 222 bytes
 *   DAWNHAWSE_UNKNOWN_KIND      its kind code or its checksum state is unknown
 *   DAWNHAWSE_NO_FORM           version 1 does not carry the kind
 *   DAWNHAWSE_UNUSED_NOT_ZERO   an unused byte or port is not zero, or its checksum state is matched
 *   DAWNHAWSE_NO_ROOM           the output is shorter than the line, or numbers has fewer than 4 elements
 *   DAWNHAWSE_WRITTEN           the line is written; numbers: its length, 0, 0, 0
 */
uint32_t dawnhawse_write_v1(const uint8_t *connection, size_t connection_len, uint8_t *out, size_t out_len,
                            uint64_t *numbers, size_t numbers_len);

/*
 * Writes the version 2 header of a connection, with its TLVs, to the front of the output. Version 2 carries every kind. No checksum
 * is made: a 0x03 TLV of the area is written as it stands.
 *
 *   connection, connection_len   exactly DAWNHAWSE_CONNECTION bytes; not altered
 *   area, area_len               the TLV area, as it stands in a header; it may be empty; not altered
 *   out, out_len                 the output, of which DAWNHAWSE_LONGEST_HEADER bytes are enough; bytes past the header stay
 *   numbers, numbers_len         at least DAWNHAWSE_NUMBERS elements
 *
 * Answers, the first that applies; a refusal leaves both buffers as they were
 *   DAWNHAWSE_WRONG_SIZE        connection has not 222 bytes
 *   DAWNHAWSE_UNKNOWN_KIND      its kind code or its checksum state is unknown
 *   DAWNHAWSE_UNUSED_NOT_ZERO   an unused byte or port is not zero, or its checksum state is matched
 *   DAWNHAWSE_ILL_FORMED        TLVs do not fill the area, or it is not empty beside local or unspecified
 *   DAWNHAWSE_TOO_LARGE         address block and area have more than 65535 bytes
 *   DAWNHAWSE_NO_ROOM           the output is shorter than the header, or numbers has fewer than 4 elements
 *   DAWNHAWSE_WRITTEN           the header is written; numbers: its length, 0, 0, 0
 */
uint32_t dawnhawse_write_v2(const uint8_t *connection, size_t connection_len, const uint8_t *area, size_t area_len,
                            uint8_t *out, size_t out_len, uint64_t *numbers, size_t numbers_len);

/*
 * The same with a checksum: behind the area stand seven bytes more, 03 00 04 and the CRC32C of the header with its four bytes
 * taken as zero. dawnhawse_read_checked accepts what is written, with DAWNHAWSE_CHECKSUM_MATCHED and an area that has the seven bytes
 * at its end.
 *
 * Parameters are those of dawnhawse_write_v2; the connection may say absent or matched. Answers, the first that applies; a refusal
 * leaves both buffers as they were
 *   DAWNHAWSE_WRONG_SIZE        connection has not 222 bytes
 *   DAWNHAWSE_UNKNOWN_KIND      its kind code or its checksum state is unknown
 *   DAWNHAWSE_UNUSED_NOT_ZERO   an unused byte or port is not zero, or its state is matched beside local or unspecified
 *   DAWNHAWSE_ILL_FORMED        TLVs do not fill the area, or one of them is of type 0x03, or the kind is local or unspecified
 *   DAWNHAWSE_TOO_LARGE         address block, area and the seven bytes are more than 65535 bytes
 *   DAWNHAWSE_NO_ROOM           the output is shorter than the header with them, or numbers has fewer than 4 elements
 *   DAWNHAWSE_WRITTEN           the header is written; numbers: its length, 0, 0, 0
 */
uint32_t dawnhawse_write_v2_checked(const uint8_t *connection, size_t connection_len, const uint8_t *area, size_t area_len,
                                    uint8_t *out, size_t out_len, uint64_t *numbers, size_t numbers_len);

/*
 * Stored forms: a connection in few bytes, to be kept and loaded again. There are two versions.
 *
 *   version 1   43 53 52 ("CSR"), 00 01, kind code, address block                   3 + 2 + 1 + A bytes: 6, 18, 42 or 222
 *   version 2   43 53 52 ("CSR"), 00 02, kind code, checksum state, address block   3 + 2 + 1 + 1 + A bytes: 7, 19, 43 or 223
 *
 * The address block is source, destination, source port and destination port, in network order: A is 0 for local and unspecified,
 * 4 + 4 + 2 + 2 = 12 for IPv4, 16 + 16 + 2 + 2 = 36 for IPv6, and 108 + 108 = 216 for UNIX, which has no ports. A form has exactly
 * the length of its kind; longer or shorter it is refused with DAWNHAWSE_WRONG_SIZE. So keep its length beside it.
 *
 * Version 2 keeps the checksum state, so it is the one for new forms. Version 1 has no place for the state: it takes absent only,
 * and loads as absent. It is for forms that are there already, and for programs that read no other, such as those with a release
 * before 0.5.0. dawnhawse_forward moves a form from version 1 to version 2, and dawnhawse_back moves it back.
 *
 * Each function takes forms of one version. Where either may come, ask dawnhawse_load first: it answers DAWNHAWSE_WRONG_VERSION to
 * every form of version 2, which dawnhawse_load_v2 then loads. The other way round a form of 6 bytes would be DAWNHAWSE_WRONG_SIZE
 * (examples/stored.c).
 *
 * Matched speaks of the header that was read. Nothing in a form guards the form's own bytes: one in which an address was altered
 * loads as any other.
 */

/*
 * Writes the stored form of a connection, version 1, to the front of the output: one connection, one byte string.
 *
 *   connection, connection_len   exactly DAWNHAWSE_CONNECTION bytes; not altered
 *   out, out_len                 the output, of which DAWNHAWSE_LONGEST_STORED bytes are enough; bytes past the form stay
 *   numbers, numbers_len         at least DAWNHAWSE_NUMBERS elements
 *
 * Answers, the first that applies; a refusal leaves both buffers as they were
 *   DAWNHAWSE_WRONG_SIZE        connection has not 222 bytes
 *   DAWNHAWSE_UNKNOWN_KIND      its kind code or its checksum state is unknown
 *   DAWNHAWSE_UNUSED_NOT_ZERO   an unused byte or port is not zero, or its state is matched beside local or unspecified
 *   DAWNHAWSE_WRONG_STATE       its state is matched, for which version 1 has no place
 *   DAWNHAWSE_NO_ROOM           the output is shorter than the form, or numbers has fewer than 4 elements
 *   DAWNHAWSE_WRITTEN           the form is written; numbers: its length, 6, 18, 42 or 222, then 0, 0, 0
 */
uint32_t dawnhawse_store(const uint8_t *connection, size_t connection_len, uint8_t *out, size_t out_len,
                         uint64_t *numbers, size_t numbers_len);

/*
 * The connection of a stored form of version 1.
 *
 *   stored, stored_len           the form, and no byte more; not altered
 *   connection, connection_len   at least DAWNHAWSE_CONNECTION bytes; bytes past the 222nd stay as they were
 *
 * Answers, the first that applies
 *   DAWNHAWSE_NO_ROOM         connection has fewer than 222 bytes; it is as it was
 *   DAWNHAWSE_WRONG_SIZE      the form has fewer than 6 bytes; connection: unspecified, all else zero
 *   DAWNHAWSE_WRONG_MARK      it does not begin with 43 53 52; connection: the same
 *   DAWNHAWSE_WRONG_VERSION   00 01 does not follow; connection: the same
 *   DAWNHAWSE_UNKNOWN_KIND    its kind code is unknown; connection: the same
 *   DAWNHAWSE_WRONG_SIZE      its length is not the one of its kind; connection: the same
 *   DAWNHAWSE_LOADED          connection: what was stored, with DAWNHAWSE_CHECKSUM_ABSENT
 */
uint32_t dawnhawse_load(const uint8_t *stored, size_t stored_len, uint8_t *connection, size_t connection_len);

/*
 * Writes the stored form of a connection, version 2, with its checksum state, to the front of the output: one connection, one byte
 * string.
 *
 *   connection, connection_len   exactly DAWNHAWSE_CONNECTION bytes; not altered
 *   out, out_len                 the output, of which DAWNHAWSE_LONGEST_STORED_V2 bytes are enough; bytes past the form stay
 *   numbers, numbers_len         at least DAWNHAWSE_NUMBERS elements
 *
 * Answers, the first that applies; a refusal leaves both buffers as they were
 *   DAWNHAWSE_WRONG_SIZE        connection has not 222 bytes
 *   DAWNHAWSE_UNKNOWN_KIND      its kind code or its checksum state is unknown
 *   DAWNHAWSE_UNUSED_NOT_ZERO   an unused byte or port is not zero, or its state is matched beside local or unspecified
 *   DAWNHAWSE_NO_ROOM           the output is shorter than the form, or numbers has fewer than 4 elements
 *   DAWNHAWSE_WRITTEN           the form is written; numbers: its length, 7, 19, 43 or 223, then 0, 0, 0
 */
uint32_t dawnhawse_store_v2(const uint8_t *connection, size_t connection_len, uint8_t *out, size_t out_len,
                            uint64_t *numbers, size_t numbers_len);

/*
 * The connection of a stored form of version 2, with its checksum state.
 *
 *   stored, stored_len           the form, and no byte more; not altered
 *   connection, connection_len   at least DAWNHAWSE_CONNECTION bytes; bytes past the 222nd stay as they were
 *
 * Answers, the first that applies
 *   DAWNHAWSE_NO_ROOM         connection has fewer than 222 bytes; it is as it was
 *   DAWNHAWSE_WRONG_SIZE      the form has fewer than 7 bytes; connection: unspecified, all else zero
 *   DAWNHAWSE_WRONG_MARK      it does not begin with 43 53 52; connection: the same
 *   DAWNHAWSE_WRONG_VERSION   00 02 does not follow; connection: the same
 *   DAWNHAWSE_UNKNOWN_KIND    its kind code is unknown; connection: the same
 *   DAWNHAWSE_WRONG_STATE     its state is neither 0 nor 1, or 1 beside local or unspecified; connection: the same
 *   DAWNHAWSE_WRONG_SIZE      its length is not the one of its kind; connection: the same
 *   DAWNHAWSE_LOADED          connection: what was stored, with DAWNHAWSE_CHECKSUM_ABSENT or DAWNHAWSE_CHECKSUM_MATCHED
 */
uint32_t dawnhawse_load_v2(const uint8_t *stored, size_t stored_len, uint8_t *connection, size_t connection_len);

/*
 * Moves a stored form forward, from version 1 to version 2: writes to the front of the output what dawnhawse_store_v2 writes of the
 * connection that dawnhawse_load gives. Version 1 does not tell the checksum state, so it is absent. dawnhawse_back then gives the
 * same bytes again. The output is another buffer: a form is not moved in place.
 *
 *   stored, stored_len     a form of version 1, and no byte more; not altered
 *   out, out_len           the output, of which DAWNHAWSE_LONGEST_STORED_V2 bytes are enough; bytes past the form stay
 *   numbers, numbers_len   at least DAWNHAWSE_NUMBERS elements
 *
 * Answers, the first that applies; a refusal leaves both buffers as they were
 *   DAWNHAWSE_WRONG_SIZE      the form has fewer than 6 bytes
 *   DAWNHAWSE_WRONG_MARK      it does not begin with 43 53 52
 *   DAWNHAWSE_WRONG_VERSION   00 01 does not follow
 *   DAWNHAWSE_UNKNOWN_KIND    its kind code is unknown
 *   DAWNHAWSE_WRONG_SIZE      its length is not the one of its kind
 *   DAWNHAWSE_NO_ROOM         the output is shorter than the form of version 2, or numbers has fewer than 4 elements
 *   DAWNHAWSE_WRITTEN         the form of version 2 is written; numbers: its length, 7, 19, 43 or 223, then 0, 0, 0
 */
uint32_t dawnhawse_forward(const uint8_t *stored, size_t stored_len, uint8_t *out, size_t out_len, uint64_t *numbers,
                           size_t numbers_len);

/*
 * Moves a stored form back, from version 2 to version 1: writes to the front of the output what dawnhawse_store writes of the
 * connection that dawnhawse_load_v2 gives. A form that says matched is refused, since version 1 would lose that; of one that says
 * absent dawnhawse_forward then gives the same bytes again. A caller who can do without the state loads the form by
 * dawnhawse_load_v2, sets the state to absent and stores the connection by dawnhawse_store. Again the output is another buffer.
 *
 *   stored, stored_len     a form of version 2, and no byte more; not altered
 *   out, out_len           the output, of which DAWNHAWSE_LONGEST_STORED bytes are enough; bytes past the form stay
 *   numbers, numbers_len   at least DAWNHAWSE_NUMBERS elements
 *
 * Answers, the first that applies; a refusal leaves both buffers as they were
 *   DAWNHAWSE_WRONG_SIZE      the form has fewer than 7 bytes
 *   DAWNHAWSE_WRONG_MARK      it does not begin with 43 53 52
 *   DAWNHAWSE_WRONG_VERSION   00 02 does not follow
 *   DAWNHAWSE_UNKNOWN_KIND    its kind code is unknown
 *   DAWNHAWSE_WRONG_STATE     its state is neither 0 nor 1, or 1 beside local or unspecified
 *   DAWNHAWSE_WRONG_SIZE      its length is not the one of its kind
 *   DAWNHAWSE_WRONG_STATE     its state is matched
 *   DAWNHAWSE_NO_ROOM         the output is shorter than the form of version 1, or numbers has fewer than 4 elements
 *   DAWNHAWSE_WRITTEN         the form of version 1 is written; numbers: its length, 6, 18, 42 or 222, then 0, 0, 0
 */
uint32_t dawnhawse_back(const uint8_t *stored, size_t stored_len, uint8_t *out, size_t out_len, uint64_t *numbers,
                        size_t numbers_len);

/*
 * The CRC32C of the bytes, as RFC 4960 appendix B defines it: "123456789" gives 0xe3069283, no bytes give 0. It is no answer but
 * the number itself; a header stores it high byte first, e3 06 92 83.
 *
 *   bytes, bytes_len   the bytes; not altered
 */
uint32_t dawnhawse_crc32c(const uint8_t *bytes, size_t bytes_len);

/*
 * Whether the bytes received so far begin with a header that diagnostics admit, and the level of who called, by a table of address
 * prefixes. Admitted is a whole header that keeps this profile: version 2; local, IPv4 stream or IPv6 stream; at most 536 bytes;
 * and, except for local, exactly one TLV of type 0x05 (unique ID), with a value of 1 to 128 bytes. TLVs of other types may be any:
 * a checksum is not compared.
 *
 * A row of the table matches a source address if it is of the same family and the first bits of both, as many as the row says, are
 * the same; so a row of 0 bits matches every address of its family. Of the rows that match, the one with the most bits gives the
 * level; in what order the rows stand does not matter. Where none matches, the level is 0, and it is 0 for local. An IPv4-mapped
 * IPv6 address, as ::ffff:192.0.2.1, counts as IPv6: no row of family 4 matches it.
 *
 * Call it again with all bytes from the first on when more have come: for the same table no answer but DAWNHAWSE_MORE changes when
 * further bytes follow. Each call checks the table.
 *
 * DAWNHAWSE_MORE and its n are those of dawnhawse_read: some continuation is a whole header, but perhaps none that is admitted. Bytes
 * that no continuation can get admitted, as those of a version 1 line or of a version 2 header with a length over 520, are still
 * DAWNHAWSE_MORE until the header is whole or refused, which may take 65551 bytes. So limit how much is waited for: where the bytes
 * received and n are together more than DAWNHAWSE_LONGEST_ADMITTED, no continuation is admitted, and the caller may hang up. A caller
 * who does so, and reads at most n bytes each time, needs room for 536 bytes only (examples/doorman.c).
 *
 * The level is that of the source that the header names. Whoever can send a header can name any source, so take headers from the
 * proxy only.
 *
 *   table, table_len       at most DAWNHAWSE_MOST_ROWS rows of DAWNHAWSE_ROW bytes each; it may be empty; not altered
 *   bytes, bytes_len       the bytes received so far; not altered
 *   numbers, numbers_len   at least DAWNHAWSE_NUMBERS elements; those past the fourth stay as they were
 *
 * Answers, the first that applies
 *   DAWNHAWSE_NO_ROOM                  numbers has fewer than 4 elements; it is as it was
 *   DAWNHAWSE_WRONG_TABLE              whatever the bytes are: table_len is no multiple of 19, or more than 64 * 19 = 1216; or a row
 *                                      has a family that is not 4 or 6, over 32 bits for 4 or 128 for 6, a level over 3, or a bit
 *                                      of its 16 address bytes set beyond the prefix; or two rows have the same family, bits and
 *                                      address, whatever their levels. numbers: 0, 0, 0, 0
 *   DAWNHAWSE_MORE                     the bytes are the beginning of a header; numbers: n, the fewest further bytes that could make
 *                                      a whole one, then 0, 0, 0
 *   1 to 9                             DAWNHAWSE_REFUSED_.., as dawnhawse_read; numbers: place, 0, 0, 0
 *   DAWNHAWSE_NOT_ADMITTED_VERSION     the header is of version 1; numbers: 0, 0, 0, 0
 *   DAWNHAWSE_NOT_ADMITTED_KIND        it is unspecified, a datagram or UNIX; numbers: the same
 *   DAWNHAWSE_NOT_ADMITTED_LENGTH      it has more than 536 bytes; numbers: the same
 *   DAWNHAWSE_NOT_ADMITTED_UNIQUE_ID   it is not local, and has no 0x05 TLV, or several, or one whose value is empty or has more than
 *                                      128 bytes; numbers: the same
 *   DAWNHAWSE_ADMITTED                 numbers: the level, the header's length, and the start and length of the 0x05 TLV's value in
 *                                      bytes; for local 0, the header's length, 0, 0
 */
uint32_t dawnhawse_doorman(const uint8_t *table, size_t table_len, const uint8_t *bytes, size_t bytes_len, uint64_t *numbers,
                           size_t numbers_len);

/* A short name of an answer, for logs; it is never NULL. */
static inline const char *dawnhawse_answer_name(uint32_t answer)
{
    switch (answer) {
    case DAWNHAWSE_ACCEPTED: return "ok"; /* also found, written, loaded and admitted */
    case DAWNHAWSE_REFUSED_START: return "refused-start";
    case DAWNHAWSE_REFUSED_WORD: return "refused-word";
    case DAWNHAWSE_REFUSED_ADDRESS: return "refused-address";
    case DAWNHAWSE_REFUSED_PORT: return "refused-port";
    case DAWNHAWSE_REFUSED_END: return "refused-end";
    case DAWNHAWSE_REFUSED_COMMAND: return "refused-command";
    case DAWNHAWSE_REFUSED_FAMILY: return "refused-family";
    case DAWNHAWSE_REFUSED_LENGTH: return "refused-length";
    case DAWNHAWSE_REFUSED_TLV: return "refused-tlv";
    case DAWNHAWSE_NO_FORM: return "no-form";
    case DAWNHAWSE_UNUSED_NOT_ZERO: return "unused-not-zero";
    case DAWNHAWSE_ILL_FORMED: return "ill-formed";
    case DAWNHAWSE_TOO_LARGE: return "too-large";
    case DAWNHAWSE_NO_ROOM: return "no-room";
    case DAWNHAWSE_WRONG_MARK: return "wrong-mark";
    case DAWNHAWSE_WRONG_VERSION: return "wrong-version";
    case DAWNHAWSE_UNKNOWN_KIND: return "unknown-kind";
    case DAWNHAWSE_WRONG_SIZE: return "wrong-size";
    case DAWNHAWSE_WRONG_SSL: return "wrong-ssl";
    case DAWNHAWSE_NO_SSL_VERSION: return "no-ssl-version";
    case DAWNHAWSE_WRONG_CHECKSUM: return "wrong-checksum";
    case DAWNHAWSE_WRONG_STATE: return "wrong-state";
    case DAWNHAWSE_NOT_ADMITTED_VERSION: return "not-admitted-version";
    case DAWNHAWSE_NOT_ADMITTED_KIND: return "not-admitted-kind";
    case DAWNHAWSE_NOT_ADMITTED_LENGTH: return "not-admitted-length";
    case DAWNHAWSE_NOT_ADMITTED_UNIQUE_ID: return "not-admitted-unique-id";
    case DAWNHAWSE_WRONG_TABLE: return "wrong-table";
    case DAWNHAWSE_END: return "end";
    case DAWNHAWSE_ABSENT: return "absent";
    case DAWNHAWSE_GAVE_UP: return "gave-up";
    case DAWNHAWSE_MORE: return "more";
    default: return "not-an-answer";
    }
}

#ifdef __cplusplus
}
#endif

#endif
