/* Ribsaddle: uTP (BEP 29) without sockets, proved, for C and C++ on x86-64 Linux. Link libribsaddle.a, which tools/library.sh writes.
 *
 * Every function returns an answer number, RIBSADDLE_DONE or the reason of a refusal. Where it refuses, all memory that it was lent is as it was before the call.
 * A pointer is never null, and points to memory that the call may use alone: a state, a value, or as many bytes as the length that follows says (not null where
 * the length is 0, too). Nothing is kept of it after the call. Any bits are a state: one that is not sound is refused with RIBSADDLE_NOT_SOUND.
 * The bytes of padding between the fields of a struct are no part of it, and may change.
 * Times are whole microseconds, 0 to 2^50, sizes are bytes. Nothing is allocated. There is no global state: calls on different states may run at the same time.
 * A tracker is worked on where it lies. ribsaddle_sent_new takes up to 100 KB of stack, a call that reads a tracker up to 64 KB, any other less than 8 KB.
 */
#ifndef RIBSADDLE_H
#define RIBSADDLE_H

#include <stddef.h>
#include <stdint.h>

#ifdef __cplusplus
extern "C" {
#endif

/* ---- answer numbers */

enum ribsaddle_answer {
    RIBSADDLE_DONE = 0,
    RIBSADDLE_TOO_SHORT = 1,        /* datagram under 20 bytes */
    RIBSADDLE_UNKNOWN_TYPE = 2,     /* packet type above 4 */
    RIBSADDLE_UNKNOWN_VERSION = 3,  /* version not 1 */
    RIBSADDLE_EXTENSION = 4,        /* extension head or body runs past the end */
    RIBSADDLE_SACK_SHORT = 5,       /* SACK of 1 to 3 bytes (in decoding, 0 to 3) */
    RIBSADDLE_SACK_NOT_WORDS = 6,   /* SACK of 4 bytes or more, not a multiple of 4 */
    RIBSADDLE_EMPTY_DATA = 7,       /* Data with empty payload */
    RIBSADDLE_SACK_LONG = 8,        /* SACK above 252 bytes */
    RIBSADDLE_NO_ROOM = 9,          /* output room too small */
    RIBSADDLE_BAD_SETTING = 10,     /* setting out of range */
    RIBSADDLE_BAD_TIME = 11,        /* time or delay above 2^50, or now below the last accepted now */
    RIBSADDLE_NOT_SENT = 12,        /* number not sent, or lost position at or past the count */
    RIBSADDLE_NO_WINDOW = 13,       /* first transmit longer than the free window */
    RIBSADDLE_NO_PLACE = 14,        /* the tracker's 512 places are all held */
    RIBSADDLE_TOO_MANY = 15,        /* 60,000 packets already sent, or the receiver's offset above 60,000 */
    RIBSADDLE_TOO_FAR_AHEAD = 16,   /* more than 256 ahead of the receiver */
    RIBSADDLE_PAYLOAD_TOO_LONG = 17,/* payload longer than the free receive room */
    RIBSADDLE_OTHER_LENGTH = 18,    /* receive buffer not of the length named at the start */
    RIBSADDLE_NOT_SOUND = 19        /* state not sound */
};

/* ---- packets */

enum ribsaddle_packet_type {
    RIBSADDLE_DATA = 0,
    RIBSADDLE_FIN = 1,
    RIBSADDLE_STATE = 2,
    RIBSADDLE_RESET = 3,
    RIBSADDLE_SYN = 4
};

/* A header: 20 bytes, aligned to 4. */
typedef struct ribsaddle_header {
    uint8_t packet_type;            /* enum ribsaddle_packet_type */
    uint16_t conn_id;
    uint32_t ts_micros;
    uint32_t ts_diff_micros;
    uint32_t window_size;
    uint16_t seq_num;
    uint16_t ack_num;
} ribsaddle_header;

/* A packet that was read: 56 bytes, aligned to 8. SACK and payload are places and lengths in the datagram; sack_len 0: there is none. */
typedef struct ribsaddle_packet {
    ribsaddle_header header;
    size_t sack_at;
    size_t sack_len;
    size_t payload_at;
    size_t payload_len;
} ribsaddle_packet;

/* Reads a datagram into *packet. Refuses with 1, 2, 3, 4, 5, 6, 7. */
uint32_t ribsaddle_decode(ribsaddle_packet *packet, const uint8_t *datagram, size_t datagram_len);

/* Writes a packet to the front of room, and its size to *size; sack_len 0: no SACK. Refuses with 2, 5, 6, 8, 7, 9. */
uint32_t ribsaddle_encode(const ribsaddle_header *header, const uint8_t *sack, size_t sack_len, const uint8_t *payload, size_t payload_len,
                          uint8_t *room, size_t room_len, uint64_t *size);

/* ---- the tracker of sent packets */

/* 26,720 bytes, aligned to 8: counts, the controller's numbers, and then each array by itself. The fields are for a debugger: what they mean is in docs/STATE.md, and the
 * functions below tell what there is to know. Of the packets that were sent, the last `live` are kept: what `times`, `sizes` and `marks` have at the same place, from 0 on,
 * is of one packet. Of the samples, `kept` are kept. What stands past those is left as it was. */
typedef struct ribsaddle_sent {
    uint16_t initial;
    uint32_t count;
    uint32_t live;
    uint32_t kept;
    struct {
        uint32_t target, largest_packet, increase, maximum, in_flight;
        uint64_t minimum_timeout, delay_window;
        double gain;
        uint64_t trip, variance, timeout, last;
    } numbers;
    struct {
        uint64_t delay, at;
    } samples[1024];
    uint64_t times[512];            /* when the packet was first sent */
    struct {
        uint32_t tag, len;
    } sizes[512];
    struct {
        uint8_t kind, acked, lost, resent;
    } marks[512];
} ribsaddle_sent;

/* A fresh tracker, whose first packet has the number after initial. Refuses with 10.
 * target_delay 1,000 to 2^32 - 1; the two timeouts and delay_window 1 to 2^50; largest_packet 1 to 65,535; increase 1 to 2^20; gain 2^-10 to 1. */
uint32_t ribsaddle_sent_new(ribsaddle_sent *sent, uint16_t initial, uint64_t target_delay, uint64_t first_timeout, uint64_t minimum_timeout,
                            uint64_t largest_packet, uint64_t increase, uint64_t delay_window, double gain);

/* A packet goes out: the next number for the first time, or an earlier one again. Refuses with 19, 2, 11, 12, and a first transmit with 15, 13, 14. */
uint32_t ribsaddle_sent_transmit(ribsaddle_sent *sent, uint16_t number, uint8_t packet_type, uint32_t tag, uint32_t len, uint64_t now);

/* An ack comes in; sack_len 0: without a SACK. Refuses with 19, 11, 5, 6, 8, 12. */
uint32_t ribsaddle_sent_ack(ribsaddle_sent *sent, uint16_t number, const uint8_t *sack, size_t sack_len, uint64_t delay, uint64_t now);

/* A timeout event: the maximum falls to the minimum, and the timeout doubles. Refuses with 19. */
uint32_t ribsaddle_sent_on_timeout(ribsaddle_sent *sent);

/* RIBSADDLE_DONE for a sound state, else RIBSADDLE_NOT_SOUND. */
uint32_t ribsaddle_sent_sound(const ribsaddle_sent *sent);

/* What is read of a tracker goes to *value. Each refuses with 19. */
uint32_t ribsaddle_sent_timeout(const ribsaddle_sent *sent, uint64_t *value);       /* the timeout */
uint32_t ribsaddle_sent_window(const ribsaddle_sent *sent, uint64_t *value);        /* how many bytes may be sent now */
uint32_t ribsaddle_sent_in_flight(const ribsaddle_sent *sent, uint64_t *value);     /* the bytes in flight */
uint32_t ribsaddle_sent_maximum(const ribsaddle_sent *sent, uint64_t *value);       /* the maximum of the window */
uint32_t ribsaddle_sent_lost_count(const ribsaddle_sent *sent, uint64_t *value);    /* how many packets are lost */
uint32_t ribsaddle_sent_ack_num(const ribsaddle_sent *sent, uint64_t *value);       /* the last number of the acknowledged run, or 0 if none (a packet can have number 0, too) */
uint32_t ribsaddle_sent_next_seq_num(const ribsaddle_sent *sent, uint64_t *value);  /* the number of the next packet */
uint32_t ribsaddle_sent_has_unacked(const ribsaddle_sent *sent, uint64_t *value);   /* 1 where a packet is not acknowledged, else 0 */
uint32_t ribsaddle_sent_has_lost(const ribsaddle_sent *sent, uint64_t *value);      /* 1 where a packet is lost, else 0 */

/* The numbers from the initial one to the last sent. Refuses with 19. */
uint32_t ribsaddle_sent_range(const ribsaddle_sent *sent, uint64_t *start, uint64_t *end);

/* The lost packet at a position, from 0, in ascending order of the number. Refuses with 19, 12. */
uint32_t ribsaddle_sent_lost_at(const ribsaddle_sent *sent, uint32_t position, uint64_t *number, uint64_t *packet_type, uint64_t *tag);

/* ---- the receiver */

/* 1,044 bytes, aligned to 4. The fields are for a debugger: what they mean is in crates/recv/src/lib.rt. */
typedef struct ribsaddle_recv {
    uint16_t initial;
    uint32_t length, count, ready, span;
    uint32_t waiting[256];
} ribsaddle_recv;

/* A receiver for payloads after initial, over a buffer of length bytes (1 to 65,536) that the caller keeps and lends to write and read. Refuses with 10. */
uint32_t ribsaddle_recv_new(ribsaddle_recv *recv, uint16_t initial, size_t length);

/* Stores a payload under a number; one that is already there changes nothing. Refuses with 19, 18, 15, 16, 17.
 * Write the payloads of Data and Fin packets only. A State uses up no number: it carries the one that the next Data
 * will have. Once it is written, that number is already there, and the Data changes nothing and is never read. The
 * same goes for Reset and Syn. */
uint32_t ribsaddle_recv_write(ribsaddle_recv *recv, uint8_t *buf, size_t buf_len, uint16_t number, const uint8_t *payload, size_t payload_len);

/* Reads the oldest ready bytes into out, as many as there are and fit, and how many to *count. Refuses with 19, 18. */
uint32_t ribsaddle_recv_read(ribsaddle_recv *recv, uint8_t *buf, size_t buf_len, uint8_t *out, size_t out_len, uint64_t *count);

/* Writes the selective ACK to the front of room, and its length to *size: 0, for none, with nothing waiting; 32 bytes always suffice. Refuses with 19, 9. */
uint32_t ribsaddle_recv_selective_ack(const ribsaddle_recv *recv, uint8_t *room, size_t room_len, uint64_t *size);

/* What is read of a receiver goes to *value. Each refuses with 19. */
uint32_t ribsaddle_recv_available(const ribsaddle_recv *recv, uint64_t *value);     /* how many bytes more the buffer can hold */
uint32_t ribsaddle_recv_is_empty(const ribsaddle_recv *recv, uint64_t *value);      /* 1 where no byte is ready and nothing waits, else 0 */
uint32_t ribsaddle_recv_init_seq_num(const ribsaddle_recv *recv, uint64_t *value);  /* the number before the first payload's */
uint32_t ribsaddle_recv_ack_num(const ribsaddle_recv *recv, uint64_t *value);       /* the last number of the payloads in order */
uint32_t ribsaddle_recv_count(const ribsaddle_recv *recv, uint64_t *value);         /* how many payloads are in order */
uint32_t ribsaddle_recv_ready(const ribsaddle_recv *recv, uint64_t *value);         /* how many bytes are ready */
uint32_t ribsaddle_recv_waiting(const ribsaddle_recv *recv, uint64_t *value);       /* how many payloads wait */
uint32_t ribsaddle_recv_waiting_bytes(const ribsaddle_recv *recv, uint64_t *value); /* how many bytes wait */

/* 1 where the payload of a number is already there, else 0. Refuses with 19. */
uint32_t ribsaddle_recv_was_written(const ribsaddle_recv *recv, uint16_t number, uint64_t *value);

#ifdef __cplusplus
}
#endif

#endif
