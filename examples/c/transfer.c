/* A whole transfer between two ends in one process: datagrams are written, carried over a channel that loses some, read and acknowledged.
 *   sh tools/library.sh && cc -Iinclude examples/c/transfer.c target/staticlib/libribsaddle.a -o transfer && ./transfer */
#include "ribsaddle.h"
#include <stdio.h>
#include <stdlib.h>
#include <string.h>

#ifndef TOTAL                           /* -DTOTAL=.. '-DIS_LOST(n)=..' has another transfer made */
#define TOTAL 300000
#define IS_LOST(n) ((n) % 7 == 3)       /* is datagram n, from 1 on, lost? Of each seven one is */
#endif
enum { CHUNK = 1000, CHUNKS = TOTAL / CHUNK, INITIAL = 65400, TURNS = 10 * CHUNKS };

static ribsaddle_sent sent;
static ribsaddle_recv receiver;
static uint8_t message[TOTAL], arrived[TOTAL], buffer[65536], datagram[1500];
static uint64_t now, got;
static uint16_t acked = INITIAL;        /* all up to this number has arrived, as the sender knows */
static unsigned carried, lost;

static void must(uint32_t answer, const char *call) {
    if (answer != RIBSADDLE_DONE) {
        fprintf(stderr, "%s: refused with %u\n", call, answer);
        exit(1);
    }
}

/* The channel. */
static int is_carried(void) {
    now += 100;
    int is_lost = IS_LOST(++carried);
    lost += is_lost;
    return !is_lost;
}

/* The sender hears an acknowledgement. One of nothing (the initial number) is refused, and changes
 * nothing. It keeps the number: ribsaddle_sent_ack_num has 0 for "none" too, and 0 is a packet's number. */
static void hear(size_t size) {
    ribsaddle_packet p;
    must(ribsaddle_decode(&p, datagram, size), "decode");
    uint32_t answer = ribsaddle_sent_ack(&sent, p.header.ack_num, datagram + p.sack_at, p.sack_len, 20000, now);
    if (answer != RIBSADDLE_NOT_SENT) {
        must(answer, "ack");
        acked = p.header.ack_num;
    }
}

/* The receiver takes a datagram in, reads what is ready, and answers with its ack number and selective ACK. */
static void receive(size_t size) {
    ribsaddle_packet p;
    uint8_t sack[32];
    uint64_t count, ack, sack_len, written;
    must(ribsaddle_decode(&p, datagram, size), "decode");
    if (p.header.packet_type == RIBSADDLE_DATA || p.header.packet_type == RIBSADDLE_FIN)    /* no other is in the stream */
        must(ribsaddle_recv_write(&receiver, buffer, sizeof buffer, p.header.seq_num, datagram + p.payload_at, p.payload_len), "write");
    must(ribsaddle_recv_read(&receiver, buffer, sizeof buffer, arrived + got, TOTAL - got, &count), "read");
    got += count;
    must(ribsaddle_recv_ack_num(&receiver, &ack), "ack_num");
    must(ribsaddle_recv_selective_ack(&receiver, sack, sizeof sack, &sack_len), "selective_ack");
    ribsaddle_header header = { .packet_type = RIBSADDLE_STATE, .conn_id = 7, .ts_micros = (uint32_t)now, .ack_num = (uint16_t)ack };
    must(ribsaddle_encode(&header, sack, sack_len, sack, 0, datagram, sizeof datagram, &written), "encode");
    if (is_carried())
        hear(written);
}

/* The sender sends chunk k, for the first time or again. */
static void send_chunk(uint32_t k) {
    uint64_t written;
    ribsaddle_header header = { .packet_type = RIBSADDLE_DATA, .conn_id = 7, .ts_micros = (uint32_t)now, .seq_num = (uint16_t)(INITIAL + 1 + k) };
    must(ribsaddle_sent_transmit(&sent, header.seq_num, RIBSADDLE_DATA, k, CHUNK, now), "transmit");
    must(ribsaddle_encode(&header, datagram, 0, message + k * CHUNK, CHUNK, datagram, sizeof datagram, &written), "encode");
    if (is_carried())
        receive(written);
}

int main(void) {
    for (size_t i = 0; i < TOTAL; i++)
        message[i] = (uint8_t)(i * i >> 8);
    must(ribsaddle_sent_new(&sent, INITIAL, 100000, 1000000, 500000, CHUNK, 3000, 120000000, 1.0), "new");
    must(ribsaddle_recv_new(&receiver, INITIAL, sizeof buffer), "new");
    uint64_t number, type, tag, window, unacked;
    uint32_t turn, next = 0;
    for (turn = 0; turn < TURNS; turn++) {      /* each sends one chunk; a transfer of more turns has failed */
        must(ribsaddle_sent_window(&sent, &window), "window");
        must(ribsaddle_sent_has_unacked(&sent, &unacked), "has_unacked");
        if (ribsaddle_sent_lost_at(&sent, 0, &number, &type, &tag) == RIBSADDLE_DONE)
            send_chunk((uint32_t)tag);
        else if (next < CHUNKS && window >= CHUNK)
            send_chunk(next++);
        else if (unacked) {                     /* nothing may be sent: a timeout, and the first unacknowledged chunk again */
            must(ribsaddle_sent_on_timeout(&sent), "on_timeout");
            send_chunk((uint16_t)(acked - INITIAL));
        } else
            break;
    }
    int same = turn < TURNS && got == TOTAL && memcmp(message, arrived, TOTAL) == 0;
    printf("%d bytes, %u datagrams, %u lost, %u chunks sent again: %s\n", TOTAL, carried, lost, turn - next, same ? "all arrived as sent" : "WRONG");
    return !same;
}
