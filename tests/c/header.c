/* The header against the library: sizes and alignment, the place of every field, and nothing written past a state. Run by tests/header_test.sh. */
#include "ribsaddle.h"

#include <stdalign.h>
#include <stdio.h>
#include <string.h>

_Static_assert(sizeof(ribsaddle_header) == 20 && alignof(ribsaddle_header) == 4, "ribsaddle_header");
_Static_assert(sizeof(ribsaddle_packet) == 56 && alignof(ribsaddle_packet) == 8, "ribsaddle_packet");
_Static_assert(sizeof(ribsaddle_sent) == 26720 && alignof(ribsaddle_sent) == 8, "ribsaddle_sent");
_Static_assert(sizeof(ribsaddle_recv) == 1044 && alignof(ribsaddle_recv) == 4, "ribsaddle_recv");

static int failed, checked;

#define SAME(found, wanted) same(#found, (uint64_t)(found), (uint64_t)(wanted))

static void same(const char *what, uint64_t found, uint64_t wanted)
{
    checked++;
    if (found != wanted) {
        printf("header.c: %s is %llu, not %llu\n", what, (unsigned long long)found, (unsigned long long)wanted);
        failed = 1;
    }
}

/* A state between bytes that no call may touch. */
#define GUARDED(type) static struct { uint8_t before[64]; type it; uint8_t behind[64]; }
GUARDED(ribsaddle_packet) packet;
GUARDED(ribsaddle_sent) sent;
GUARDED(ribsaddle_recv) recv;

static int is_untouched(const uint8_t *guard)
{
    for (int i = 0; i < 64; i++)
        if (guard[i] != 0xA5)
            return 0;
    return 1;
}

#define FILL(state) memset(&state, 0xA5, sizeof state)
#define GUARDS(state) (SAME(is_untouched(state.before), 1), SAME(is_untouched(state.behind), 1))

static void packets(void)
{
    static const uint8_t datagram[] = { 0x21, 1, 0x12, 0x34, 0, 0, 1, 2, 0, 0, 3, 4, 0, 0, 5, 6, 7, 8, 9, 10, 0, 4, 5, 0, 0, 0x80, 0x41, 0x42 };
    uint8_t room[sizeof datagram + 8];
    uint64_t size = 77;
    FILL(packet);
    SAME(ribsaddle_decode(&packet.it, datagram, 5), RIBSADDLE_TOO_SHORT);
    SAME(packet.it.payload_len, (size_t)0xA5A5A5A5A5A5A5A5);
    SAME(ribsaddle_decode(&packet.it, datagram, sizeof datagram), RIBSADDLE_DONE);
    GUARDS(packet);
    SAME(packet.it.header.packet_type, RIBSADDLE_STATE);
    SAME(packet.it.header.conn_id, 0x1234);
    SAME(packet.it.header.ts_micros, 0x102);
    SAME(packet.it.header.ts_diff_micros, 0x304);
    SAME(packet.it.header.window_size, 0x506);
    SAME(packet.it.header.seq_num, 0x708);
    SAME(packet.it.header.ack_num, 0x90A);
    SAME(packet.it.sack_at, 22);
    SAME(packet.it.sack_len, 4);
    SAME(packet.it.payload_at, 26);
    SAME(packet.it.payload_len, 2);
    memset(room, 0xA5, sizeof room);
    SAME(ribsaddle_encode(&packet.it.header, datagram + 22, 4, datagram + 26, 2, room, sizeof datagram - 1, &size), RIBSADDLE_NO_ROOM);
    SAME(size, 77);
    SAME(room[0], 0xA5);
    SAME(ribsaddle_encode(&packet.it.header, datagram + 22, 4, datagram + 26, 2, room, sizeof room, &size), RIBSADDLE_DONE);
    SAME(size, sizeof datagram);
    SAME(memcmp(room, datagram, sizeof datagram), 0);
    SAME(room[sizeof datagram], 0xA5);
    packet.it.header.packet_type = 5;
    SAME(ribsaddle_encode(&packet.it.header, datagram + 22, 4, datagram + 26, 2, room, sizeof room, &size), RIBSADDLE_UNKNOWN_TYPE);
}

static void tracker(void)
{
    uint64_t number = 0, type = 9, tag = 0, value = 77;
    ribsaddle_sent *s = &sent.it;
    FILL(sent);
    SAME(ribsaddle_sent_sound(s), RIBSADDLE_NOT_SOUND);
    SAME(ribsaddle_sent_in_flight(s, &value), RIBSADDLE_NOT_SOUND);
    SAME(ribsaddle_sent_new(s, 500, 999, 70000, 30000, 1200, 3000, 90000000, 0.5), RIBSADDLE_BAD_SETTING);
    SAME(s->kept, 0xA5A5A5A5);
    SAME(s->samples[1023].at, 0xA5A5A5A5A5A5A5A5);
    SAME(s->marks[511].resent, 0xA5);
    SAME(value, 77);
    SAME(ribsaddle_sent_new(s, 500, 100000, 70000, 30000, 1200, 3000, 90000000, 0.5), RIBSADDLE_DONE);
    GUARDS(sent);
    SAME(s->initial, 500);
    SAME(s->count, 0);
    SAME(s->live, 0);
    SAME(s->numbers.target, 100000);
    SAME(s->numbers.largest_packet, 1200);
    SAME(s->numbers.increase, 3000);
    SAME(s->numbers.maximum, 2400);
    SAME(s->numbers.in_flight, 0);
    SAME(s->numbers.minimum_timeout, 30000);
    SAME(s->numbers.delay_window, 90000000);
    SAME(s->numbers.gain == 0.5, 1);
    SAME(s->numbers.trip, 0);
    SAME(s->numbers.variance, 0);
    SAME(s->numbers.timeout, 70000);
    SAME(s->numbers.last, 0);
    SAME(s->kept, 0);
    SAME(s->samples[1023].at, 0);
    SAME(s->times[511], 0);
    SAME(s->sizes[511].len, 0);
    SAME(s->marks[511].resent, 0);
    for (uint16_t k = 1; k <= 5; k++)
        SAME(ribsaddle_sent_transmit(s, 500 + k, RIBSADDLE_DATA, 40 + k, 100 + k, 1000 + k), RIBSADDLE_DONE);
    SAME(s->count, 5);
    SAME(s->times[4], 1005);
    SAME(s->sizes[4].tag, 45);
    SAME(s->sizes[4].len, 105);
    SAME(s->marks[4].kind, RIBSADDLE_DATA);
    SAME(s->marks[4].acked, 0);
    SAME(ribsaddle_sent_ack(s, 501, (const uint8_t[]){ 7, 0, 0, 0 }, 4, 250, 2000), RIBSADDLE_DONE);
    SAME(s->live, 4);
    SAME(s->kept, 1);
    SAME(s->samples[0].delay, 250);
    SAME(s->samples[0].at, 2000);
    SAME(s->times[0], 1002);
    SAME(s->marks[0].lost, 1);
    SAME(s->marks[1].acked, 1);
    SAME(s->numbers.last, 2000);
    SAME(ribsaddle_sent_lost_at(s, 0, &number, &type, &tag), RIBSADDLE_DONE);
    SAME(number, 502);
    SAME(type, RIBSADDLE_DATA);
    SAME(tag, 42);
    SAME(ribsaddle_sent_lost_at(s, 1, &number, &type, &tag), RIBSADDLE_NOT_SENT);
    SAME(ribsaddle_sent_transmit(s, 502, 5, 42, 102, 2001), RIBSADDLE_UNKNOWN_TYPE);
    SAME(ribsaddle_sent_transmit(s, 502, RIBSADDLE_DATA, 42, 102, 2001), RIBSADDLE_DONE);
    SAME(s->marks[0].resent, 1);
    SAME(ribsaddle_sent_range(s, &number, &tag), RIBSADDLE_DONE);
    SAME(number, 500);
    SAME(tag, 505);
    GUARDS(sent);
}

static void receiver(void)
{
    uint8_t buf[4000], out[16], sack[33];
    uint64_t value = 77;
    ribsaddle_recv *r = &recv.it;
    FILL(recv);
    SAME(ribsaddle_recv_new(r, 65533, 65537), RIBSADDLE_BAD_SETTING);
    SAME(r->waiting[255], 0xA5A5A5A5);
    SAME(ribsaddle_recv_ready(r, &value), RIBSADDLE_NOT_SOUND);
    SAME(ribsaddle_recv_new(r, 65533, sizeof buf), RIBSADDLE_DONE);
    GUARDS(recv);
    SAME(r->initial, 65533);
    SAME(r->length, 4000);
    SAME(r->count + r->ready + r->span + r->waiting[255], 0);
    SAME(ribsaddle_recv_write(r, buf, sizeof buf, 0, (const uint8_t *)"abc", 3), RIBSADDLE_DONE);
    SAME(r->span, 3);
    SAME(r->waiting[2], 4);
    memset(sack, 0xA5, sizeof sack);
    SAME(ribsaddle_recv_selective_ack(r, sack, 3, &value), RIBSADDLE_NO_ROOM);
    SAME(value, 77);
    SAME(ribsaddle_recv_selective_ack(r, sack, sizeof sack, &value), RIBSADDLE_DONE);
    SAME(value, 4);
    SAME(memcmp(sack, (const uint8_t[]){ 2, 0, 0, 0, 0xA5 }, 5), 0);
    SAME(ribsaddle_recv_write(r, buf, sizeof buf - 1, 65534, (const uint8_t *)"x", 1), RIBSADDLE_OTHER_LENGTH);
    SAME(ribsaddle_recv_write(r, buf, sizeof buf, 65534, (const uint8_t *)"xy", 2), RIBSADDLE_DONE);
    SAME(r->count, 1);
    SAME(r->ready, 2);
    memset(out, 0xA5, sizeof out);
    SAME(ribsaddle_recv_read(r, buf, sizeof buf, out, sizeof out, &value), RIBSADDLE_DONE);
    SAME(value, 2);
    SAME(memcmp(out, "xy\xA5", 3), 0);
    SAME(ribsaddle_recv_was_written(r, 65535, &value), RIBSADDLE_DONE);
    SAME(value, 0);
    GUARDS(recv);
}

int main(void)
{
    packets();
    tracker();
    receiver();
    if (!failed)
        printf("header.c: %d values as the header says\n", checked);
    return failed;
}
