/* Calls every function of the library by a program of bytes: random and damaged input, forged states. Everything that is lent is a block of its own of just
 * that length, so that memcheck, a sanitizer or the allocator's guard sees a byte touched past it. After every call: the answer is one that the header lists
 * for the function, and after a refusal all that was lent is as it was. What is wrong ends in abort().
 *
 *     hammer COUNT SEED      so many programs at random
 *     hammer < FILE          the program in a file, for a fuzzer
 */
#include "../../include/ribsaddle.h"
#include <stdio.h>
#include <stdlib.h>
#include <string.h>
#if defined __has_include
#if __has_include(<valgrind/memcheck.h>)
#include <valgrind/memcheck.h>
#endif
#endif
#ifndef VALGRIND_MAKE_MEM_DEFINED
#define VALGRIND_MAKE_MEM_DEFINED(at, len) ((void)(at))
#endif

static const uint8_t *in;
static size_t left;
static unsigned long long calls, refusals;

static uint8_t next(void)
{
    return left ? (left--, *in++) : 0;
}

static uint64_t number(int bytes)
{
    uint64_t value = 0;
    while (bytes-- > 0)
        value = value << 8 | next();
    return value;
}

static void fail(const char *what, unsigned answer)
{
    fprintf(stderr, "hammer: %s (answer %u)\n", what, answer);
    abort();
}

/* A block of just len bytes, not null. */
static uint8_t *lend(size_t len)
{
    uint8_t *block = malloc(len ? len : 1);
    if (!block)
        exit(2);
    return block;
}

static uint8_t *lend_input(size_t len)
{
    uint8_t *block = lend(len);
    for (size_t at = 0; at < len; at++)
        block[at] = next();
    return block;
}

static uint8_t *copy_of(const void *from, size_t len)
{
    return memcpy(lend(len), from, len);
}

/* Holds an answer to the list of the function, 0 at its end. */
static uint32_t listed(const char *call, uint32_t answer, const char *may)
{
    calls++;
    if (answer == 0)
        return 0;
    refusals++;
    for (; *may; may++)
        if ((uint32_t)*may == answer)
            return answer;
    fail(call, answer);
    return answer;
}

/* Frees the copy, which must be what is there now. A struct's padding may hold any bits, so memcheck is told that the bytes are there to be compared. */
static void unchanged(const char *what, const void *now, uint8_t *before, size_t len)
{
    VALGRIND_MAKE_MEM_DEFINED(now, len);
    VALGRIND_MAKE_MEM_DEFINED(before, len);
    if (memcmp(now, before, len) != 0)
        fail(what, 0);
    free(before);
}

/* The same of a state, but for the padding between its fields, which is no part of it and may hold anything. */
static void unchanged_sent(const ribsaddle_sent *now, uint8_t *before)
{
    ribsaddle_sent *a = (ribsaddle_sent *)copy_of(now, sizeof *now), *b = (ribsaddle_sent *)before;
    for (int twice = 0; twice < 2; twice++) {
        uint8_t *at = (uint8_t *)(twice ? b : a);
        memset(at + 2, 0, 2);
        memset(at + 36, 0, 4);
    }
    unchanged("the tracker was changed", a, before, sizeof *a);
    free(a);
}

static void unchanged_recv(const ribsaddle_recv *now, uint8_t *before)
{
    ribsaddle_recv *a = (ribsaddle_recv *)copy_of(now, sizeof *now);
    memcpy(before + 2, (uint8_t *)a + 2, 2);
    unchanged("the receiver was changed", a, before, sizeof *a);
    free(a);
}

static size_t size_by_byte(void)
{
    uint8_t b = next();
    return b < 200 ? b % 40 : b < 250 ? (size_t)(b - 200) * 30 : (size_t)number(2);
}

/* ---- codec */

/* A datagram: a header that is mostly readable, a chain, a tail; then perhaps one byte of damage, or a cut. */
static size_t datagram(uint8_t *at, size_t most)
{
    size_t len = 20, link = 1;
    for (size_t i = 0; i < 20; i++)
        at[i] = next();
    if (at[2] % 8)
        at[0] = (uint8_t)(at[0] % 5 << 4 | 1);
    int count = next() % 6;
    at[1] = 0;
    for (int i = 0; i < count && len + 300 < most; i++) {
        uint8_t size = next();
        at[link] = (uint8_t)(next() % 3 ? 1 : 2 + next() % 250);
        link = len;
        at[len++] = 0;
        at[len++] = size = size < 240 ? size % 36 : size;
        while (size--)
            at[len++] = next();
    }
    for (size_t tail = next() % 24; tail && len < most; tail--)
        at[len++] = next();
    uint8_t harm = next();
    if (harm % 4 == 0)
        at[number(2) % len] = next();
    if (harm % 8 == 1)
        len = number(2) % (len + 1);
    return len;
}

static void decode(int made)
{
    static uint8_t room[4096];
    size_t len = made ? datagram(room, sizeof room) : size_by_byte();
    uint8_t *bytes = made ? copy_of(room, len) : lend_input(len), *same = copy_of(bytes, len);
    ribsaddle_packet *packet = (ribsaddle_packet *)lend(sizeof *packet);
    memset(packet, 0xA7, sizeof *packet);
    uint8_t *before = copy_of(packet, sizeof *packet);
#ifdef PLANTED
    len++;              /* a fault on purpose, to see that it is found: one byte more than was lent */
#endif
    if (listed("decode", ribsaddle_decode(packet, bytes, len), "\1\2\3\4\5\6\7")) {
        unchanged("decode refused and wrote", packet, before, sizeof *packet);
    } else {
        free(before);
        if (packet->payload_at + packet->payload_len != len || packet->payload_at < 20 || packet->header.packet_type > 4)
            fail("decode: payload", 0);
        if (packet->sack_len % 4 || packet->sack_len > 252 || (packet->sack_len && packet->sack_at < 22) || packet->sack_at + packet->sack_len > packet->payload_at)
            fail("decode: SACK", 0);
        /* Written again it is no longer, and reads the same. */
        uint8_t *again = lend(len);
        uint64_t size = 0;
        uint32_t answer = ribsaddle_encode(&packet->header, bytes + packet->sack_at, packet->sack_len, bytes + packet->payload_at, packet->payload_len, again, len, &size);
        if (answer || size > len)
            fail("encode of what was decoded", answer);
        ribsaddle_packet read;
        if (ribsaddle_decode(&read, again, size) || read.payload_len != packet->payload_len || read.sack_len != packet->sack_len || read.header.seq_num != packet->header.seq_num)
            fail("decode of what was encoded", 0);
        calls += 2;
        free(again);
    }
    unchanged("decode changed the datagram", bytes, same, len);
    free(bytes);
    free(packet);
}

static void encode(void)
{
    ribsaddle_header *header = (ribsaddle_header *)lend(sizeof *header);
    memset(header, 0, sizeof *header);
    header->packet_type = (uint8_t)(next() % 6);
    header->seq_num = (uint16_t)number(2);
    size_t words = next(), sack_len = words < 200 ? words % 9 * 4 : words < 230 ? words - 200 : number(2) % 300;
    size_t payload_len = size_by_byte(), fits = 20 + (sack_len ? 2 + sack_len : 0) + payload_len;
    size_t room_len = next() % 4 ? fits : number(2) % (fits + 40);
    uint8_t *sack = lend_input(sack_len), *payload = lend_input(payload_len), *room = lend(room_len);
    memset(room, 0x9B, room_len);
    uint8_t *before = copy_of(room, room_len);
    uint64_t *size = (uint64_t *)lend(8);
    *size = 77;
    if (listed("encode", ribsaddle_encode(header, sack, sack_len, payload, payload_len, room, room_len, size), "\2\5\6\10\7\11")) {
        if (*size != 77)
            fail("encode refused and told a size", 0);
    } else {
        if (*size != fits || fits > room_len)
            fail("encode: size", 0);
        memcpy(before, room, fits);         /* past the packet, untouched */
    }
    unchanged("encode wrote where it should not", room, before, room_len);
    free(header);
    free(sack);
    free(payload);
    free(room);
    free(size);
}

/* ---- the tracker */

static ribsaddle_sent *sent;
static uint64_t now;

static uint64_t setting(uint64_t usual, uint64_t low, uint64_t high)
{
    uint8_t b = next();
    return b < 230 ? usual : b < 236 ? low : b < 242 ? high : b < 246 ? low - 1 : b < 250 ? high + 1 : number(8);
}

static void sent_calls(void)
{
    uint8_t *before = copy_of(sent, sizeof *sent), kind = next();
    uint32_t answer = 0;
    uint16_t near = (uint16_t)(sent->initial + sent->count + 1 - next() % 8 + (next() > 250 ? number(2) : 0));
    int reads = 0;
    if (kind < 4) {
        const double gains[] = { 1.0, 0.5, 1.0 / 1024, 0.0, -1.0, 2.0, 0.0 / 0.0, 1e300 };
        uint64_t target = setting(100000, 1000, UINT32_MAX), first = setting(1000000, 1, 1ull << 50), least = setting(500000, 1, 1ull << 50);
        uint64_t largest = setting(65535, 1, 65535), increase = setting(3000, 1, 1 << 20), window = setting(120000000, 1, 1ull << 50);
        uint8_t g = next();
        now = 0;
        answer = listed("sent_new", ribsaddle_sent_new(sent, (uint16_t)number(2), target, first, least, largest, increase, window, gains[g < 220 ? g % 3 : g % 8]), "\12");
    } else if (kind < 110) {
        now += next();
        uint64_t at = next() > 250 ? number(8) : now;
        uint32_t len = next() > 250 ? (uint32_t)number(4) : next();
        answer = listed("transmit", ribsaddle_sent_transmit(sent, near, next() % 6, (uint32_t)number(2), len, at), "\23\2\13\14\15\16\17");
    } else if (kind < 200) {
        size_t sack_len = next() % 4 ? next() % 5 * 4 : number(2) % 270;
        uint8_t *sack = lend_input(sack_len), *same = copy_of(sack, sack_len);
        now += next();
        answer = listed("ack", ribsaddle_sent_ack(sent, near, sack, sack_len, next() > 250 ? number(8) : number(3), now), "\23\5\6\10\13\14");
        unchanged("ack changed the SACK", sack, same, sack_len);
        free(sack);
    } else if (kind < 204) {
        answer = listed("on_timeout", ribsaddle_sent_on_timeout(sent), "\23");
    } else {
        static uint32_t (*const readers[])(const ribsaddle_sent *, uint64_t *) = { ribsaddle_sent_timeout, ribsaddle_sent_window, ribsaddle_sent_in_flight,
            ribsaddle_sent_maximum, ribsaddle_sent_lost_count, ribsaddle_sent_ack_num, ribsaddle_sent_next_seq_num, ribsaddle_sent_has_unacked, ribsaddle_sent_has_lost };
        uint64_t *values = (uint64_t *)lend(24);
        memset(values, 0xA7, 24);
        uint8_t *untold = copy_of(values, 24);
        reads = 1;
        if (kind < 240)
            answer = listed("reader", readers[kind % 9](sent, values + kind % 3), "\23");
        else if (kind < 246)
            answer = listed("range", ribsaddle_sent_range(sent, values, values + 1), "\23");
        else if (kind < 252)
            answer = listed("lost_at", ribsaddle_sent_lost_at(sent, next(), values, values + 1, values + 2), "\23\14");
        else
            answer = listed("sound", ribsaddle_sent_sound(sent), "\23");
        if (answer)
            unchanged("a reader refused and told", values, untold, 24);
        else
            free(untold);
        free(values);
    }
    if (answer || reads)
        unchanged_sent(sent, before);
    else
        free(before);
}

/* ---- the receiver */

static ribsaddle_recv *recv_;
static uint8_t *buf;
static size_t buf_len;

static void recv_calls(void)
{
    uint8_t *before = copy_of(recv_, sizeof *recv_), *held = copy_of(buf, buf_len), kind = next();
    uint16_t near = (uint16_t)(recv_->initial + recv_->count + (next() % 4 ? next() % 6 : number(2) % 300));
    size_t lent = next() > 250 && buf_len ? buf_len - 1 : buf_len;
    uint32_t answer = 0;
    int reads = 0;
    if (kind < 6) {
        size_t length = next() % 4 ? (size_t)next() * 3 + 1 : next() % 8 ? number(2) + 1 : number(8);
        answer = listed("recv_new", ribsaddle_recv_new(recv_, (uint16_t)number(2), length), "\12");
        if (!answer) {
            free(buf);
            free(held);
            buf_len = length;
            buf = lend(buf_len);
            memset(buf, 0x3D, buf_len);
            held = copy_of(buf, buf_len);
        }
    } else if (kind < 130) {
        size_t len = size_by_byte() % (kind % 4 ? 60 : 3000);
        uint8_t *payload = lend_input(len), *same = copy_of(payload, len);
        answer = listed("write", ribsaddle_recv_write(recv_, buf, lent, near, payload, len), "\23\22\17\20\21");
        unchanged("write changed the payload", payload, same, len);
        free(payload);
    } else if (kind < 190) {
        size_t len = size_by_byte();
        uint8_t *out = lend(len);
        memset(out, 0x9B, len);
        uint8_t *same = copy_of(out, len);
        uint64_t *count = (uint64_t *)lend(8);
        *count = 0;
        answer = listed("read", ribsaddle_recv_read(recv_, buf, lent, out, len, count), "\23\22");
        if (*count > len || (answer && *count))
            fail("read: count", answer);
        memcpy(same, out, *count);
        unchanged("read wrote past its count", out, same, len);
        free(out);
        free(count);
    } else {
        static uint32_t (*const readers[])(const ribsaddle_recv *, uint64_t *) = { ribsaddle_recv_available, ribsaddle_recv_is_empty, ribsaddle_recv_init_seq_num,
            ribsaddle_recv_ack_num, ribsaddle_recv_count, ribsaddle_recv_ready, ribsaddle_recv_waiting, ribsaddle_recv_waiting_bytes };
        uint64_t *value = (uint64_t *)lend(8);
        *value = 77;
        reads = 1;
        if (kind < 230) {
            answer = listed("reader", readers[kind % 8](recv_, value), "\23");
        } else if (kind < 240) {
            answer = listed("was_written", ribsaddle_recv_was_written(recv_, near, value), "\23");
        } else {
            size_t len = next() % 3 ? 32 : next() % 40;
            uint8_t *room = lend(len);
            memset(room, 0x9B, len);
            uint8_t *same = copy_of(room, len);
            answer = listed("selective_ack", ribsaddle_recv_selective_ack(recv_, room, len, value), "\23\11");
            if (!answer) {
                if (*value > 32 || *value > len || *value % 4)
                    fail("selective_ack: size", 0);
                memcpy(same, room, *value);
            }
            unchanged("selective_ack wrote past its size", room, same, len);
            free(room);
        }
        if (answer && *value != 77)
            fail("a reader refused and told", answer);
        free(value);
    }
    if (answer || reads) {
        unchanged_recv(recv_, before);
        unchanged("the buffer was changed", buf, held, buf_len);
    } else {
        free(before);
        free(held);
    }
}

/* Some bytes of a state become others: near its front, at the packets' times, sizes or marks, or anywhere. */
static void forge(void *state, size_t size)
{
    for (int count = 1 + next() % 3; count; count--) {
        uint8_t b = next();
        size_t at = b < 100 ? next() % 96 : b < 120 ? 16480 + number(2) % 200 : b < 140 ? 20576 + number(2) % 200 : b < 160 ? 24672 + number(2) % 100 : number(2);
        ((uint8_t *)state)[at % size] ^= next();
    }
}

static void run(const uint8_t *program, size_t len)
{
    in = program;
    left = len;
    memset(sent, 0, sizeof *sent);
    memset(recv_, 0, sizeof *recv_);
    ribsaddle_sent_new(sent, (uint16_t)number(2), 100000, 1000000, 500000, 65535, 3000, 120000000, 1.0);
    ribsaddle_recv_new(recv_, (uint16_t)number(2), buf_len);
    now = 0;
    while (left) {
        uint8_t kind = next();
        if (kind < 40)
            decode(1);
        else if (kind < 50)
            decode(0);
        else if (kind < 80)
            encode();
        else if (kind < 165)
            sent_calls();
        else if (kind < 250)
            recv_calls();
        else if (kind < 253)
            forge(sent, sizeof *sent);
        else
            forge(recv_, sizeof *recv_);
    }
}

static uint64_t drawn(uint64_t *seed)
{
    uint64_t z = *seed += 0x9E3779B97F4A7C15;
    z = (z ^ z >> 30) * 0xBF58476D1CE4E5B9;
    z = (z ^ z >> 27) * 0x94D049BB133111EB;
    return z ^ z >> 31;
}

int main(int count, char **words)
{
    static uint8_t program[65536];
    sent = (ribsaddle_sent *)lend(sizeof *sent);
    recv_ = (ribsaddle_recv *)lend(sizeof *recv_);
    buf_len = 2000;
    buf = lend(buf_len);
    memset(buf, 0x3D, buf_len);
    if (count == 3) {
        uint64_t seed = strtoull(words[2], NULL, 10);
        for (long programs = atol(words[1]); programs > 0; programs--) {
            size_t len = drawn(&seed) % 3000;
            for (size_t at = 0; at < len; at++)
                program[at] = (uint8_t)drawn(&seed);
            run(program, len);
        }
        printf("hammer: %s programs of seed %s, %llu calls, %llu of them refused, nothing wrong\n", words[1], words[2], calls, refusals);
    } else {
        run(program, fread(program, 1, sizeof program, stdin));
    }
    free(sent);
    free(recv_);
    free(buf);
    return 0;
}
