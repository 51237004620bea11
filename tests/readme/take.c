/* What README's C sample must do. tests/readme_test.sh puts this after the sample, whose `take`,
 * `receiver` and `buffer` it uses. Every fault is told; the status is 1 where there is one. */
#include <stdio.h>
#include <string.h>

static int failed;
static uint8_t chunk[1400], out[65536];

static void expect(int holds, const char *what) {
    if (!holds) {
        printf("take.c: it does not hold that %s\n", what);
        failed = 1;
    }
}

static void begin(void) {
    expect(ribsaddle_recv_new(&receiver, 0, sizeof buffer) == RIBSADDLE_DONE, "a receiver is made");
}

/* The sample's answer to a packet. */
static int give(uint8_t type, uint16_t number, const void *payload, size_t len) {
    uint8_t datagram[1500];
    uint64_t size = 0;
    ribsaddle_header header = { .packet_type = type, .conn_id = 7, .seq_num = number };
    expect(ribsaddle_encode(&header, chunk, 0, payload, len, datagram, sizeof datagram, &size) == RIBSADDLE_DONE, "a packet is written");
    return take(datagram, size);
}

/* How many bytes can be read. */
static uint64_t read_all(void) {
    uint64_t count = 0;
    expect(ribsaddle_recv_read(&receiver, buffer, sizeof buffer, out, sizeof out, &count) == RIBSADDLE_DONE, "a read is done");
    return count;
}

int main(void) {
    uint64_t ack = 0;
    memset(chunk, 'c', sizeof chunk);
    begin();
    expect(give(RIBSADDLE_STATE, 1, chunk, 0), "State 1 is taken");
    expect(give(RIBSADDLE_RESET, 1, chunk, 0), "Reset 1 is taken");
    expect(give(RIBSADDLE_SYN, 1, chunk, 0), "Syn 1 is taken");
    expect(give(RIBSADDLE_DATA, 1, "chart", 5), "Data 1 is taken");
    expect(read_all() == 5 && memcmp(out, "chart", 5) == 0, "after State 1 and Data 1 \"chart\" five bytes are read");
    expect(give(RIBSADDLE_FIN, 2, chunk, 0), "Fin 2 is taken");
    expect(ribsaddle_recv_ack_num(&receiver, &ack) == RIBSADDLE_DONE && ack == 2, "Fin 2 uses up its number");
    expect(!take(chunk, 19), "19 bytes are refused");
    begin();
    for (uint16_t number = 6; number >= 1; number--)
        expect(give(RIBSADDLE_DATA, number, chunk, sizeof chunk), "Data 6 to 1 are taken");
    expect(read_all() == 8400 && out[8399] == 'c', "8,400 bytes that become ready at once are read");
    return failed;
}
