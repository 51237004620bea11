/* A wrong sample, as README once had it: it writes every packet. tests/readme_test.sh has to find that. */
#include "ribsaddle.h"

static ribsaddle_recv receiver;
static uint8_t buffer[65536];

int take(const uint8_t *datagram, size_t len) {
    ribsaddle_packet p;
    if (ribsaddle_decode(&p, datagram, len) != RIBSADDLE_DONE)
        return 0;
    return ribsaddle_recv_write(&receiver, buffer, sizeof buffer, p.header.seq_num, datagram + p.payload_at, p.payload_len) == RIBSADDLE_DONE;
}
