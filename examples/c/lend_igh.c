/* lend_igh: carries a station's datagrams over the IgH EtherCAT Master, as docs/EMBEDDING.md says ("A wire that a master lends"). Written from
 * `ecrt.h` and built against a stand-in for it, not with the master. Call it once a cycle, before ecrt_master_send: `of_slave` has a register
 * request of 16 bytes for each slave, `lent` is the master's end of the pair of sockets.
 *
 * The register requests (ecrt_slave_config_create_reg_request) carry reads and writes in the cycle. The two other datagrams are answered here: the
 * number of slaves (ecrt_master_state), and the station address of the slave at a place, which is its place and 1. A request that fails isn't
 * answered, since its frame may be lost. All requests of a message go out in the same cycle: `--carry 64` reads two words of each of 64 slaves in
 * as many cycles as of one. */
#include <ecrt.h>
#include <stdint.h>
#include <string.h>
#include <sys/socket.h>

static uint8_t m[1514];                                 // the message that is under way, and its length; 0: none
static ssize_t n;

// 1: done; 0: busy; -1: failed
static int do_datagram(ec_master_t *master, ec_reg_request_t **of_slave, unsigned slaves, uint8_t *d, int begins) {
    uint16_t adp = d[2] | d[3] << 8, ado = d[4] | d[5] << 8, size = (d[6] | d[7] << 8) & 0x7ff, counter = 0;
    if ((d[0] == 4 || d[0] == 5) && ado >= 0x500 && ado + size <= 0x510 && adp - 1u < slaves) {
        ec_reg_request_t *it = of_slave[adp - 1];
        if (begins && d[0] == 4) ecrt_reg_request_read(it, ado, size);
        if (begins && d[0] == 5) memcpy(ecrt_reg_request_data(it), d + 10, size), ecrt_reg_request_write(it, ado, size);
        if (begins || ecrt_reg_request_state(it) == EC_REQUEST_BUSY) return 0;
        if (ecrt_reg_request_state(it) != EC_REQUEST_SUCCESS) return -1;
        if (d[0] == 4) memcpy(d + 10, ecrt_reg_request_data(it), size);
        counter = 1;
    } else if (d[0] == 7) {
        ec_master_state_t state;
        ecrt_master_state(master, &state);
        counter = state.slaves_responding;
    } else if (d[0] == 1) {
        d[10] = (uint16_t)(1 - adp) & 0xff, d[11] = (uint16_t)(1 - adp) >> 8, counter = 1;
    }
    d[10 + size] = counter & 0xff, d[11 + size] = counter >> 8;
    return 1;
}

void lend(ec_master_t *master, ec_reg_request_t **of_slave, unsigned slaves, int lent) {
    int begins = n < 28, busy = 0, failed = 0;
    if (begins && (n = recv(lent, m, sizeof m, MSG_DONTWAIT)) < 28) return;
    uint8_t *d = m + 16;
    for (int more = 1; more; more = d[7] & 0x80, d += 12 + ((d[6] | d[7] << 8) & 0x7ff)) {
        uint16_t size = (d[6] | d[7] << 8) & 0x7ff;
        if (size > 16 || d + 12 + size > m + n) { n = 0; return; }
        int is = do_datagram(master, of_slave, slaves, d, begins);
        busy += is == 0, failed += is < 0;
    }
    if (busy) return;
    if (!failed) send(lent, m, n, MSG_DONTWAIT | MSG_NOSIGNAL);
    n = 0;
}
