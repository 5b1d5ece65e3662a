/* lend_soem: carries a station's datagrams over SOEM, as docs/EMBEDDING.md says ("A wire that a master lends"). Written from SOEM's headers and tried
 * against a stand-in for them, not with SOEM. Call it in a side thread: `lent` is the master's end of the pair of sockets.
 *
 * ecx_FPRD, ecx_FPWR, ecx_APRD and ecx_BRD carry one datagram each in a frame of its own, so `--carry` gains little. They may be called from a side
 * thread while the cyclic thread exchanges process data. They give the working counter, or less than 0 where no frame came back; with
 * EC_TIMEOUTRET each sends its frame once, as a rule. */
#include <ethercat.h>
#include <stdint.h>
#include <sys/socket.h>

void lend(ecx_portt *port, int lent) {
    uint8_t m[1514];
    for (ssize_t n; (n = recv(lent, m, sizeof m, 0)) >= 28;) {
        int counter = 0;
        uint8_t *d = m + 16;                            // after both headers: the first datagram
        for (int more = 1; more && counter >= 0;) {
            uint16_t adp = d[2] | d[3] << 8, ado = d[4] | d[5] << 8, size = (d[6] | d[7] << 8) & 0x7ff;
            counter = -1;
            if (size > 16 || d + 12 + size > m + n) break;
            if (d[0] == 0) counter = 0;                 // the number
            if (d[0] == 7 && ado == 0) counter = ecx_BRD(port, adp, ado, size, d + 10, EC_TIMEOUTRET);
            if (d[0] == 1 && ado == 0x10) counter = ecx_APRD(port, adp, ado, size, d + 10, EC_TIMEOUTRET);
            if (ado >= 0x500 && ado + size <= 0x510) {
                if (d[0] == 4) counter = ecx_FPRD(port, adp, ado, size, d + 10, EC_TIMEOUTRET);
                if (d[0] == 5) counter = ecx_FPWR(port, adp, ado, size, d + 10, EC_TIMEOUTRET);
            }
            d[10 + size] = counter & 0xff, d[11 + size] = counter >> 8 & 0xff;
            more = d[7] & 0x80, d += 12 + size;
        }
        if (counter >= 0) send(lent, m, n, MSG_NOSIGNAL);   // else lost: the station sends it again
    }
}
