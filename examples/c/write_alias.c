/* write_alias INTERFACE PLACE ALIAS: sets the station alias of the slave at this place of the line, from 0, and its check byte with it. */
#define _DEFAULT_SOURCE
#include "pilzhoon.h"
#include <arpa/inet.h>
#include <linux/if_packet.h>
#include <net/if.h>
#include <poll.h>
#include <stdio.h>
#include <stdlib.h>
#include <string.h>
#include <sys/socket.h>
#include <unistd.h>

enum { ETHERCAT = 0x88a4, APWR = 2, STATION = 0x0010, WORDS = 64, WAIT_MS = 50 };

static int wire;

/* Sends one datagram in a frame of its own. Answers the working counter that came back, with the content; or -1 if none came in time. */
static int exchange(uint8_t command, uint16_t adp, uint16_t ado, uint8_t *content, uint8_t length) {
    static uint8_t index;
    uint8_t frame[60] = {0xff, 0xff, 0xff, 0xff, 0xff, 0xff, 2, 0, 0, 0, 0, 1, 0x88, 0xa4};
    uint8_t *pdu = frame + 16, came[1514];
    frame[14] = (uint8_t)(12 + length); /* EtherCAT header: the length of the datagram, type 1 */
    frame[15] = 0x10;
    pdu[0] = command;
    pdu[1] = ++index;
    pdu[2] = (uint8_t)adp, pdu[3] = (uint8_t)(adp >> 8), pdu[4] = (uint8_t)ado, pdu[5] = (uint8_t)(ado >> 8);
    pdu[6] = length;
    memcpy(pdu + 10, content, length);
    if (send(wire, frame, sizeof frame, 0) < 0) return -1;
    struct pollfd ready = {wire, POLLIN, 0};
    while (poll(&ready, 1, WAIT_MS) > 0) {
        ssize_t size = recv(wire, came, sizeof came, 0);
        if (size < 28 + length || came[16] != command || came[17] != index) continue; /* of an earlier exchange */
        memcpy(content, came + 26, length);
        return came[26 + length] | came[27 + length] << 8;
    }
    return -1;
}

/* Carries an access through, and answers how it ended. */
static pz_progress run(pz_access *access, uint16_t station) {
    pz_datagram datagram;
    pz_progress code;
    while ((code = pz_next(access, &datagram)) == PZ_SEND) {
        int counter = exchange(datagram.command, station, datagram.ado, datagram.content, datagram.length);
        if (counter < 0) pz_lose(access);
        else pz_take(access, (uint16_t)counter, datagram.content, datagram.length);
    }
    return code;
}

static pz_progress write_word(uint16_t station, uint16_t word, uint16_t value) {
    pz_access access;
    pz_progress code = PZ_AGAIN;
    for (int tries = 0; tries < 3 && code == PZ_AGAIN; tries++) {
        pz_issue(&access, word, value);
        pz_progress issued = run(&access, station);
        pz_settle(&access, issued == PZ_TAKEN);
        code = run(&access, station);
    }
    return code;
}

/* What is wrong; or NULL where all changed words are written. */
static const char *set_alias(uint16_t station, uint16_t alias) {
    uint8_t old[2 * WORDS], new[2 * WORDS];
    pz_access access;
    pz_open(&access);
    pz_progress end = run(&access, station);
    if (end != PZ_OPENED) return pz_text(end);
    for (uint16_t word = 0; word < WORDS; word += 2) {
        pz_read(&access, word);
        if ((end = run(&access, station)) != PZ_READ) return pz_text(end);
        old[2 * word] = (uint8_t)access.first, old[2 * word + 1] = (uint8_t)(access.first >> 8);
        old[2 * word + 2] = (uint8_t)access.second, old[2 * word + 3] = (uint8_t)(access.second >> 8);
    }
    memcpy(new, old, sizeof new);
    pz_code code = pz_set_alias(new, sizeof new, alias);
    if (code != PZ_OK) return pz_text(code);
    end = PZ_WRITTEN;
    for (uint16_t word = 0; word < WORDS && end == PZ_WRITTEN; word++) {
        if (memcmp(old + 2 * word, new + 2 * word, 2) == 0) continue;
        end = write_word(station, word, (uint16_t)(new[2 * word] | new[2 * word + 1] << 8));
        printf("word %u: %s\n", (unsigned)word, pz_text(end));
    }
    return end == PZ_WRITTEN ? NULL : pz_text(end);
}

int main(int count, char **words) {
    if (count != 4) return fprintf(stderr, "usage: write_alias INTERFACE PLACE ALIAS\n"), 2;
    uint16_t place = (uint16_t)atoi(words[2]), station = (uint16_t)(0x1001 + place);
    struct sockaddr_ll at = {.sll_family = AF_PACKET, .sll_protocol = htons(ETHERCAT), .sll_ifindex = (int)if_nametoindex(words[1])};
    wire = socket(AF_PACKET, SOCK_RAW, htons(ETHERCAT));
    if (wire < 0 || bind(wire, (struct sockaddr *)&at, sizeof at) < 0) return perror(words[1]), 3;
    uint8_t address[2] = {(uint8_t)station, (uint8_t)(station >> 8)};
    if (exchange(APWR, (uint16_t)-place, STATION, address, 2) != 1) return fprintf(stderr, "no slave at place %u\n", (unsigned)place), 4;
    const char *wrong = set_alias(station, (uint16_t)atoi(words[3]));
    close(wire);
    if (wrong) return fprintf(stderr, "%s\n", wrong), 4;
    return 0;
}
