/* judge_packets: judges five packets as they come, and prints what is wrong with each and the report. */
#include <stdio.h>
#include <x25scan.h>

struct packet {
    char side;
    unsigned char octets[5];
    size_t length;
};

static const struct packet packets[] = {
    {'T', {0x10, 0x01, 0x0B, 0x00, 0x00}, 5}, /* a call request on channel 1 */
    {'N', {0x10, 0x01, 0x0F}, 3},             /* its acceptance */
    {'T', {0x10, 0x01, 0x00, 0xAA}, 4},       /* P(S) 0 and 1 fill the window */
    {'T', {0x10, 0x01, 0x02, 0xAA}, 4},
    {'T', {0x10, 0x01, 0x04, 0xAA}, 4},       /* P(S) 2 is outside of it */
};

int main(void) {
    x25scan scan = X25SCAN_INIT;
    x25scan_finding finding;
    char buffer[256];
    size_t length, left, i;
    int error = x25scan_open_header(&scan, "X25 1 MOD 8 WIN 2 SIZE 128 PVC 0 SVC 4");
    for (i = 0; !error && i < sizeof packets / sizeof *packets; i++) {
        error = x25scan_packet(&scan, (uint32_t)i + 1, packets[i].side, packets[i].octets, packets[i].length);
        while (x25scan_found(&scan, &finding) == X25SCAN_OK)
            printf("packet %u, sent by %c in state %c%u: code %u\n", (unsigned)finding.packet, finding.side, finding.state,
                   finding.number, (unsigned)finding.code);
    }
    if (!error) error = x25scan_end(&scan, X25SCAN_LINES);
    while (!error && !x25scan_read(&scan, buffer, sizeof buffer, &length, &left) && length)
        fwrite(buffer, 1, length, stdout);
    if (error && !x25scan_words(error, buffer, sizeof buffer, &length))
        fprintf(stderr, "judge_packets: %.*s\n", (int)length, buffer);
    x25scan_close(&scan);
    return error;
}
