/* Reads frames of 20 octets of spacecraft 171 from standard input and prints each packet with its
 * channel; the smallest useful program, and the one that README shows. */
#include <stdio.h>

#include "scowdeck.h"

static struct scowdeck_desk desk; /* record and store together; all zero is fresh */
static uint8_t output[SCOWDECK_OUTPUT_OCTETS], frame[20];

int main(void)
{
    struct scowdeck_read_answer a;
    size_t n; /* octets read: a last frame that is cut short gets refusal 5 */
    while ((n = fread(frame, 1, sizeof frame, stdin)) > 0) {
        const uint8_t *p = output;
        uint32_t refusal = scowdeck_read(sizeof frame, 171, 0, (uint32_t *)&desk.record, SCOWDECK_RECORD_WORDS, desk.store, sizeof desk.store,
                                         output, sizeof output, frame, n, (uint32_t *)&a, SCOWDECK_READ_WORDS);
        if (refusal != SCOWDECK_ACCEPTED) printf("refusal %u\n", (unsigned)refusal);
        for (; a.delivered > 0; a.delivered--) {
            size_t octets = 7u + 256u * p[4] + p[5];
            printf("channel %u: packet of %u octets\n", (unsigned)a.channel, (unsigned)octets);
            p += octets;
        }
    }
    return 0;
}
