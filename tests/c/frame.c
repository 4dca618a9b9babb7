/* Closes a frame of 20 octets with error control around a data field and opens it again: the frame part
 * alone, without record, store or packets. README shows it. */
#include <stdio.h>
#include <string.h>

#include "scowdeck.h"

int main(void)
{
    uint8_t frame[20]; /* D = 20 - 6 - 2 octets of data, from octet 6 on */
    struct scowdeck_open_answer a;
    memcpy(frame + SCOWDECK_HEADER_OCTETS, "any 12 bytes", 12);
    uint32_t refusal = scowdeck_close(sizeof frame, 171, 1, 3, 9, 4, 0, 0, SCOWDECK_POINTER_NONE, frame, sizeof frame);
    if (refusal == SCOWDECK_ACCEPTED)
        refusal = scowdeck_open(sizeof frame, 171, 1, frame, sizeof frame, (uint32_t *)&a, SCOWDECK_OPEN_WORDS);
    if (refusal != SCOWDECK_ACCEPTED) printf("refusal %u\n", (unsigned)refusal);
    else printf("channel %u: %.*s\n", (unsigned)a.channel, (int)a.data_octets, (const char *)frame + a.data_place);
    return 0;
}
