/*
 * Scowdeck for C and C++: telemetry frames in, packets out per virtual channel.
 *
 * Six functions over numbers and slices: scowdeck_read, scowdeck_write and scowdeck_busy are the desk;
 * scowdeck_open, scowdeck_close and scowdeck_syndrome are the frame part, which needs no record, no store
 * and no packets. `./make-lib` makes target/native/libhost.a, which has them all, and
 * target/native/libscowdeck.so. All state is the caller's: the library has no memory of its own,
 * allocates nothing, and may be called from any number of threads over memory that they do not share.
 *
 * Every function answers for any input: there is no number, octet or word that the caller has to rule
 * out first. The caller answers only for the slices.
 *
 *   A slice is a pointer and a length. The pointer leads to that many octets (`uint8_t *`) or words
 *   (`uint32_t *`), all of them the caller's to read and, where the pointer is not to const, to write.
 *   NULL: fine with length 0, and only then.
 *   Alignment: a `uint32_t *` is aligned as a uint32_t is; octets lie anywhere.
 *   Overlap: no two slices of one call overlap, in part or whole.
 *
 * What a call may write: on a refusal nothing but `answer`; otherwise what its description says.
 * The words of `answer`: a shorter answer gets the words that fit (none if it has length 0), a longer
 * one keeps what it held after them.
 *
 * N, s, D, k, r and the order of the tests are those of the paper: N is the frame length, s the octets of
 * a frame's secondary header, D those of its data field, k the octets held of a packet, r the octets of a
 * packet still to be skipped.
 */
#ifndef SCOWDECK_H
#define SCOWDECK_H

#include <stddef.h>
#include <stdint.h>

#ifdef __cplusplus
extern "C" {
#endif

/* ---- sizes and limits ------------------------------------------------------------------------- */

#define SCOWDECK_LENGTH_MIN 13u         /* the least frame length N */
#define SCOWDECK_LENGTH_MAX 2048u       /* the greatest */
#define SCOWDECK_SPACECRAFT_MAX 1023u   /* the greatest spacecraft number */
#define SCOWDECK_CHANNELS 8u            /* virtual channels, 0 to 7 */
#define SCOWDECK_HEADER_OCTETS 6u       /* octets of a frame's header */
#define SCOWDECK_CONTROL_WORD_OCTETS 4u /* octets of a control word, if the frame has one */
#define SCOWDECK_ERROR_CONTROL_OCTETS 2u /* octets of error control, if it is set up */
#define SCOWDECK_PACKET_MIN 7u          /* octets of the shortest packet */
#define SCOWDECK_PACKET_MAX 4096u       /* octets of the longest packet that is delivered */
#define SCOWDECK_PART_OCTETS 4096u      /* octets of one channel's part of the store */
#define SCOWDECK_STORE_OCTETS 32768u    /* octets of the holding store, exactly */
#define SCOWDECK_OUTPUT_OCTETS 6144u    /* octets of an output for reading, at least */
#define SCOWDECK_RUN_MAX 65536u         /* octets of the longest run of packets to write from */
#define SCOWDECK_LEFT_OVER_MAX 6u       /* the greatest left-over */

#define SCOWDECK_CHANNEL_WORDS 4u       /* words of one channel in a record */
#define SCOWDECK_RECORD_WORDS 32u       /* words of a record */
#define SCOWDECK_READ_WORDS 20u         /* words of an answer of scowdeck_read */
#define SCOWDECK_WRITE_WORDS 5u         /* words of an answer of scowdeck_write */
#define SCOWDECK_BUSY_WORDS 3u          /* words of an answer of scowdeck_busy */
#define SCOWDECK_OPEN_WORDS 14u         /* words of an answer of scowdeck_open */

#define SCOWDECK_POINTER_IDLE 2046u     /* the pointer of a frame with idle data only */
#define SCOWDECK_POINTER_NONE 2047u     /* the pointer of a frame in which no packet starts */

/* ---- the table of refusals -------------------------------------------------------------------- */

/* Reading tests 1 to 12 in this order, and the first cause found gives the number. A number is given
 * exactly when its cause holds and no cause before it does. Opening tests 1 and then 5 to 12. */
#define SCOWDECK_ACCEPTED 0u
#define SCOWDECK_SET_UP_RANGE 1u        /* N or the spacecraft number is outside its range */
#define SCOWDECK_STORE_LENGTH 2u        /* the store is not 32,768 octets */
#define SCOWDECK_OUTPUT_SHORT 3u        /* the output is under 6,144 octets */
#define SCOWDECK_BROKEN_RECORD 4u       /* any of the eight records breaks the rules */
#define SCOWDECK_FRAME_LENGTH 5u        /* the frame is not N octets */
#define SCOWDECK_FRAME_CHECK 6u         /* error control is set up and the syndrome is not zero */
#define SCOWDECK_FRAME_VERSION 7u       /* frame version is not 00 */
#define SCOWDECK_OTHER_SPACECRAFT 8u    /* the spacecraft number differs */
#define SCOWDECK_SECONDARY_HEADER 9u    /* the secondary header flag is set and that header's version is not 00 */
#define SCOWDECK_NO_DATA 10u            /* D would be below 1 */
#define SCOWDECK_ORDER_OR_SEGMENT 11u   /* synchronisation flag 0, and either order flag not 0 or segment id not 11 */
#define SCOWDECK_POINTER_PLACE 12u      /* synchronisation flag 0, and pointer neither below D nor 2046 nor 2047 */

/* Writing tests 1 and then 20 to 25, in this order; closing tests 1, 20 and 25. */
#define SCOWDECK_CHANNEL_ABOVE 20u      /* channel above 7 */
#define SCOWDECK_RUN_LENGTH 21u         /* run over 65,536 octets */
#define SCOWDECK_NOT_A_CHAIN 22u        /* run not a chain of whole version 000 packets */
#define SCOWDECK_OFFSET_PAST 23u        /* offset past the run's end */
#define SCOWDECK_LEFT_OVER 24u          /* left-over above 6, or not zero while the offset is neither 0 nor the run's end */
#define SCOWDECK_OUTPUT_LENGTH 25u      /* output not N octets */

/* ---- records ---------------------------------------------------------------------------------- */

/* What a channel does, the word `state`. */
#define SCOWDECK_HUNTING 0u             /* waits for the start of a packet; `number` is 0 */
#define SCOWDECK_GATHERING 1u           /* holds k octets of a packet, 0 to 4,095; `number` is k */
#define SCOWDECK_SKIPPING 2u            /* passes over r more octets, 1 to 65,536; `number` is r */

/* One channel, 4 words. */
struct scowdeck_channel {
    uint32_t heard;                     /* 1 once a frame of this channel was accepted, else 0 */
    uint32_t last_count;                /* the channel count of its last accepted frame, 0 to 255 */
    uint32_t state;                     /* hunting, gathering or skipping */
    uint32_t number;                    /* k or r */
};

/*
 * All eight channels, 32 words. 32 zero words are the fresh record: nothing heard, all hunting.
 *
 * A record means nothing without its store: the octets held of channel v's packet are the first k
 * octets of the store from 4,096 times v on. Save both together and load both together, always, and
 * never set up one of them alone; a record with another time's store can pass every test and glue
 * two packets together. struct scowdeck_desk below has both in one piece.
 * Both belong to one set-up as well, which they do not hold: lend them with the length, spacecraft and
 * error control that they were made under. Another set-up is not found out, and can glue as well.
 *
 * The rules of a record (test 4), for each channel: heard is 0 or 1, last_count at most 255, state at
 * most 2; hunting has number 0; unheard means hunting; k is at most 4,095 and r is 1 to 65,536; of
 * the k octets held the first, if k is 1 or more, has version 000, and if k is 6 or more, the total
 * that they tell is above k and at most 4,096. Another number of words breaks the rules as well.
 */
struct scowdeck_record {
    struct scowdeck_channel channel[SCOWDECK_CHANNELS];
};

/* A record with its store. All zero is a fresh one; `struct scowdeck_desk desk = {0};` is too large
 * for some stacks. */
struct scowdeck_desk {
    struct scowdeck_record record;
    uint8_t store[SCOWDECK_STORE_OCTETS];
};

/* ---- answers ---------------------------------------------------------------------------------- */

/* The word `kind`. */
#define SCOWDECK_KIND_REFUSED 0u
#define SCOWDECK_KIND_PACKETS 1u
#define SCOWDECK_KIND_IDLE 2u           /* a frame with idle data only */
#define SCOWDECK_KIND_PRIVATE 3u        /* synchronisation flag 1: no packets are looked for */

/* The answer of scowdeck_read, 20 words. On a refusal all but `number` are 0. */
struct scowdeck_read_answer {
    uint32_t number;                    /* 0 accepted, or the refusal */
    uint32_t kind;
    uint32_t spacecraft;                /* header values: */
    uint32_t channel;
    uint32_t control_word_flag;
    uint32_t master_count;
    uint32_t channel_count;
    uint32_t secondary_header_flag;
    uint32_t synchronisation_flag;
    uint32_t order_flag;
    uint32_t segment_id;
    uint32_t pointer;
    uint32_t control_word;              /* 0 if not flagged */
    uint32_t gap;                       /* frames of this channel missing before this one, modulo 256: 255
                                           if it came twice; 0 if the channel was not heard before. After
                                           exactly 256 lost frames, or a multiple, it is 0 too, and a held
                                           head can be joined to the tail of another packet: hence README's
                                           `Demand3` is for at most 255 lost in a row */
    uint32_t delivered;                 /* packets put into the output */
    uint32_t idle;                      /* idle packets of at most 4,096 octets that were finished here */
    uint32_t broken;                    /* 1: a packet under way was given up */
    uint32_t disagreement;              /* 1: the pointer was not where the packet under way ends, or not 0
                                           right behind a packet's end */
    uint32_t foreign;                   /* 1: a packet of another version ended the walk */
    uint32_t oversize;                  /* 1: a packet of more than 4,096 octets began to be skipped */
};

/* The answer of scowdeck_write, 5 words. On a refusal all but `number` are as they were given. */
struct scowdeck_write_answer {
    uint32_t number;                    /* 0 written, or the refusal */
    uint32_t offset;                    /* the next call's offset in the same run; a new run starts at 0,
                                           with the left-over and the counts returned */
    uint32_t left_over;                 /* the next call's left-over */
    uint32_t master_count;              /* the next call's counts */
    uint32_t channel_count;
};

/* The answer of scowdeck_busy, 3 words. */
struct scowdeck_busy_answer {
    uint32_t mask;                      /* the bit of value 2^v is set if channel v is busy */
    uint32_t ones;                      /* how many bits of the mask are one */
    uint32_t lowest;                    /* the lowest busy channel, 8 if there is none */
};

/* The answer of scowdeck_open, 14 words: the header values in the order of struct scowdeck_read_answer.
 * On a refusal all but `number` are 0. */
struct scowdeck_open_answer {
    uint32_t number;                    /* 0 opened, or the refusal */
    uint32_t spacecraft;                /* header values: */
    uint32_t channel;
    uint32_t control_word_flag;
    uint32_t master_count;
    uint32_t channel_count;
    uint32_t secondary_header_flag;
    uint32_t synchronisation_flag;
    uint32_t order_flag;
    uint32_t segment_id;
    uint32_t pointer;
    uint32_t control_word;              /* 0 if not flagged */
    uint32_t data_place;                /* the data field's first octet in the frame, 6 + s */
    uint32_t data_octets;               /* D, at least 1 */
};

/* The structs are the words in order, with nothing between them, so that a pointer to one can be
 * lent as its words: (uint32_t *)&answer with SCOWDECK_READ_WORDS. These lines fail to compile where
 * a compiler lays them out in another way. */
typedef char scowdeck_record_is_32_words[sizeof(struct scowdeck_record) == 32 * sizeof(uint32_t) ? 1 : -1];
typedef char scowdeck_read_answer_is_20_words[sizeof(struct scowdeck_read_answer) == 20 * sizeof(uint32_t) ? 1 : -1];
typedef char scowdeck_write_answer_is_5_words[sizeof(struct scowdeck_write_answer) == 5 * sizeof(uint32_t) ? 1 : -1];
typedef char scowdeck_busy_answer_is_3_words[sizeof(struct scowdeck_busy_answer) == 3 * sizeof(uint32_t) ? 1 : -1];
typedef char scowdeck_open_answer_is_14_words[sizeof(struct scowdeck_open_answer) == 14 * sizeof(uint32_t) ? 1 : -1];

/* ---- functions -------------------------------------------------------------------------------- */

/*
 * Reads one frame.
 *
 *   length, spacecraft    the set-up: N, 13 to 2,048, and the spacecraft number, 0 to 1,023
 *   error_control         0: frames have no error control field; anything else: they have. A wrong 0 is not
 *                         refused: no check is made, and the field's two octets are taken for data
 *   record, store         the kept pair: 32 words and 32,768 octets, changed in place
 *   output                where packets go: at least 6,144 octets
 *   frame                 the frame, N octets, only read
 *   answer                a struct scowdeck_read_answer, 20 words
 *
 * Returns 0 if the frame was accepted, else the number of the refusal, 1 to 12; the first word of
 * the answer is the same.
 *
 * Accepted: the delivered packets stand end to end from output octet 0, `delivered` of them; a packet
 * at p has 7 + 256 * p[4] + p[5] octets. The output keeps its octets after them. In the record the
 * four words of the frame's channel are set; all others stay. In the store the octets now held
 * of that channel's packet are written, at the start of the channel's part; all others stay.
 * Refused: record, store and output are untouched. The same frame may be handed over again.
 * A frame that is accepted twice is not recognised as a repeat: the second time it has gap 255, its
 * whole packets come out again, and a packet under way is broken.
 */
uint32_t scowdeck_read(uint32_t length, uint32_t spacecraft, uint32_t error_control,
                       uint32_t *record, size_t record_words, uint8_t *store, size_t store_octets,
                       uint8_t *output, size_t output_octets, const uint8_t *frame, size_t frame_octets,
                       uint32_t *answer, size_t answer_words);

/*
 * Writes one frame from a run of packets.
 *
 *   length, spacecraft, error_control    the set-up, as for reading
 *   channel                     the virtual channel, 0 to 7
 *   master_count, channel_count the frame's counts
 *   has_word, word              has_word 0: the frame has no control word and `word` is not looked at;
 *                               anything else: it has this one
 *   run                         whole version 000 packets end to end, up to 65,536 octets, or none;
 *                               only read. Packets above 4,096 octets are written, but the desk that
 *                               reads them delivers none of them: they count as oversize
 *   offset                      where in the run this frame goes on: 0 at first
 *   left_over                   octets of an earlier frame's filler that are still to be sent, 0 at first
 *   output                      where the frame goes: exactly N octets
 *   answer                      a struct scowdeck_write_answer, 5 words
 *
 * Returns 0 if the frame was written, else the number of the refusal, 1 or 20 to 25; the first word
 * of the answer is the same.
 *
 * Written: the output is the frame, every octet of it; offset, left-over and both counts for the next
 * call are in the answer. Call on with the same run until the offset is the run's end; then start the
 * next run at offset 0 with the left-over that was returned. At the end of a run the rest of the data
 * field is an idle packet; a call with nothing left to send writes an idle frame.
 * Refused: the output is untouched, and what was given comes back.
 */
uint32_t scowdeck_write(uint32_t length, uint32_t spacecraft, uint32_t error_control,
                        uint32_t channel, uint8_t master_count, uint8_t channel_count,
                        uint32_t has_word, uint32_t word, const uint8_t *run, size_t run_octets,
                        uint32_t offset, uint32_t left_over, uint8_t *output, size_t output_octets,
                        uint32_t *answer, size_t answer_words);

/*
 * Tells which channels are busy: they skip, or hold at least one octet of a packet.
 *
 *   record    any words, only read
 *   answer    a struct scowdeck_busy_answer, 3 words
 *
 * Returns the mask, which is the first word of the answer too. There is no refusal: the states alone
 * are looked at (state 2, or state 1 with a number that is not 0), whatever else the words are. A
 * channel whose four words are not all there counts as hunting; words past the 32nd are ignored.
 */
uint32_t scowdeck_busy(const uint32_t *record, size_t record_words, uint32_t *answer, size_t answer_words);

/* ---- the frame part alone ----------------------------------------------------------------------- */

/*
 * A frame is its header of 6 octets, s octets of secondary header, D octets of data field, 4 octets of
 * control word if the header flags one, and 2 octets of error control if they are set up:
 *
 *   D = N - 6 - s - (4 if a control word is flagged) - (2 if error control is set up)
 *
 * s is 0 if the secondary header flag is 0, else 1 to 64, told by that header's first octet. Neither
 * function looks at what the data field holds.
 */

/*
 * Opens one frame: tests it and tells its header values, its control word and where its data field lies.
 *
 *   length, spacecraft, error_control    the set-up, as for reading
 *   frame                 the frame, N octets, only read
 *   answer                a struct scowdeck_open_answer, 14 words
 *
 * Returns 0 if the frame was opened, else the number of the refusal, 1 or 5 to 12; the first word of
 * the answer is the same. scowdeck_read refuses and tells the same of a frame, once its own tests 2 to 4
 * have passed.
 *
 * Opened: the data field is the `data_octets` octets of the frame from `data_place` on. If the
 * synchronisation flag is 0, the pointer is below D, 2046 or 2047; if it is 1, the frame is private and not
 * idle, and the order flag, the segment id and the pointer are told as they are, whatever they are.
 * Refused: nothing but the answer is written.
 */
uint32_t scowdeck_open(uint32_t length, uint32_t spacecraft, uint32_t error_control,
                       const uint8_t *frame, size_t frame_octets, uint32_t *answer, size_t answer_words);

/*
 * Closes one frame: writes header, control word and error control around a data field that lies in its
 * place in the output already.
 *
 *   length, spacecraft, error_control    the set-up, as for reading
 *   channel                     the virtual channel, 0 to 7
 *   master_count, channel_count the frame's counts; raising them from frame to frame is the caller's
 *   has_word, word              has_word 0: the frame has no control word and `word` is not looked at;
 *                               anything else: it has this one
 *   pointer                     the first header pointer: the place in the data field, from 0, of the first
 *                               packet header that starts there, or 2047 if none does, or 2046 for idle
 *                               data. It is not tested, and its low 11 bits are written. Where these are
 *                               neither below D nor 2046 nor 2047, the frame is closed all the same, and
 *                               refused by 12 when it is opened
 *   output                      exactly N octets, with the data field from octet 6 on
 *
 * The frame has no secondary header, synchronisation and order flag 0 and segment id 11. So the data field
 * is octets 6 to 6 + D - 1 of the output, D = N - 6 - (4 if has_word is not 0) - (2 if error_control is not
 * 0), which is at least 1 for every N that fits. These octets keep their values. The control word goes
 * behind them, error control last.
 *
 * Returns 0 if the frame was closed, else the number of the refusal, 1, 20 or 25, tested in this order.
 *
 * Closed: the output is the frame. Opened under the same set-up it tells the values given, if the pointer
 * that was given is below D, 2046 or 2047.
 * Refused: the output is untouched.
 */
uint32_t scowdeck_close(uint32_t length, uint32_t spacecraft, uint32_t error_control,
                        uint32_t channel, uint8_t master_count, uint8_t channel_count,
                        uint32_t has_word, uint32_t word, uint32_t pointer, uint8_t *output, size_t output_octets);

/*
 * The syndrome of any octets, 0 to 65,535: generator X^16 + X^12 + X^5 + 1, register preset to ones,
 * most significant bit first. Of a whole frame with error control it is 0 exactly when the frame is
 * good; of the octets before the error control field it is that field. Of no octets it is hexadecimal
 * FFFF.
 */
uint32_t scowdeck_syndrome(const uint8_t *octets, size_t count);

#ifdef __cplusplus
}
#endif

#endif
