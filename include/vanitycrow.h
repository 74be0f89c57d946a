/* The sender of an HF station: six calls over one record and one work area, a lookup, the link log, the levels within reach, and profiles as files; and
 * the receiving end, a box that listens, with a record and a window of its own.
 *
 * Link with libstation.a (`tools/prove station`). A sender is a struct vanitycrow_station and a work area of VANITYCROW_AREA_BYTES
 * bytes, all zero at first; vanitycrow_fresh makes the record. Each call changes both, and nothing else may. One profile serves a sender
 * for all its calls. No call asks anything of its values: what it cannot take it refuses, with the number of the first refusal below that
 * holds, and then record, work area and output keep every byte.
 *
 * Pointers point to memory of the given lengths that does not overlap; NULL may stand where a length is 0, and only there. A bool is 0 or 1.
 */
#ifndef VANITYCROW_H
#define VANITYCROW_H
#include <stdbool.h>
#include <stddef.h>
#include <stdint.h>

#ifdef __cplusplus
extern "C" {
#endif

/* The version of this interface (CHANGELOG.md). */
#define VANITYCROW_VERSION "0.14.6"
#define VANITYCROW_VERSION_MAJOR 0
#define VANITYCROW_VERSION_MINOR 14
#define VANITYCROW_VERSION_PATCH 6

#define VANITYCROW_AREA_BYTES 49152
#define VANITYCROW_LEVELS 17 /* 0 (the slowest) to 16 */
#define VANITYCROW_WAVES 6   /* 0 to 5, by rank */
#define VANITYCROW_MAX_SLOTS 64 /* frames of a burst */
#define VANITYCROW_MAX_WAITING 16384 /* bytes that may wait */
#define VANITYCROW_MAX_MESSAGES 256 /* messages that may wait */
#define VANITYCROW_MAX_RECEIVED 16 /* decoded frames of one reception at most */
#define VANITYCROW_MAX_CLASS 3 /* classes of messages: VANITYCROW_FLASH to VANITYCROW_ROUTINE */
#define VANITYCROW_ADIF_BYTES 256 /* least output of a link log */
#define VANITYCROW_CARD_BYTES 751 /* a profile as a file of version 1 (docs/CARD.md) */
#define VANITYCROW_LAST_SECOND 4102444799u /* since 1970: the end of 2099 */
#define VANITYCROW_PLACES 32768 /* places of a box's window, and least output of its call */
#define VANITYCROW_ACK_BYTES 13 /* payload of the long ack that a box answers with */

/* What a call answers. */
enum {
    VANITYCROW_ACCEPTED = 0,
    VANITYCROW_PROFILE_OUT_OF_RANGE = 1, /* a number of the profile is out of range or not a number */
    VANITYCROW_SHORT_OVER_LONG = 2,      /* the short frame is larger than the long */
    VANITYCROW_UNSOUND = 3,              /* the work area is too short, or the record is not sound; of a box, its window or its record */
    VANITYCROW_OUT_OF_TURN = 4,          /* a call other than connect before connect, or connect again */
    VANITYCROW_BAD_TIME = 5,             /* not within 0 to 10^9, or earlier than the last accepted one */
    VANITYCROW_BAD_VALUE = 6,            /* a value of a reply is out of range or not a number; a box is given a burst's number above 3 */
    VANITYCROW_SHORT_PAYLOAD = 7,        /* a long ack's payload is under 13 bytes */
    VANITYCROW_QUEUE_FULL = 8,           /* more than VANITYCROW_MAX_WAITING bytes would wait */
    VANITYCROW_ALL_TAKEN = 9,            /* more than 2^32 - 1 bytes would be taken in all */
    VANITYCROW_SHORT_OUTPUT = 10,        /* the output is shorter than VANITYCROW_MAX_SLOTS long frames; a box's, than VANITYCROW_PLACES bytes */
    VANITYCROW_BAD_CLASS = 11,           /* a message's class is above VANITYCROW_MAX_CLASS */
    VANITYCROW_TOO_MANY_MESSAGES = 12,   /* more than VANITYCROW_MAX_MESSAGES messages would wait */
    VANITYCROW_BAD_VERSION = 13,         /* a profile's file has a version byte of 0 or above 15 */
    VANITYCROW_BAD_CARD = 14,            /* it is empty, or a count doesn't agree with version or length; written: the output is under VANITYCROW_CARD_BYTES */
    VANITYCROW_TOO_MANY_FRAMES = 15,     /* a reception has more than VANITYCROW_MAX_RECEIVED frames */
    VANITYCROW_BAD_FRAME = 16,           /* no call's answer: frames that a box leaves out are counted under it (vanitycrow_receive) */
    VANITYCROW_FRAME_BEYOND = 17,        /* the same of frames that reach past what a box can keep */
    VANITYCROW_STRETCH_RETIRED = 18,     /* a profile's file of version 2 or later has harq_stretch, which is retired */
    VANITYCROW_BAD_RANGE = 19,           /* the lowest report is above the highest */
    VANITYCROW_BAD_CALL_SIGN = 20,       /* not 1 to 12 capitals, digits and slashes */
    VANITYCROW_BAD_LINK_TIME = 21,       /* past VANITYCROW_LAST_SECOND, or the end before the start */
    VANITYCROW_SHORT_ADIF = 22           /* the output is shorter than VANITYCROW_ADIF_BYTES */
};

/* ---- the profile: dB values are -100 to 100; s is seconds */

/* A dB value, if set. */
struct vanitycrow_maybe_db { bool set; float db; };

/* A level, 0 to 16, if set. */
struct vanitycrow_maybe_level { bool set; size_t level; };

/* The air. A burst lasts pre_s + bits / rate. */
struct vanitycrow_air {
    uint32_t slot_bits[VANITYCROW_LEVELS]; /* coded bits of a frame, 1 to 16384 */
    double pre_s[VANITYCROW_LEVELS];       /* 0 to 60 */
    double rate[VANITYCROW_LEVELS];        /* bits per second, 1 to 100000 */
    uint32_t max_bits[VANITYCROW_LEVELS];  /* most bits of a burst, at least 1 */
    double ack_s[VANITYCROW_WAVES];        /* a short ack, 0 to 60 */
    double cue_s;                          /* a cue, 0 to 10 */
};

/* Gear-shift thresholds, and the margin wanted above them. */
struct vanitycrow_marks { float thresholds_db[VANITYCROW_LEVELS]; float margin_db; };

/* The code: mother length and the ends of the six rates, 1 to 16384 bits each. */
struct vanitycrow_codes { uint32_t mother; uint32_t ends[6]; };

/* The length of bursts. */
struct vanitycrow_lengths {
    double max_burst_s;      /* 1 to 1000 */
    double max_burst_long_s; /* 1 to 1000 */
    double burst_overhead;   /* 0.01 to 1 */
    double turnaround_s;     /* 0 to 60 */
    bool burst_adapt;
    float burst_steady_db;
    struct vanitycrow_maybe_db burst_climb_db;
};

/* How long a level is held off. */
struct vanitycrow_hold_times {
    double fail_hold_s;     /* 1 to 100000 */
    double fail_hold_max_s; /* 0 to 1000000 */
    double loss_hold_s;     /* 0 to 1000000 */
};

struct vanitycrow_profile {
    struct vanitycrow_air air;
    uint32_t short_bytes; /* frame sizes, 18 to 512; the short one is not the larger */
    uint32_t long_bytes;
    struct vanitycrow_codes codes;
    struct vanitycrow_lengths lengths;
    struct vanitycrow_hold_times hold_times;
    struct vanitycrow_marks plain; /* for measured dB */
    struct vanitycrow_marks eff;   /* for reported effective dB */
    bool eff_snr;
    float cue_below_db;
    struct vanitycrow_maybe_db start_margin_db;
    size_t max_level;        /* 0 to 16 */
    size_t skip_slices_from; /* 0 to 17 */
    struct vanitycrow_maybe_level pin_level;
    bool goodput;  /* else the ladder */
    uint8_t power; /* 0 no power table, 1 AIR_MEAN_DB, 2 AIR_MEAN_TD_DB */
    bool harq;
    bool pick_family;
    bool smooth_target;
    bool hold_by_goodput;
    bool slice_slots;
    bool merge_pieces;
    bool cue;
    bool harq_partial;
};

/* ---- the record: read it as you like, and leave it to the calls to change */

/* Class of a channel: echoes beyond the guard, fading too fast for OFDM. */
struct vanitycrow_class { bool echo; bool doppler; };

/* The last reports, as many as count says, three at most: c is the newest. */
struct vanitycrow_reports { uint8_t count; float a; float b; float c; };

/* Per level: tried or not, the share of frames that came through where it was, when (s), and bursts lost whole. */
struct vanitycrow_tries {
    bool tried[VANITYCROW_LEVELS];
    float success[VANITYCROW_LEVELS];
    double success_at[VANITYCROW_LEVELS];
    uint8_t fails[VANITYCROW_LEVELS];
};

/* Per level: held off until (s), and whether that rules out every faster level. */
struct vanitycrow_holds { double blocked_until[VANITYCROW_LEVELS]; bool hold_all[VANITYCROW_LEVELS]; };

struct vanitycrow_gear {
    size_t level;
    size_t target;
    double burst_s; /* 0, as in a fresh record: the profile's max_burst_s */
    struct vanitycrow_maybe_db aim_db;
    struct vanitycrow_maybe_db last_report_db;
    struct vanitycrow_reports snr_reports;
    struct vanitycrow_class peer_class;
    bool cue; /* both ends agreed to cues */
    struct vanitycrow_tries tries;
    struct vanitycrow_holds holds;
};

struct vanitycrow_link {
    bool connected;
    bool awaiting; /* an ack */
    uint8_t session;
    double last_time; /* s, of the last accepted reply */
    uint8_t burst_id; /* 0 to 3 */
    bool heard;       /* whether peer_heard is a burst number that was heard */
    uint8_t peer_heard;
    uint8_t peer_slot;
    float peer_doppler_hz; /* not a number: none reported */
    bool peer_wants_turn;
    bool peer_wants_disc;
    uint8_t peer_wave; /* that the held pieces were stored from */
};

struct vanitycrow_counts {
    uint32_t next_offset; /* of the bytes that have flown */
    uint32_t waiting;     /* bytes */
    uint32_t flying;      /* bytes */
    size_t pieces;        /* flying */
    uint32_t bytes_acked;
    /* Bursts with a frame, their cues, and the acks that came while one was awaited, by ack_s of the wave that they bear: each in
     * milliseconds, rounded up by itself. Stays at 2^64 - 1 once there. */
    uint64_t airtime_ms;
};

/* The n held pieces, by offset, with the bits held; the last `rest` of them are unsent. */
struct vanitycrow_at_peer {
    uint32_t off[VANITYCROW_MAX_SLOTS];
    uint32_t bits[VANITYCROW_MAX_SLOTS];
    size_t n;
    size_t rest;
};

/* The n frames of the outstanding burst, by offset: bits sent, and bits held with them. */
struct vanitycrow_last_burst {
    uint32_t off[VANITYCROW_MAX_SLOTS];
    uint32_t bits[VANITYCROW_MAX_SLOTS];
    uint32_t held[VANITYCROW_MAX_SLOTS];
    size_t n;
};

struct vanitycrow_sender {
    struct vanitycrow_gear gear;
    struct vanitycrow_link link;
    struct vanitycrow_counts counts;
    struct vanitycrow_at_peer at_peer;
    struct vanitycrow_last_burst last_burst;
};

/* The n messages of which bytes wait, in the order in which they will go; the bytes left of them sum to counts.waiting. A message is there until its last
 * byte begins to fly or it is withdrawn. begun: bytes of the first have begun to fly; it says nothing with no message. */
struct vanitycrow_messages {
    uint16_t left[VANITYCROW_MAX_MESSAGES]; /* bytes that wait, 1 or more */
    uint8_t class_[VANITYCROW_MAX_MESSAGES];
    uint16_t label[VANITYCROW_MAX_MESSAGES]; /* 0: none */
    size_t n;
    uint32_t withdrawn; /* bytes of messages withdrawn, in all; with counts.next_offset and counts.waiting the bytes taken, at most 2^32 - 1 */
    bool begun;
};

/* The record that a station holds. The bytes between its fields have no meaning: an accepted call may leave anything there, a refused one writes nothing.
 * Two records are compared field by field. */
struct vanitycrow_station {
    struct vanitycrow_sender sender;
    struct vanitycrow_messages messages;
};

/* ---- messages */

/* Precedence classes. A message once begun is finished; then the lowest class waiting goes, the earliest of it first. */
enum { VANITYCROW_FLASH = 0, VANITYCROW_IMMEDIATE = 1, VANITYCROW_PRIORITY = 2, VANITYCROW_ROUTINE = 3 };

/* What a queuing says of its message. label: 1 to 65,535, or 0 for none. A message with a label supersedes those of its label, of any class, that have
 * not begun: they are withdrawn, and never go on the air. A begun one goes on. What is withdrawn still counts among the 2^32 - 1 bytes that a sender takes
 * in all: an hourly bulletin that is always superseded uses them up too. */
struct vanitycrow_message { uint8_t class_; uint16_t label; };

/* ---- replies */

/* When and how a reply was heard: s; the wave; the dB measured here, -100 to 300. */
struct vanitycrow_heard { double time; uint8_t wave; float snr_db; };

/* A connect answer. cue: the called station takes cues. */
struct vanitycrow_conn_ack {
    uint8_t session;
    float snr_db; /* -100 to 300 */
    struct vanitycrow_class class_;
    uint8_t slot; /* 0 to 2 */
    bool cue;
};

struct vanitycrow_ack {
    uint8_t burst;  /* 0 to 3 */
    uint8_t bitmap; /* 0 to 63: bit i for frame i */
    float snr_db;   /* -100 to 300 */
    bool want_turn;
    bool want_disc;
    bool stored;
    struct vanitycrow_class class_;
    uint8_t slot; /* 0 to 2 */
};

/* The flags of a long ack's frame; the rest is in its payload. */
struct vanitycrow_long_ack { bool want_turn; bool want_disc; bool stored; };

/* The decoded frames of one reception, n of them: each with its kind (4 is an ack) and its flags (1 wants the turn, 2 wants to disconnect, 4 has
 * stored what it misses) as the modem decoded them, and its payload's length. The payloads travel beside it, back to back. */
struct vanitycrow_reception {
    size_t n;
    uint8_t kind[VANITYCROW_MAX_RECEIVED];
    uint8_t flags[VANITYCROW_MAX_RECEIVED];
    uint32_t len[VANITYCROW_MAX_RECEIVED];
};

/* A turn; its report is -100 to 300 dB. */
struct vanitycrow_turn { struct vanitycrow_maybe_db report; };

/* ---- answers */

/* The n frames of a burst. */
struct vanitycrow_frames {
    uint32_t off[VANITYCROW_MAX_SLOTS];   /* the payload's offset among all bytes taken */
    uint32_t len[VANITYCROW_MAX_SLOTS];   /* bytes of payload, 1 to 254 */
    uint32_t start[VANITYCROW_MAX_SLOTS]; /* of its coded bits, in the mother code */
    uint32_t bits[VANITYCROW_MAX_SLOTS];  /* coded bits to send */
    size_t n;
};

struct vanitycrow_outgoing {
    uint8_t wave;
    size_t code;    /* the level */
    uint16_t user;  /* header bits */
    uint16_t extra; /* the peer's third of a slice burst, else the parity field */
    bool cue;       /* a cue goes before it */
    bool td_ease;
    uint8_t number; /* 0 to 3 */
    struct vanitycrow_frames frames;
};

/* outgoing is all zero where the burst is refused. */
struct vanitycrow_burst { uint8_t refusal; struct vanitycrow_outgoing outgoing; };

/* Where the bytes of a piece lie: area[start] to area[start + len - 1]; nowhere unless here. */
struct vanitycrow_place { uint8_t refusal; bool here; size_t start; size_t len; };

/* len characters of a record, 0 where it is refused. */
struct vanitycrow_logged { uint8_t refusal; size_t len; };

/* A file that was read: stretched says that harq_stretch, which is retired, was on in it; the profile has no such option. Never where it is refused. */
struct vanitycrow_card_answer { uint8_t refusal; bool stretched; };

/* n levels, ascending, each with the lowest report that gives it: level[0] and q[0] to level[n - 1] and q[n - 1]. The places behind
 * are 0, and n is 0 where the call is refused. */
struct vanitycrow_listing { uint8_t refusal; size_t n; uint8_t level[VANITYCROW_LEVELS]; uint8_t q[VANITYCROW_LEVELS]; };

/* ---- the receiving end */

/* A box: its first missing byte, which is the count of bytes that it has handed on. Its window is lent with each call: VANITYCROW_PLACES places,
 * 65,536 bytes, all zero at first. Place i is for the byte at offset first_missing + i: below 256 there is none, else it is the place less 256. */
struct vanitycrow_receiver { uint32_t first_missing; };

/* payload is that of the long ack to answer with, whose flags are 0; handed is how many bytes of the stream stand at the start of the output; wrong and
 * beyond are how many frames were left out under 16 and under 17. All but refusal is 0 where the call is refused. */
struct vanitycrow_received { uint8_t refusal; uint8_t payload[VANITYCROW_ACK_BYTES]; uint32_t handed; size_t wrong; size_t beyond; };

/* ---- calls: p the profile, t the record, a the work area of a_len bytes */

/* Makes *t the record of a new sender, whatever it was. */
void vanitycrow_fresh(struct vanitycrow_station *t);

/* Queues n bytes to send as one message, and withdraws those that its label supersedes; 0 bytes are accepted, make no message and change nothing. Refusals
 * 1 2 3 4 11 8 9 12, in this order: 8 and 12 are judged after the withdrawal, and a refused queuing withdraws nothing. */
uint8_t vanitycrow_queue(const struct vanitycrow_profile *p, struct vanitycrow_station *t, uint8_t *a, size_t a_len, struct vanitycrow_message m,
                         const uint8_t *bytes, size_t n);

/* A connect answer. Refusals 1 to 6. */
uint8_t vanitycrow_connect(const struct vanitycrow_profile *p, struct vanitycrow_station *t, uint8_t *a, size_t a_len, struct vanitycrow_heard h,
                           struct vanitycrow_conn_ack r);

/* A short ack. Refusals 1 to 6. */
uint8_t vanitycrow_short_ack(const struct vanitycrow_profile *p, struct vanitycrow_station *t, uint8_t *a, size_t a_len, struct vanitycrow_heard h,
                             struct vanitycrow_ack r);

/* A long ack and the n bytes of its payload. Refusals 1 to 7. */
uint8_t vanitycrow_long_ack(const struct vanitycrow_profile *p, struct vanitycrow_station *t, uint8_t *a, size_t a_len, struct vanitycrow_heard h,
                            struct vanitycrow_long_ack r, const uint8_t *payload, size_t n);

/* All decoded frames of one reception, heard at one time, in one wave and with one dB, and the n bytes of their payloads back to back. Leaves what the acks
 * among them leave as long acks one after the other; frames that are no acks and payloads under 13 bytes are passed over, and where the bytes
 * run out a payload has what is left. Where none is read the record stays, its last time too. Refusals 1 2 3 15 4 5 6, in this order; 15 counts all
 * frames. All or nothing: a refused call has read no frame. */
uint8_t vanitycrow_frames(const struct vanitycrow_profile *p, struct vanitycrow_station *t, uint8_t *a, size_t a_len, struct vanitycrow_heard h,
                          struct vanitycrow_reception r, const uint8_t *payloads, size_t n);

/* A turn. Refusals 1 to 6. */
uint8_t vanitycrow_turn(const struct vanitycrow_profile *p, struct vanitycrow_station *t, uint8_t *a, size_t a_len, struct vanitycrow_heard h,
                        struct vanitycrow_turn r);

/* The next burst: frames.n frames back to back in out, each of the level's frame size; what lies past them keeps its bytes.
 * Refusals 1 2 3 4 10. */
struct vanitycrow_burst vanitycrow_data_burst(const struct vanitycrow_profile *p, struct vanitycrow_station *t, uint8_t *a, size_t a_len, uint8_t *out,
                                              size_t n);

/* Where the bytes of the flying piece at this offset lie in the work area. Refusals 1 to 4. */
struct vanitycrow_place vanitycrow_find(const struct vanitycrow_profile *p, const struct vanitycrow_station *t, const uint8_t *a, size_t a_len,
                                        uint32_t off);

/* A finished link as one record of ADIF 3 at the start of out, with no line end and no zero behind it; what lies past it keeps its bytes.
 * call is the far station's call sign, on and off the link's first and last second since 1970 in UTC, acked the bytes acknowledged (counts.bytes_acked).
 * Needs no sender. Refusals 20 21 22. */
struct vanitycrow_logged vanitycrow_adif(const uint8_t *call, size_t call_len, uint64_t on, uint64_t off, uint32_t acked, uint8_t *out, size_t n);

/* The levels that a sender under this profile can choose for a report known only within a range: report q is q - 24 dB, low and high are
 * its lowest and highest value, class_ is the channel's class as reported. Needs no sender. Refusals 1 2 19. */
struct vanitycrow_listing vanitycrow_levels(const struct vanitycrow_profile *p, struct vanitycrow_class class_, uint8_t low, uint8_t high);

/* The profile as a file of VANITYCROW_CARD_BYTES bytes at the start of out; what lies past them keeps its bytes. Refusals 1 2 14. */
uint8_t vanitycrow_write_profile(const struct vanitycrow_profile *p, uint8_t *out, size_t n);

/* The profile of a file of n bytes, into *p. Of a file of version 2 to 15, what its version adds is passed over. Where the file is refused, *p keeps every
 * byte. A file of version 1 that has harq_stretch on is read with it off, and the answer says so. Refusals 13 14 18 1 2, in this order; 1 also where a place
 * that is on or off is neither. */
struct vanitycrow_card_answer vanitycrow_read_profile(const uint8_t *file, size_t n, struct vanitycrow_profile *p);

/* Makes *r the record of a new box, whatever it was; its window is to be all zero. */
void vanitycrow_fresh_receiver(struct vanitycrow_receiver *r);

/* A burst's number and its decoded frames, which stand in bytes one after the other: as many as the shorter of the lists sizes and slots has, frame i of
 * sizes[i] bytes, or of as many as are left, with slot number slots[i]. db is the dB byte to answer. What frames bring within the 32,768 bytes from the
 * first missing one on, as it was before the call, is kept; a byte kept first stays. Then the bytes that are there without a gap are handed on: they
 * stand at the start of out, and what lies past them keeps its bytes, as does the window past its VANITYCROW_PLACES. Refusals 3 6 10, in this order.
 *
 * A frame is left out under 16: of under 18 or over 512 bytes; with a slot number above 63 or not above that of the last frame taken; with a wrong check
 * sum, a kind other than 3, or a length byte of 0, of 255 or reaching into the check sum; and then under 17: where it reaches past the 32,768 bytes or
 * past offset 16,777,216. Its bit is not set, and the other frames are still taken. A frame whose bytes have all been handed on is taken.
 *
 * A link carries up to 16,777,216 bytes: docs/DIFFERENCES.md says why, and what a maker of boxes does about it. */
struct vanitycrow_received vanitycrow_receive(struct vanitycrow_receiver *r, uint16_t *window, size_t places, uint8_t number, uint8_t db,
                                              const uint8_t *bytes, size_t n, const uint16_t *sizes, size_t sizes_n, const uint8_t *slots,
                                              size_t slots_n, uint8_t *out, size_t out_n);

#ifdef __cplusplus
}
#endif
#endif
