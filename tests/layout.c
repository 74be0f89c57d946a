/* The layout of the C interface as the header has it, in the lines of bindings/rust/examples/layout.rs: size and alignment of every struct;
 * offset, size and type of every field. Structs and fields have the names of bindings/rust/src/raw.rs. */
#include <stdio.h>
#include "vanitycrow.h"

typedef struct vanitycrow_maybe_db MaybeDb;
typedef struct vanitycrow_maybe_level MaybeLevel;
typedef struct vanitycrow_air Air;
typedef struct vanitycrow_marks Marks;
typedef struct vanitycrow_codes Codes;
typedef struct vanitycrow_lengths Lengths;
typedef struct vanitycrow_hold_times HoldTimes;
typedef struct vanitycrow_profile Profile;
typedef struct vanitycrow_class ChanClass;
typedef struct vanitycrow_reports Reports;
typedef struct vanitycrow_tries Tries;
typedef struct vanitycrow_holds Holds;
typedef struct vanitycrow_gear Gear;
typedef struct vanitycrow_link Link;
typedef struct vanitycrow_counts Counts;
typedef struct vanitycrow_at_peer AtPeer;
typedef struct vanitycrow_last_burst LastBurst;
typedef struct vanitycrow_sender Sender;
typedef struct vanitycrow_messages Messages;
typedef struct vanitycrow_station Station;
typedef struct vanitycrow_message Message;
typedef struct vanitycrow_heard Heard;
typedef struct vanitycrow_conn_ack ConnAck;
typedef struct vanitycrow_ack Ack;
typedef struct vanitycrow_long_ack LongAck;
typedef struct vanitycrow_reception Reception;
typedef struct vanitycrow_turn Turn;
typedef struct vanitycrow_frames Frames;
typedef struct vanitycrow_outgoing Outgoing;
typedef struct vanitycrow_burst Burst;
typedef struct vanitycrow_place Place;
typedef struct vanitycrow_logged Logged;
typedef struct vanitycrow_listing Listing;
typedef struct vanitycrow_card_answer CardAnswer;
typedef struct vanitycrow_receiver Receiver;
typedef struct vanitycrow_received Received;

/* The type of a field or of its elements; size_t is uint64_t here. */
#define KIND(x) \
    _Generic((x), bool: "bool", bool *: "bool", uint8_t: "u8", uint8_t *: "u8", uint16_t: "u16", uint16_t *: "u16", uint32_t: "u32", uint32_t *: "u32", uint64_t: "u64", \
             float: "f32", float *: "f32", double: "f64", double *: "f64", default: "struct")

#define S(s) printf("%s %zu %zu\n", #s, sizeof(s), _Alignof(s))
#define LINE(s, f, name) printf("%s.%s %zu %zu %s\n", #s, name, offsetof(s, f), sizeof(((s *)0)->f), KIND(((s *)0)->f))
#define F(s, f) LINE(s, f, #f)
#define FIELD_CLASS(s) LINE(s, class_, "class") /* a word of C++ */

_Static_assert(sizeof(size_t) == sizeof(uint64_t), "size_t has 64 bits");

static void profile_lines(void) {
    S(MaybeDb);
    F(MaybeDb, set); F(MaybeDb, db);
    S(MaybeLevel);
    F(MaybeLevel, set); F(MaybeLevel, level);
    S(Air);
    F(Air, slot_bits); F(Air, pre_s); F(Air, rate); F(Air, max_bits); F(Air, ack_s); F(Air, cue_s);
    S(Marks);
    F(Marks, thresholds_db); F(Marks, margin_db);
    S(Codes);
    F(Codes, mother); F(Codes, ends);
    S(Lengths);
    F(Lengths, max_burst_s); F(Lengths, max_burst_long_s); F(Lengths, burst_overhead); F(Lengths, turnaround_s); F(Lengths, burst_adapt);
    F(Lengths, burst_steady_db); F(Lengths, burst_climb_db);
    S(HoldTimes);
    F(HoldTimes, fail_hold_s); F(HoldTimes, fail_hold_max_s); F(HoldTimes, loss_hold_s);
    S(Profile);
    F(Profile, air); F(Profile, short_bytes); F(Profile, long_bytes); F(Profile, codes); F(Profile, lengths); F(Profile, hold_times);
    F(Profile, plain); F(Profile, eff); F(Profile, eff_snr); F(Profile, cue_below_db); F(Profile, start_margin_db); F(Profile, max_level);
    F(Profile, skip_slices_from); F(Profile, pin_level); F(Profile, goodput); F(Profile, power); F(Profile, harq); F(Profile, pick_family);
    F(Profile, smooth_target); F(Profile, hold_by_goodput); F(Profile, slice_slots); F(Profile, merge_pieces);
    F(Profile, cue); F(Profile, harq_partial);
}

static void record_lines(void) {
    S(ChanClass);
    F(ChanClass, echo); F(ChanClass, doppler);
    S(Reports);
    F(Reports, count); F(Reports, a); F(Reports, b); F(Reports, c);
    S(Tries);
    F(Tries, tried); F(Tries, success); F(Tries, success_at); F(Tries, fails);
    S(Holds);
    F(Holds, blocked_until); F(Holds, hold_all);
    S(Gear);
    F(Gear, level); F(Gear, target); F(Gear, burst_s); F(Gear, aim_db); F(Gear, last_report_db); F(Gear, snr_reports); F(Gear, peer_class);
    F(Gear, cue); F(Gear, tries); F(Gear, holds);
    S(Link);
    F(Link, connected); F(Link, awaiting); F(Link, session); F(Link, last_time); F(Link, burst_id); F(Link, heard); F(Link, peer_heard);
    F(Link, peer_slot); F(Link, peer_doppler_hz); F(Link, peer_wants_turn); F(Link, peer_wants_disc); F(Link, peer_wave);
    S(Counts);
    F(Counts, next_offset); F(Counts, waiting); F(Counts, flying); F(Counts, pieces); F(Counts, bytes_acked); F(Counts, airtime_ms);
    S(AtPeer);
    F(AtPeer, off); F(AtPeer, bits); F(AtPeer, n); F(AtPeer, rest);
    S(LastBurst);
    F(LastBurst, off); F(LastBurst, bits); F(LastBurst, held); F(LastBurst, n);
    S(Sender);
    F(Sender, gear); F(Sender, link); F(Sender, counts); F(Sender, at_peer); F(Sender, last_burst);
    S(Messages);
    F(Messages, left); FIELD_CLASS(Messages); F(Messages, label); F(Messages, n); F(Messages, withdrawn); F(Messages, begun);
    S(Station);
    F(Station, sender); F(Station, messages);
    S(Message);
    FIELD_CLASS(Message); F(Message, label);
}

static void reply_and_answer_lines(void) {
    S(Heard);
    F(Heard, time); F(Heard, wave); F(Heard, snr_db);
    S(ConnAck);
    F(ConnAck, session); F(ConnAck, snr_db); FIELD_CLASS(ConnAck); F(ConnAck, slot); F(ConnAck, cue);
    S(Ack);
    F(Ack, burst); F(Ack, bitmap); F(Ack, snr_db); F(Ack, want_turn); F(Ack, want_disc); F(Ack, stored); FIELD_CLASS(Ack); F(Ack, slot);
    S(LongAck);
    F(LongAck, want_turn); F(LongAck, want_disc); F(LongAck, stored);
    S(Reception);
    F(Reception, n); F(Reception, kind); F(Reception, flags); F(Reception, len);
    S(Turn);
    F(Turn, report);
    S(Frames);
    F(Frames, off); F(Frames, len); F(Frames, start); F(Frames, bits); F(Frames, n);
    S(Outgoing);
    F(Outgoing, wave); F(Outgoing, code); F(Outgoing, user); F(Outgoing, extra); F(Outgoing, cue); F(Outgoing, td_ease);
    F(Outgoing, number);
    F(Outgoing, frames);
    S(Burst);
    F(Burst, refusal); F(Burst, outgoing);
    S(Place);
    F(Place, refusal); F(Place, here); F(Place, start); F(Place, len);
    S(Logged);
    F(Logged, refusal); F(Logged, len);
    S(Listing);
    F(Listing, refusal); F(Listing, n); F(Listing, level); F(Listing, q);
    S(CardAnswer);
    F(CardAnswer, refusal); F(CardAnswer, stretched);
    S(Receiver);
    F(Receiver, first_missing);
    S(Received);
    F(Received, refusal); F(Received, payload); F(Received, handed); F(Received, wrong); F(Received, beyond);
}

int main(void) {
    profile_lines();
    record_lines();
    reply_and_answer_lines();
    printf("AREA_BYTES %d\n", VANITYCROW_AREA_BYTES);
    printf("MAX_SLOTS %d\n", VANITYCROW_MAX_SLOTS);
    printf("MAX_MESSAGES %d\n", VANITYCROW_MAX_MESSAGES);
    printf("ADIF_BYTES %d\n", VANITYCROW_ADIF_BYTES);
    printf("LAST_SECOND %u\n", VANITYCROW_LAST_SECOND);
    printf("PLACES %d\n", VANITYCROW_PLACES);
    return 0;
}
