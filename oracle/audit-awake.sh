#!/bin/sh
# Shows that the audit is awake: each edit below is made on a scratch copy of
# the original, and the audit must catch it. The copy lives in a temporary
# folder; the sources themselves are only read.
#
#     oracle/audit-awake.sh [NAME..]     all edits, or those named
. "$(dirname "$0")/edited.sh"

# edit NAME FILE SED: the audit must fail on the original so edited.
edit() {
    asked "$1" || return 0
    if ! build "$1" "$2" "$3"; then
        missed=$((missed + 1))
    elif "$scratch/target/release/oracle" audit 7 1500 80 >"$scratch/out" 2>"$scratch/err"; then
        echo "$1: NOT CAUGHT"
        missed=$((missed + 1))
    elif grep -q '^# violation: ' "$scratch/out"; then
        echo "$1: $(grep -m 1 '^# violation: ' "$scratch/out" | cut -c 14-120)"
        caught=$((caught + 1))
    else
        echo "$1: the audit ended without a violation: $(cat "$scratch/err")" >&2
        missed=$((missed + 1))
    fi
}

# Acknowledging.
edit bits-inverted sender.rs 's/bitmap >> i & 1 == 1/bitmap >> i \& 1 == 0/'
edit acked-stays sender.rs 's/self.inflight.remove(&s.off)/self.inflight.get(\&s.off)/'
edit acked-count sender.rs 's/self.stats.bytes_acked += p.len() as u64/self.stats.bytes_acked += 1/'
edit all-is-six sender.rs 's/if all { u64::MAX }/if false { u64::MAX }/'
edit all-is-62 sender.rs 's/u64::from(bitmap) == TINY_ALL/u64::from(bitmap) >= TINY_ALL - 1/'
edit turn-acks sender.rs 's/self.burst_id.wrapping_add(1) & 3, 0,/self.burst_id, u64::MAX,/'
edit unmatched-acks gear.rs 's/if burst == self.burst_id {/if true {/'
edit unmatched-increments gear.rs 's/if !any_fresh && burst == self.burst_id {/if !any_fresh {/'
edit long-bitmap frame.rs 's/b\[1..9\]/b[2..10]/'
edit long-number frame.rs 's/burst: b\[0\] & 3/burst: b[0] \& 1/'

# Pieces.
edit split-offset sender.rs 's/k + (i \* max_payload) as u32/k + i as u32/'
edit split-never sender.rs 's/v.len() > max_payload)/v.len() > 10 * max_payload)/'
edit merge-loses sender.rs 's/self.inflight.get_mut(&k).unwrap().extend(tail);/drop(tail);/'
edit merge-apart sender.rs 's/k.wrapping_add(len as u32) != n || //'
edit merge-held sender.rs 's/held.contains(&n) || //'
edit merge-into-held sender.rs 's/if !held.contains(&k) {/if true {/'
edit merge-too-long sender.rs 's/self.inflight\[&n\].len() > max {/self.inflight[\&n].len() > max + 1 {/'
edit offset-skips sender.rs 's/self.next_offset.wrapping_add(n as u32)/self.next_offset.wrapping_add(n as u32 + 1)/'
edit queue-doubles sender.rs 's/self.out.drain(..n).collect()/self.out.iter().take(n).copied().collect()/'
edit queue-backwards sender.rs 's/self.out.drain(..n)/self.out.drain(self.out.len() - n..)/'
edit oldest-skipped sender.rs 's/\.take(room)/.skip(1).take(room)/'
edit empty-bursts sender.rs 's/room = room.max(1);//'

# Frames.
edit payload-altered sender.rs 's/f.payload = self.inflight\[&off\].clone();/&f.payload[0] ^= 1;/'
edit payload-253 frame.rs 's/(size - HEADER - CRC).min(255)/(size - HEADER - CRC).min(253)/'
edit check-sum frame.rs 's/0xEDB8_8320/0xEDB8_8322/'
edit offset-order frame.rs 's/self.field.to_le_bytes()\[..3\]/self.field.to_be_bytes()[1..]/'
edit fill frame.rs 's/b.resize(size - CRC, 0)/b.resize(size - CRC, 1)/'

# The allowance.
edit room-too-large sender.rs 's/cue) <= max_s$/cue) <= 1.5 * max_s/'
edit stretch-always sender.rs 's/let parity_s = if self.cfg.harq_stretch {/let parity_s = if true {/'
edit cue-not-counted gear.rs 's/let c = if cue {/let c = if false {/'
edit burst-uncapped gear.rs 's/self.burst_s.min(self.clean_burst_s(level))/self.burst_s/'
edit short-frames sender.rs 's/FrameSize::Short => TINY_ACK_FRAMES,/FrameSize::Short => MAX_FRAMES,/'

# Held pieces.
edit held-forever sender.rs 's/s.held < harq::H_MAX/s.held < usize::MAX/'
edit held-bits sender.rs 's/(off, h + bits, from, bits)/(off, h, from, bits)/'
edit held-stale sender.rs '/let keep = /,/self.peer_wave/s/self.at_peer.clear();//'
edit held-kept sender.rs '/if parity.is_empty() {/,/}/s/self.at_peer.clear();//'
edit rest-wrong sender.rs 's/self.at_peer\[parity.len()..\]/self.at_peer[..parity.len()]/'
edit slots-uncounted sender.rs 's/&& stored + room < harq::MAX_SLOTS//'

# Numbers and the gear's record.
edit number-range sender.rs 's/(self.burst_id + 1) & 3/(self.burst_id + 1) \& 7/'
edit number-heard sender.rs 's/if Some(self.burst_id) == self.peer_heard {/if false {/'
edit share-range gear.rs 's/SUCCESS_WEIGHT: f32 = 0.3/SUCCESS_WEIGHT: f32 = 1.5/'
edit hold-uncapped gear.rs 's/\.min(self.cfg.fail_hold_max_s)/.min(1e300)/'
edit burst-grows gear.rs 's/(self.burst_s \* 2.0)\.min(/(self.burst_s * 2.0).max(/'
edit four-reports gear.rs 's/self.snr_reports.len() > 3/self.snr_reports.len() > 4/'

# What a far station cannot force.
edit window-small sender.rs 's/in_flight < WINDOW_BYTES/in_flight < WINDOW_BYTES \/ 64/'
edit loss-held-long gear.rs 's/max(now + self.cfg.loss_hold_s)/max(now + self.cfg.fail_hold_max_s + self.cfg.loss_hold_s)/'
edit hold-adds-up gear.rs 's/self.blocked_until\[at\].max(now + hold)/self.blocked_until[at].max(now) + hold/'
edit connect-holds sender.rs 's/self.peer_class = class;/&self.blocked_until[16] = now + self.cfg.fail_hold_max_s;/'

finish
