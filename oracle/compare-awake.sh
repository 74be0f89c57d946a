#!/bin/sh
# Shows that the comparison is awake: each edit below is made on a scratch copy
# of the original, and `oracle compare` of the edited one with the original
# must find a difference. The sources themselves are only read.
#
#     oracle/compare-awake.sh [NAME..]     all edits, or those named
. "$(dirname "$0")/edited.sh"

"$here/run" transcript /dev/null >/dev/null

# reads NAME BINARY: a program that writes the transcript of what it reads.
reads() {
    printf '#!/bin/sh\nexec "%s" transcript -\n' "$2" >"$scratch/$1.run"
    chmod +x "$scratch/$1.run"
}
reads edited "$scratch/target/release/oracle"
reads original "${CARGO_TARGET_DIR:-$here/target}/release/oracle"

# finds NAME RUN PROGRAM: RUN's comparison with PROGRAM must find a difference within a minute.
finds() {
    if "$2" compare "$3" 60 7 >"$scratch/out" 2>"$scratch/err"; then
        echo "$1: NOT FOUND"
        missed=$((missed + 1))
    elif grep -q '^# difference' "$scratch/out"; then
        echo "$1: $(tail -n 1 "$scratch/err")"
        caught=$((caught + 1))
    else
        echo "$1: the comparison ended without a difference: $(cat "$scratch/err")" >&2
        missed=$((missed + 1))
    fi
}

# edit NAME FILE SED: the comparison must find the edit.
edit() {
    asked "$1" || return 0
    if build "$1" "$2" "$3"; then
        finds "$1" "$here/run" "$scratch/edited.run"
    else
        missed=$((missed + 1))
    fi
}

# Connecting.
edit start-below-target sender.rs '0,/\.min(self.target)/s/\.min(self.target)//'
edit start-pinned sender.rs 's/None => FLOOR,/None => self.usable_below(FLOOR, now),/'

# Replies.
edit slot-kept sender.rs '0,/Awaiting::Ack,/!{0,/self.peer_slot = slot;/s/self.peer_slot = slot;//;}'
edit unasked-number sender.rs '/Unasked/,/They want/s/self.peer_heard = Some(burst);//'
edit unasked-disc sender.rs '/for f in frames/,/continue;/s/self.peer_wants_disc = .*//'
edit turn-report sender.rs 's/snr_db.unwrap_or(inc.snr_db)/snr_db.unwrap_or(0.0)/'
edit turn-burst sender.rs 's/self.burst_s = self.cfg.max_burst_s;//'
edit turn-level sender.rs 's/self.level = self.level.min(top_level_in(inc.wave));//'
edit long-effective sender.rs 's/Some(r) if self.cfg.eff_snr => r.eff_snr_db/Some(r) => r.eff_snr_db/'
edit long-class sender.rs 's/a.report.map(|r| r.class).unwrap_or_default()/a.report.map_or(self.peer_class, |r| r.class)/'
edit long-doppler sender.rs 's/a.report.map_or(f32::NAN,/a.report.map_or(0.0,/'
edit report-slot report.rs 's/3 => 0,/3 => 3,/'
edit report-db frame.rs 's/q as f32 - 24.0/q as f32 - 23.0/'

# Held pieces and the burst.
edit held-short sender.rs 's/ && LADDER\[at\].frame == FrameSize::Long;/;/'
edit held-wave sender.rs 's/self.peer_wave = LADDER\[at\].wave;//'
edit held-any-wave sender.rs 's/ && lv.wave == self.peer_wave {/ {/'
edit held-at-limit sender.rs 's/s.held < harq::H_MAX/s.held <= harq::H_MAX/'
edit held-below-limit sender.rs 's/s.held < harq::H_MAX/s.held + 1 < harq::H_MAX/'
edit unmatched-rest gear.rs 's/let mut got = 0;/let mut got = 0; if burst != self.burst_id { self.at_peer_rest.clear(); }/'
edit increments-long sender.rs 's/^                max_s$/                self.cfg.max_burst_long_s/'
edit partial-most sender.rs 's/(parity.len() > harq::PARTIAL_MAX || too_big/(too_big/'
edit merge-skips sender.rs 's/i = j;/i = j + 1;/'
edit max-bits sender.rs 's/ <= max_bits$/ < max_bits/'
edit slice-slot sender.rs 's/self.cfg.slice_slots && lv.wave/lv.wave/'
edit check-bits sender.rs 's/self.burst_id | hq << 2/self.burst_id/'
edit cue-field sender.rs 's/let field = harq::partial_field(parity.len(), stored);/let field = 0;/'

# The gear.
edit channel-fail-db gear.rs 's/CHANNEL_FAIL_DB: f32 = 4.0/CHANNEL_FAIL_DB: f32 = 4.5/'
edit success-weight gear.rs 's/SUCCESS_WEIGHT: f32 = 0.3/SUCCESS_WEIGHT: f32 = 0.31/'
edit memory gear.rs 's/GOODPUT_MEMORY_S: f64 = 180.0/GOODPUT_MEMORY_S: f64 = 181.0/'
edit switch gear.rs 's/GOODPUT_SWITCH: f64 = 1.15/GOODPUT_SWITCH: f64 = 1.16/'
edit reach gear.rs 's/GOODPUT_REACH_DB: f32 = 2.0/GOODPUT_REACH_DB: f32 = 1.5/'
edit guards gear.rs 's/Wave::Ofdm(Guard::Long) => 10.0/Wave::Ofdm(Guard::Long) => 4.0/'
edit increments-burst gear.rs 's/if self.level != at {/if true {/'
edit increments-count gear.rs 's/s.held == s.bits || !any_fresh;/s.held > 0 || !any_fresh;/'
edit whole-loss gear.rs 's/loss > 0.99/loss > 0.9/'
edit part-loss gear.rs 's/loss > 0.3/loss > 0.4/'
edit clean-keeps-fails gear.rs '0,/self.fails\[at\] = 0;/s/self.fails\[at\] = 0;//'
edit channel-at-limit gear.rs '0,/snr_db >= self.threshold(at)/s/snr_db >= self.threshold(at)/snr_db > self.threshold(at)/'
edit channel-hold-at-limit gear.rs 's/&& snr_db >= self.threshold(at)/\&\& snr_db > self.threshold(at)/'
edit other-holds gear.rs 's/!self.hold_all\[k\] && LADDER\[k\].wave != /LADDER[k].wave != /'
edit other-waves gear.rs 's/ && LADDER\[k\].wave != LADDER\[at\].wave$//'
edit hold-reach gear.rs 's/self.hold_all\[at\] = !channel;/self.hold_all[at] = true;/'
edit hold-shortened gear.rs 's/self.blocked_until\[at\].max(now + hold)/now + hold/'
edit loss-hold-shortened gear.rs 's/self.blocked_until\[at\].max(now + self.cfg.loss_hold_s)/now + self.cfg.loss_hold_s/'
edit two-down gear.rs 's/self.step_down(at, 2)/self.step_down(at, 1)/'
edit halfway gear.rs 's/div_ceil(2).max(2)/div_ceil(2).max(3)/'
edit far-target gear.rs 's/self.target - at >= 3/self.target - at >= 4/'
edit failed-between gear.rs 's/(one..=far).all(/(one..=far).any(/'
edit family-target gear.rs 's/if self.family_ok(at) { next } else { self.target }/next/'
edit memory-doubles gear.rs 's/self.fails\[l\].min(4)/self.fails[l].min(5)/'
edit prior gear.rs 's/(room + 0.5)/(room + 0.4)/'
edit equal-worths gear.rs 's/^        (FLOOR..=top)$/        (FLOOR..=top).rev()/'
edit channel-guards gear.rs 's/k > at && guard_ms(w) <= guard_ms/k > at \&\& guard_ms(w) < guard_ms/'
edit channel-share gear.rs 's/p \* (1.0 - SUCCESS_WEIGHT)/p * 0.5/'
edit aim-median gear.rs 's/snr_db.min(v\[1\])/v[1]/'
edit whole-frames gear.rs 's/\.floor().max(1.0)/.round().max(1.0)/'
edit least-frame gear.rs 's/frame.max(1e-3)/frame.max(1e-2)/'
edit least-burst gear.rs 's/burst.max(1e-3)/burst.max(0.5)/'
edit keep-at-target gear.rs 's/at > self.target {/at >= self.target {/'
edit hold-guards gear.rs 's/guard_ms(LADDER\[l\].wave) > guard_ms/guard_ms(LADDER[l].wave) >= guard_ms/'
edit hold-at-end gear.rs 's/now >= self.blocked_until\[k\]/now > self.blocked_until[k]/'
edit climb-rates gear.rs 's/LADDER\[k\].rate != fec::Rate::R1_4/LADDER[k].rate == fec::Rate::R1_4/'
edit climb-from gear.rs 's/self.target >= self.cfg.skip_slices_from/self.target > self.cfg.skip_slices_from/'
edit climb-target gear.rs 's/ && !step(self.target);/;/'
edit cue-at-limit gear.rs 's/a < self.cfg.cue_below_db/a <= self.cfg.cue_below_db/'
edit cue-guards gear.rs 's/Guard::Normal | Guard::Long/Guard::Normal/'
edit level-at-limit gear.rs 's/snr_db + self.air_db(l) >= th\[l\]/snr_db + self.air_db(l) > th[l]/'
edit lowest-long gear.rs 's/=> to.max(l),/=> to,/'
edit family-long gear.rs 's/Wave::Ofdm(Guard::Long) => !c.doppler,/Wave::Ofdm(Guard::Long) => true,/'
edit turnarounds gear.rs 's/2.0 \* self.cfg.turnaround_s/1.0 * self.cfg.turnaround_s/'
edit steady-at-limit gear.rs 's/abs() <= self.cfg.burst_steady_db/abs() < self.cfg.burst_steady_db/'
edit climb-margin gear.rs 's/self.cfg.thresholds_db\[k\] + self.cfg.margin_db/self.cfg.thresholds_db[k]/'
edit climb-effective gear.rs 's/self.cfg.thresholds_db\[k\] +/self.cfg.eff_thresholds_db[k] +/'
edit climb-at-limit gear.rs 's/snr_db < next_entry - d/snr_db <= next_entry - d/'
edit adapt-level gear.rs 's/loss == 0.0 && self.level == at && steady/loss == 0.0 \&\& steady/'
edit adapt-doubles gear.rs 's/self.burst_s \* 2.0/self.burst_s * 1.9/'
edit adapt-last gear.rs 's/self.last_report_db = Some(snr_db);//'
edit power-table gear.rs 's/crate::level::AIR_MEAN_TD_DB/crate::level::AIR_MEAN_DB/'

# The other way round: with frames of all sizes the edited original of run-edited must differ from the original.
! asked payload-255 || finds payload-255 "$here/run-edited" "$scratch/original.run"

finish
