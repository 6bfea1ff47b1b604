S, B, M, X, L = 'src/spaced.rt', 'src/bucket.rt', 'src/mixture.rt', 'src/examples.rt', 'src/lib.rt'
T = 'traffic'
CURVE = 'fn curve(&self, t: u32) -> u64 {\n        if t < self.allowance {'
RISE = 'fn next_rise(&self, t: u32) -> Option<u64> {\n        if t < self.allowance {'
REFUSE_S = 'u64::from(slot) < ready {\n            return false;'
REFUSE_B = 'room < *state {\n            return false;'
def le(s): return s.replace('t < self.allowance', 't <= self.allowance')
BUGS = [
 # spaced
 (T, 'spaced_within_longest_strict', S, 'self.longest <= p', 'self.longest < p'),
 (T, 'spaced_within_most_short', S, 'self.allowance <= 40320', 'self.allowance < 40320'),
 (T, 'spaced_within_no_least', S, '&& 1 <= self.longest', '&& 0 <= self.longest'),
 (T, 'spaced_allowance_other_field', S, 'fn allowance(&self) -> u32 {\n        self.allowance', 'fn allowance(&self) -> u32 {\n        self.period'),
 (T, 'spaced_longest_cut_at_period', S, 'fn longest(&self) -> u32 {\n        self.longest', 'fn longest(&self) -> u32 {\n        self.longest.min(self.period)'),
 (T, 'spaced_work_packets_not_slots', S, 'self.longest * FRAME / self.period', 'FRAME / self.period'),
 (T, 'spaced_burst_twice', S, 'fn burst(&self) -> u32 {\n        self.longest', 'fn burst(&self) -> u32 {\n        self.longest * 2'),
 (T, 'spaced_curve_starts_late', S, CURVE, le(CURVE)),
 (T, 'spaced_curve_of_period', S, 'u64::from(self.longest) * (u64', 'u64::from(self.period) * (u64'),
 (T, 'spaced_rise_at_present', S, RISE, le(RISE)),
 (T, 'spaced_no_rise_far_out', S, '        let steps = u64::from', '        if t > 45360 {\n            return None;\n        }\n        let steps = u64::from'),
 (T, 'spaced_redated_not', S, 'Spaced { allowance, ..self }', 'Spaced { allowance: self.allowance, ..self }'),
 (T, 'spaced_redated_clamped', S, 'Spaced { allowance, ..self }', 'Spaced { allowance: allowance.min(40320), ..self }'),
 (T, 'spaced_fresh_seen_one', S, 'fn fresh(&self) -> Option<u32> {\n        None', 'fn fresh(&self) -> Option<u32> {\n        Some(0)'),
 (T, 'spaced_step_empty_packet', S, 'length < 1 || ', ''),
 (T, 'spaced_step_longest_refused', S, 'self.longest < length', 'self.longest <= length'),
 (T, 'spaced_step_writes_on_refusal', S, REFUSE_S, 'u64::from(slot) < ready {\n            *state = Some(slot);\n            return false;'),
 (T, 'spaced_step_keeps_first_slot', S, '*state = Some(slot);', '*state = Some((*state).unwrap_or(slot));'),
 # bucket
 (T, 'bucket_within_depth_9', B, 'self.depth <= 8', 'self.depth <= 9'),
 (T, 'bucket_within_depth_0', B, '&& 1 <= self.depth', '&& 0 <= self.depth'),
 (T, 'bucket_allowance_longest', B, 'fn allowance(&self) -> u32 {\n        self.allowance', 'fn allowance(&self) -> u32 {\n        self.longest'),
 (T, 'bucket_longest_burst', B, 'fn longest(&self) -> u32 {\n        self.longest', 'fn longest(&self) -> u32 {\n        self.longest * self.depth'),
 (T, 'bucket_work_by_depth', B, 'self.longest * FRAME / self.period', 'self.depth * self.longest * FRAME / self.period'),
 (T, 'bucket_burst_one_less', B, 'self.depth * self.longest', '(self.depth - 1) * self.longest'),
 (T, 'bucket_curve_depth_1', B, '+ u64::from(self.depth))', '+ 1)'),
 (T, 'bucket_curve_starts_late', B, CURVE, le(CURVE)),
 (T, 'bucket_rise_at_present', B, RISE, le(RISE)),
 (T, 'bucket_redated_depth_1', B, 'Bucket { allowance, ..self }', 'Bucket { allowance, depth: 1, ..self }'),
 (T, 'bucket_fresh_period', B, 'fn fresh(&self) -> u64 {\n        0', 'fn fresh(&self) -> u64 {\n        u64::from(self.period)'),
 (T, 'bucket_step_room_strict', B, 'room < *state', 'room <= *state'),
 (T, 'bucket_step_credit_of_longest', B, '(*state).max(u64::from(slot)) + u64::from(self.period)', '(*state).max(u64::from(slot)) + u64::from(self.longest)'),
 (T, 'bucket_step_min', B, '(*state).max(u64::from(slot))', '(*state).min(u64::from(slot))'),
 (T, 'bucket_step_writes_on_refusal', B, REFUSE_B, 'room < *state {\n            *state = (*state).max(u64::from(slot));\n            return false;'),
 (T, 'bucket_step_overlong', B, '|| self.longest < length ', ''),
 # mixture
 (T, 'mixture_within_255', M, 'Mixture::First(k) => k.within(p)', 'Mixture::First(k) => k.within(255)'),
 (T, 'mixture_allowance_second_longest', M, 'Mixture::Second(l) => l.allowance()', 'Mixture::Second(l) => l.longest()'),
 (T, 'mixture_longest_first_allowance', M, 'Mixture::First(k) => k.longest()', 'Mixture::First(k) => k.allowance()'),
 (T, 'mixture_work_first_burst', M, 'Mixture::First(k) => k.work()', 'Mixture::First(k) => k.burst()'),
 (T, 'mixture_burst_second_work', M, 'Mixture::Second(l) => l.burst()', 'Mixture::Second(l) => l.work()'),
 (T, 'mixture_curve_a_slot_late', M, 'Mixture::Second(l) => l.curve(t)', 'Mixture::Second(l) => l.curve(t.saturating_sub(1))'),
 (T, 'mixture_no_rise_of_first', M, 'Mixture::First(k) => k.next_rise(t)', 'Mixture::First(_) => None'),
 (T, 'mixture_rise_skips_one', M, 'Mixture::Second(l) => l.next_rise(t)', 'Mixture::Second(l) => l.next_rise(t.saturating_add(1))'),
 (T, 'mixture_redated_not', M, 'Mixture::First(k) => Mixture::First(k.with_allowance(allowance))', 'Mixture::First(k) => Mixture::First(k)'),
 (T, 'mixture_fresh_stepped', M, 'Mixture::First(k) => MixtureState::OfFirst(k.fresh())', 'Mixture::First(k) => {\n                let mut s = k.fresh();\n                let _ = k.step(&mut s, 0, 1);\n                MixtureState::OfFirst(s)\n            }'),
 (T, 'mixture_step_arguments_swapped', M, 'k.step(s, slot, length)', 'k.step(s, length, slot)'),
 (T, 'mixture_step_answer_lost', M, 'l.step(u, slot, length),', '{\n                let _ = l.step(u, slot, length);\n                true\n            }'),
 (T, 'mixture_step_twice', M, 'k.step(s, slot, length)', 'k.step(s, slot, length) && k.step(s, slot, length)'),
 # the rest
 (T, 'frame_doubled', L, 'FRAME: u32 = 5040', 'FRAME: u32 = 10080'),
 (T, 'nested_answers_swapped', X, '(first, early, second)', '(first, second, early)'),
 (T, 'nested_shorter_period', X, 'period: 10,', 'period: 9,'),
]
