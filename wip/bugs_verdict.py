L, N, P, U, W, C = 'src/lib.rt', 'src/least.rt', 'src/points.rt', 'src/sums.rt', 'src/walk.rt', 'src/channels.rt'
V = 'verdict'
JUDGED = '''        if works > FRAME {
            return Verdict::Overloaded;
        }
        let end = self.end_of_points(longest);
        match self.walk(longest, end) {
            (0, count) => Verdict::Granted { count },
            (point, count) => Verdict::Late { point, count },
        }'''
LATE_FIRST = '''        let end = self.end_of_points(longest);
        match self.walk(longest, end) {
            (0, count) => if works > FRAME {
                Verdict::Overloaded
            } else {
                Verdict::Granted { count }
            },
            (point, count) => Verdict::Late { point, count },
        }'''
STRETCH_OUT = '''return Err(Verdict::OutsideLimits);
        }
        let (works, bursts)'''
LEAST_OUT = '''            return Err(Verdict::OutsideLimits);'''
BUGS = [
 # judge
 (V, 'judge_late_before_overloaded', L, JUDGED, LATE_FIRST),
 (V, 'judge_point_and_count_swapped', L, 'Verdict::Late { point, count }', 'Verdict::Late { point: count, count: point }'),
 (V, 'judge_count_lost', L, 'Verdict::Granted { count }', 'Verdict::Granted { count: count / 2 }'),
 (V, 'judge_a_slot_overloaded', L, 'works > FRAME {', 'works > FRAME + 1 {'),
 (V, 'judge_looks_a_frame_far', L, 'let end = self.end_of_points(longest);', 'let end = self.end_of_points(longest).min(FRAME);'),
 (V, 'judge_bursts_for_works', L, 'let (works, _) = self.loads(longest);', 'let (_, works) = self.loads(longest);'),
 (V, 'judge_overloaded_as_outside', L, 'return Verdict::Overloaded;', 'return Verdict::OutsideLimits;'),
 # stretch
 (V, 'stretch_blocking_of_p', L, 'u64::from(longest - 1)', 'u64::from(longest)'),
 (V, 'stretch_without_bursts', L, '+ u64::from(bursts))', '+ u64::from(works))'),
 (V, 'stretch_outside_as_overloaded', L, STRETCH_OUT, STRETCH_OUT.replace('OutsideLimits', 'Overloaded')),
 (V, 'stretch_one_too_high', L, 'Ok((slots + (spare - 1)) / spare)', 'Ok((slots + (spare - 1)) / spare + 1)'),
 (V, 'stretch_refuses_nearly_full', L, 'works >= FRAME', 'works >= FRAME - 1'),
 # with, probe, halve, least
 (V, 'with_drops_the_marks', N, 'counted: self.counted,', 'counted: &[],'),
 (V, 'with_drops_the_rows', N, 'rows: self.rows,', 'rows: &[],'),
 (V, 'probe_count_for_point', N, 'Verdict::Late { point, .. } => point', 'Verdict::Late { count, .. } => count'),
 (V, 'halve_longest_not_tried', N, 'let mut low = widest.longest() - 1;', 'let mut low = widest.longest();'),
 (V, 'halve_stops_at_two', N, 'while high - low > 1 {', 'while high - low > 2 {'),
 (V, 'halve_point_stale', N, '                point = failing;\n', ''),
 (V, 'halve_point_starts_at_1', N, 'let mut point = 0;', 'let mut point = 1;'),
 (V, 'halve_high_below_middle', N, 'high = middle;', 'high = middle - 1;'),
 (V, 'halve_turned', N, 'if failing == 0 {', 'if failing != 0 {'),
 (V, 'least_looks_at_own_allowance', N, 'let widest = new.with_allowance(MOST);', 'let widest = new;'),
 (V, 'least_most_short', N, 'MOST: u32 = 40320', 'MOST: u32 = 40319'),
 (V, 'least_all_refusals_outside', N, 'refused => Err(refused),', '_ => Err(Verdict::OutsideLimits),'),
 (V, 'least_judges_without_new', N, 'match self.with(widest.with_allowance(MOST)).judge(longest)', 'match self.judge(longest)'),
 # len, at
 (V, 'len_without_the_one_more', C, 'self.rows.len() + 1', 'self.rows.len()'),
 (V, 'at_counts_all_rows', C, '&& i < self.counted.len() && self.counted[i]', ''),
 (V, 'at_past_the_marks_counts', C, 'i < self.counted.len() && self.counted[i]', '(i >= self.counted.len() || self.counted[i])'),
 (V, 'at_first_row', C, 'rows[i].kind', 'rows[i / 2].kind'),
 (V, 'at_forgets_the_one_more', C, 'return self.more;', 'return None;'),
 (V, 'at_marks_turned', C, '&& self.counted[i]', '&& !self.counted[i]'),
 # points
 (V, 'precedes_later', P, 'self.t < other.t ||', 'self.t > other.t ||'),
 (V, 'precedes_row_or_equal', P, 'self.row < other.row', 'self.row <= other.row'),
 (V, 'precedes_without_row', P, ' || self.t == other.t && self.row < other.row', ''),
 # sums
 (V, 'judgeable_31_rows', U, 'self.rows.len() > 32', 'self.rows.len() >= 32'),
 (V, 'judgeable_longest_1_refused', U, 'longest < 1 ||', 'longest < 2 ||'),
 (V, 'judgeable_last_not_looked_at', U, '            if let Some(k) = self.at(i) {\n                if !k.within', '            if let Some(k) = self.at(i / 2) {\n                if !k.within'),
 (V, 'judgeable_within_255', U, 'k.within(longest)', 'k.within(255)'),
 (V, 'judgeable_first_decides', U, '                if !k.within(longest) {\n                    return false;\n                }', '                return k.within(longest);'),
 (V, 'loads_last_only', U, 'works += k.work();', 'works = k.work();'),
 (V, 'loads_of_each_other', U, 'works += k.work();\n                bursts += k.burst();', 'works += k.burst();\n                bursts += k.work();'),
 (V, 'loads_swapped', U, '        (works, bursts)\n', '        (bursts, works)\n'),
 (V, 'end_of_the_last', U, 'if most < allowance {', 'if 0 < allowance {'),
 (V, 'end_by_longest', U, 'let allowance = k.allowance();', 'let allowance = k.longest();'),
 (V, 'end_least_allowance', U, 'if most < allowance {', 'if most == 0 || allowance < most {'),
 # walk
 (V, 'add_nothing', W, 'let _ = points.put(point);', 'let _ = point;'),
 (V, 'add_twice', W, 'let _ = points.put(point);', 'let _ = points.put(point);\n        let _ = points.put(point);'),
 (V, 'replace_takes_two', W, '    let _ = points.take();\n', '    let _ = points.take();\n    let _ = points.take();\n'),
 (V, 'replace_takes_none', W, '    let _ = points.take();\n    add(points, next);', '    if points.is_full() {\n        let _ = points.take();\n    }\n    add(points, next);'),
 (V, 'curve_at_a_slot_early', W, 'Some(k) => k.curve(t),', 'Some(k) => k.curve(t.saturating_sub(1)),'),
 (V, 'curve_at_of_nothing', W, 'None => 0,\n        }\n    }\n\n    // The row', 'None => 1,\n        }\n    }\n\n    // The row'),
 (V, 'point_after_level_0', W, '            row,\n            level,', '            row,\n            level: 0,'),
 (V, 'point_after_row_0', W, '            row,\n            level,', '            row: 0,\n            level,'),
 (V, 'point_after_from_before', W, 'k.next_rise(t)?', 'k.next_rise(t.saturating_sub(1))?'),
 (V, 'point_after_end_taken', W, 'next >= u64::from(end)', 'next > u64::from(end)'),
 (V, 'fill_from_1', W, 'self.point_after(i, 0, 0, longest, end)', 'self.point_after(i, 1, 0, longest, end)'),
 (V, 'fill_first_row_twice', W, 'self.point_after(i, 0, 0, longest, end)', 'self.point_after(i / 2, 0, 0, longest, end)'),
 (V, 'advance_level_added_whole', W, 'Some(sum + (level - first.level))', 'Some(sum + level)'),
 (V, 'advance_sum_stale', W, 'Some(sum + (level - first.level))', 'Some(sum + (level - level))'),
 (V, 'advance_level_stale', W, 'self.point_after(first.row, t, level, longest, end)', 'self.point_after(first.row, t, first.level, longest, end)'),
 (V, 'advance_drops_the_row', W, 'replace(points, next);', 'replace(points, None);\n        let _ = next;'),
 (V, 'walk_strict', W, 'u64::from(t) < sum + u64::from(longest - 1)', 'u64::from(t) <= sum + u64::from(longest - 1)'),
 (V, 'walk_sum_stale', W, '                sum = more;\n', '                sum = more.min(sum);\n'),
 (V, 'walk_count_without_failing', W, "break 'points (t, count);", "break 'points (t, count - 1);"),
 (V, 'walk_all_fit_uncounted', W, "break 'points (0, count)", "break 'points (0, 0)"),
 (V, 'walk_first_only', W, "break 'points (t, count);\n            }", "break 'points (t, count);\n            }\n            if count > 4096 {\n                break 'points (0, count);\n            }"),
 (V, 'walk_blocking_before_rows', W, "if u64::from(t) < sum + u64::from(longest - 1) {", "if u64::from(t) + u64::from(longest - 1) < sum {"),
]
