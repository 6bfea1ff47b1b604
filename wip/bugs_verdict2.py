L, N, P, U, W, C = 'src/lib.rt', 'src/least.rt', 'src/points.rt', 'src/sums.rt', 'src/walk.rt', 'src/channels.rt'
V = 'verdict'
BUGS = [
 # the same meanings in a shape that the proofs' names still fit
 (V, 'at_uncounted_is_the_one_more', C, '        None\n', '        self.more\n'),
 (V, 'end_of_half', U, 'most = allowance;', 'most = allowance / 2;'),
 (V, 'halve_arms_swapped', N, '                high = middle;\n            } else {\n                low = middle;\n                point = failing;', '                low = middle;\n                point = failing;\n            } else {\n                high = middle;'),
 (V, 'judgeable_outside_is_fine', U, 'if !k.within(longest) {\n                    return false;', 'if !k.within(longest) {\n                    return true;'),
 (V, 'halve_low_at_0', N, 'let mut low = widest.longest() - 1;', 'let mut low = (widest.longest() - 1) / 2;'),
]
