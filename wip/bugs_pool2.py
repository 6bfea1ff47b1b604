L, H = 'src/lib.rt', 'src/heap.rt'
P = 'pool'
BUGS = [
 # the same meanings in a shape that the proofs' names still fit
 (P, 'first_of_the_end_b', H, '    s[0]\n', '    let root = s[0];\n    let end = s[count - 1];\n    if root.precedes(&end) { end } else { root }\n'),
 (P, 'put_writes_beyond', L, 'self.count = count + 1;', 'self.count = count + 1;\n        let end = self.places.len() - 1;\n        self.places[end] = self.places[0];'),
 (P, 'take_wipes_the_freed_place', L, 'self.count = count - 1;', 'self.count = count - 1;\n        self.places[count - 1] = first;'),
 (P, 'take_wipes_where_two_are_left', L, 'self.count = count - 1;', 'self.count = count - 1;\n        if count < self.places.len() {\n            self.places[count] = first;\n        }'),
 (P, 'remove_sinks_half', H, 'sink(&mut s[0..last]);', 'sink(&mut s[0..last / 2]);'),
 (P, 'rise_swaps_with_itself', H, 's.swap(up, i);', 's.swap(i, i);'),
 (P, 'sink_swaps_with_itself', H, 's.swap(i, child);', 's.swap(child, child);'),
 (P, 'sink_left_child_only_b', H, 'let child = first_child(s, i);', 'let child = first_child(s, i);\n        let child = child - (child + 1) % 2;'),
 (P, 'insert_raised_alone', H, 'rise(&mut s[0..count + 1]);', 'rise(&mut s[count..count + 1]);'),
 # allowed by the order's own words: a tied element moves up past its equal
 (P, 'tie_rise_past', H, '!mine.precedes(&over)', 'over.precedes(&mine)'),
]
