L, H = 'src/lib.rt', 'src/heap.rt'
P = 'pool'
BUGS = [
 # new
 (P, 'new_memory_swapped', L, '        Pool { places, count: 0 }', '        if places.len() > 1 {\n            places.swap(0, 1);\n        }\n        Pool { places, count: 0 }'),
 (P, 'new_all_taken', L, '        Pool { places, count: 0 }', '        let count = places.len();\n        Pool { places, count }'),
 (P, 'new_half_the_places', L, '        Pool { places, count: 0 }', '        let half = places.len() / 2;\n        Pool { places: &mut places[0..half], count: 0 }'),
 # len, is_empty, capacity, is_full
 (P, 'len_of_places', L, '-> usize\n        ensures { λ r. ⌜ r ≡ now (self .entry) .count ⌝ }\n    {\n        self.count', '-> usize\n        ensures { λ r. ⌜ r ≡ now (self .entry) .count ⌝ }\n    {\n        self.places.len()'),
 (P, 'empty_with_one', L, 'self.count == 0', 'self.count <= 1'),
 (P, 'empty_without_places', L, 'self.count == 0', 'self.places.is_empty()'),
 (P, 'capacity_of_count', L, '-> usize\n        ensures { λ r. ⌜ r ≡ capacity (now (self .entry)) ⌝ }\n    {\n        self.places.len()', '-> usize\n        ensures { λ r. ⌜ r ≡ capacity (now (self .entry)) ⌝ }\n    {\n        self.count'),
 (P, 'full_never', L, 'self.count == self.places.len()', 'self.count > self.places.len()'),
 # peek
 (P, 'peek_hides_the_only_one', L, '        if self.is_empty() {\n            return None;\n        }\n        Some(heap', '        if self.count <= 1 {\n            return None;\n        }\n        Some(heap'),
 (P, 'peek_last_place', L, 'Some(heap::first(self.places, self.count))', 'Some(self.places[self.count - 1])'),
 # put
 (P, 'put_refuses_last_place', L, '        if self.is_full() {', '        if self.places.len() - self.count <= 1 {'),
 (P, 'put_gives_back_another', L, 'return Err(element);', 'return match self.peek() {\n                Some(other) => Err(other),\n                None => Err(element),\n            };'),
 (P, 'put_forgets_to_count', L, 'self.count = count + 1;', 'self.count = count;'),
 (P, 'put_over_the_last', L, 'heap::insert(self.places, count, element);\n        self.count = count + 1;', 'let place = count.saturating_sub(1);\n        heap::insert(self.places, place, element);\n        self.count = place + 1;'),
 (P, 'put_only_counts', L, 'heap::insert(self.places, count, element);', 'let _ = element;'),
 (P, 'put_not_sifted', L, 'heap::insert(self.places, count, element);', 'self.places[count] = element;'),
 # take
 (P, 'take_leaves_the_only_one', L, '        if self.is_empty() {\n            return None;\n        }\n        let count', '        if self.count <= 1 {\n            return None;\n        }\n        let count'),
 (P, 'take_loses_the_last', L, 'let first = heap::remove_first(self.places, count);', 'let first = heap::first(self.places, count);'),
 (P, 'take_empties', L, 'self.count = count - 1;', 'self.count = 0;'),
 # heap
 (P, 'first_of_the_end', H, '    s[0]\n', '    s[count - 1]\n'),
 (P, 'insert_at_the_root', H, 's[count] = element;', 's[0] = element;'),
 (P, 'insert_not_raised', H, 'rise(&mut s[0..count + 1]);', 'if count > 0 {\n        rise(&mut s[0..count]);\n    }'),
 (P, 'insert_writes_beyond', H, '    s[count] = element;\n', '    s[count] = element;\n    let end = s.len() - 1;\n    s[end] = element;\n'),
 (P, 'remove_keeps_the_root', H, 's[0] = end;', 's[last] = end;'),
 (P, 'remove_wipes_the_freed_place', H, '    sink(&mut s[0..last]);\n    first\n', '    sink(&mut s[0..last]);\n    s[last] = first;\n    first\n'),
 (P, 'remove_gives_the_end', H, '    sink(&mut s[0..last]);\n    first\n', '    sink(&mut s[0..last]);\n    end\n'),
 (P, 'remove_does_not_sink', H, '    sink(&mut s[0..last]);\n', ''),
 (P, 'rise_other_way', H, '!mine.precedes(&over)', '!over.precedes(&mine)'),
 (P, 'rise_one_level', H, '        s.swap(up, i);\n        i = up;', '        s.swap(up, i);\n        i = 0;'),
 (P, 'rise_without_swap', H, '        s.swap(up, i);\n', '        s[up] = mine;\n'),
 (P, 'sink_other_way', H, '!under.precedes(&mine)', '!mine.precedes(&under)'),
 (P, 'sink_left_child_only', H, 'let child = first_child(s, i);', 'let child = i * 2 + 1;'),
 (P, 'sink_one_level', H, '        s.swap(i, child);\n        i = child;', '        s.swap(i, child);\n        i = s.len();'),
 (P, 'sink_copies', H, '        s.swap(i, child);\n', '        s[i] = under;\n'),
 (P, 'child_skips_the_last', H, 'if s.len() - left == 1 {', 'if s.len() - left <= 2 {'),
 (P, 'child_always_right', H, 'if one.precedes(&other) { left + 1 } else { left }', 'if one.precedes(&other) { left + 1 } else { left + 1 }'),
 (P, 'parent_near_root', H, '(i - 1) / 2', '(i - 1) / 4'),
 # allowed by design: which of two tied elements goes first
 (P, 'tie_child_right', H, 'if one.precedes(&other) { left + 1 } else { left }', 'if other.precedes(&one) { left } else { left + 1 }'),
]
