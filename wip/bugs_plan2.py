L, E, F, C, S = 'src/lib.rt', 'src/entries.rt', 'src/fields.rt', 'src/cursor.rt', 'src/sections.rt'
P = 'plan'
BUGS = [
 # the same meanings in a shape that the proofs' names still fit
 (P, 'plan_count_0_taken_b', L, 'count(&mut lines, 1)? != 1', 'count(&mut lines, 1)?.max(1) != 1'),
 (P, 'number_padded_is_0', F, '    if padded(field) {\n        return None;', '    if padded(field) {\n        return Some(0);'),
 (P, 'number_not_utf8_is_0', F, 'from_utf8(field) else {\n        return None;', 'from_utf8(field) else {\n        return Some(0);'),
 (P, 'numbers_no_blank_ends', F, "        if *first != b' ' {\n            return Ok(None);", "        if *first != b' ' {\n            return Ok(Some(items));"),
 (P, 'numbers_halved', F, 'items.push(n)?;', 'items.push(n / 2)?;'),
 # what the contracts leave open: a number or an entry was read, and the answer says that there is no memory for it
 (P, 'left_open_fifth_number_no_memory', F, '        items.push(n)?;', '        if items.len() == 4 {\n            return Err(AllocError);\n        }\n        items.push(n)?;'),
 (P, 'left_open_entry_33_no_memory', S, '        items.push(entry(heap, lines, number, k + 1)?)?;', '        let x = entry(heap, lines, number, k + 1)?;\n        if k >= 32 {\n            return Err(Fault::NoMemory);\n        }\n        items.push(x)?;'),
]
