L, E, F, C, S = 'src/lib.rt', 'src/entries.rt', 'src/fields.rt', 'src/cursor.rt', 'src/sections.rt'
P = 'plan'
TOO_LONG = '''        return Err(Fault::Malformed {
            section: 0,
            line: 0,
        });'''
NOT_ONE = '''        return Err(Fault::Malformed {
            section: 1,
            line: 0,
        });'''
NO_COUNT = '''    let Some(text) = lines.next() else {
        return Err(Fault::Malformed { section, line: 0 });
    };'''
BAD_COUNT = '''        None => Err(Fault::Malformed { section, line: 0 }),'''
NO_ENTRY = '''    let Some(text) = lines.next() else {
        return Err(Fault::Malformed { section, line });
    };'''
BAD_ENTRY = '''        None => Err(Fault::Malformed { section, line }),'''
TRAILING = '''        Some(_) => Err(Fault::Malformed {
            section: 3,
            line: calls.len() as u32 + 1,
        }),'''
SPACED = '''                    period: *period,
                    longest: *longest,
                    allowance: *allowance,
                }),
            }),
            ('B\''''
BUGS = [
 # read
 (P, 'read_16384_refused', L, 'text.len() > 16384', 'text.len() >= 16384'),
 (P, 'read_too_long_line_1', L, TOO_LONG, TOO_LONG.replace('line: 0', 'line: 1')),
 (P, 'read_too_long_no_memory', L, TOO_LONG, '        return Err(Fault::NoMemory);'),
 # plan_of
 (P, 'plan_count_0_taken', L, 'count(&mut lines, 1)? != 1', 'count(&mut lines, 1)? > 1'),
 (P, 'plan_count_named_line_1', L, NOT_ONE, NOT_ONE.replace('line: 0', 'line: 1')),
 (P, 'plan_count_no_memory', L, NOT_ONE, '        return Err(Fault::NoMemory);'),
 (P, 'plan_longest_line_0', L, 'entry(heap, &mut lines, 1, 1)?', 'entry(heap, &mut lines, 1, 0)?'),
 (P, 'plan_channels_section_3', L, 'section(heap, &mut lines, 2)?', 'section(heap, &mut lines, 3)?'),
 (P, 'plan_longest_clamped', L, 'longest: longest.slots,', 'longest: longest.slots.min(255),'),
 (P, 'plan_longest_default', L, 'longest: longest.slots,', 'longest: longest.slots.max(1),'),
 (P, 'plan_trailing_named_last', L, 'calls.len() as u32 + 1', 'calls.len() as u32'),
 (P, 'plan_trailing_section_2', L, TRAILING, TRAILING.replace('section: 3', 'section: 2')),
 (P, 'plan_trailing_no_memory', L, TRAILING, '        Some(_) => Err(Fault::NoMemory),'),
 (P, 'plan_trailing_taken', L, '        None => Ok(Plan {\n            longest: longest.slots,\n            channels,\n            calls,\n        }),\n' + TRAILING,
   '        _ => Ok(Plan {\n            longest: longest.slots,\n            channels,\n            calls,\n        }),'),
 (P, 'plan_trailing_blank_taken', L, TRAILING, '        Some([]) => Ok(Plan {\n            longest: longest.slots,\n            channels,\n            calls,\n        }),\n' + TRAILING),
 (P, 'plan_calls_dropped', L, '            channels,\n            calls,\n', '            channels,\n            calls: Vec::new(heap),\n'),
 (P, 'plan_at_once_no_memory', L, '    let mut lines = Lines { rest: text };\n', '    if text.len() == 100 {\n        return Err(Fault::NoMemory);\n    }\n    let mut lines = Lines { rest: text };\n'),
 # From
 (P, 'from_alloc_malformed', L, 'fn from(_e: AllocError) -> Fault {\n        Fault::NoMemory', 'fn from(_e: AllocError) -> Fault {\n        Fault::Malformed { section: 0, line: 0 }'),
 (P, 'from_refused_malformed', L, 'fn from(_e: Refused<T>) -> Fault {\n        Fault::NoMemory', 'fn from(_e: Refused<T>) -> Fault {\n        Fault::Malformed { section: 0, line: 0 }'),
 # Lines::next
 (P, 'next_keeps_line_end', C, '&text[end + 1..]', '&text[end..]'),
 (P, 'next_last_line_again', C, '            &[]\n', '            text\n'),
 (P, 'next_last_line_lost', C, 'if text.is_empty() {', 'if text.len() < 2 {'),
 (P, 'next_at_carriage_return', C, "find(text, b'\\n')", "find(text, b'\\r')"),
 (P, 'next_line_cut', C, 'Some(&text[0..end])', 'Some(&text[0..end / 2])'),
 # entries
 (P, 'mat_modulo', E, 'Some(n as u8)', 'Some((n % 128) as u8)'),
 (P, 'longest_letter', E, "('P', [slots])", "('L', [slots])"),
 (P, 'longest_more_numbers', E, "('P', [slots])", "('P', [slots, ..])"),
 (P, 'longest_one_less', E, 'slots: *slots', 'slots: (*slots).saturating_sub(1)'),
 (P, 'channel_spaced_allowance_period', E, SPACED, SPACED.replace('allowance: *allowance', 'allowance: *period')),
 (P, 'channel_bucket_swapped', E, "('B', [m, period, longest, depth, allowance])", "('B', [m, period, depth, longest, allowance])"),
 (P, 'channel_depth_1', E, 'depth: *depth,', 'depth: 1,'),
 (P, 'channel_mat_of_period', E, "('B', [m, period, longest, depth, allowance]) => Some(Channel {\n                mat: mat(*m)?", "('B', [m, period, longest, depth, allowance]) => Some(Channel {\n                mat: mat(*period)?"),
 (P, 'call_offer_swapped', E, "('O', [m, bytes])", "('O', [bytes, m])"),
 (P, 'call_bulk_as_ticks', E, "Some(Call::Bulk { bytes: *bytes })", "Some(Call::Ticks { count: *bytes })"),
 (P, 'call_ticks_one', E, 'Call::Ticks { count: *count }', 'Call::Ticks { count: (*count).min(5040) }'),
 (P, 'call_release_missed', E, "            ('R', [m]) => Some(Call::Release { mat: mat(*m)? }),\n", ''),
 (P, 'call_letters_swapped', E, "            ('K', [bytes]) => Some(Call::Bulk { bytes: *bytes }),\n            ('T', [count])", "            ('T', [bytes]) => Some(Call::Bulk { bytes: *bytes }),\n            ('K', [count])"),
 (P, 'parse_any_case', E, 'char::from(*letter)', 'char::from(letter.to_ascii_uppercase())'),
 (P, 'parse_fault_no_memory', E, '    let Some(items) = numbers(heap, tail)? else {\n        return Ok(None);\n    };', '    let Some(items) = numbers(heap, tail)? else {\n        return Err(AllocError);\n    };'),
 (P, 'parse_empty_no_memory', E, '    let [letter, tail @ ..] = text else {\n        return Ok(None);\n    };', '    let [letter, tail @ ..] = text else {\n        return Err(AllocError);\n    };'),
 (P, 'parse_always_none', E, 'Ok(E::pick(char::from(*letter), &items))', 'if items.len() > 4 {\n        return Ok(None);\n    }\n    Ok(E::pick(char::from(*letter), &items))'),
 # fields
 (P, 'find_one_further', F, 'return i;', 'return i + 1;'),
 (P, 'find_absent_is_0', F, '    bytes.len()\n', '    0\n'),
 (P, 'find_other_byte', F, 'if *x == b {', 'if *x >= b {'),
 (P, 'padded_plus_taken', F, "[b'+', ..] => true", "[b'+', ..] => false"),
 (P, 'padded_zero_itself', F, "[b'0', _, ..] => true", "[b'0', ..] => true"),
 (P, 'number_not_padded', F, 'if padded(field) {', 'if padded(field) && field.is_empty() {'),
 (P, 'number_empty_is_0', F, '    if padded(field) {\n        return None;', '    if field.is_empty() {\n        return Some(0);\n    }\n    if padded(field) {\n        return None;'),
 (P, 'number_overflow_is_most', F, 'text.parse::<u32>().ok()', 'Some(text.parse::<u32>().unwrap_or(4294967295))'),
 (P, 'numbers_tab_taken', F, "if *first != b' ' {", "if *first != b' ' && *first != b'\\t' {"),
 (P, 'numbers_rest_ignored', F, '        let Some(n) = number(&after[0..end]) else {\n            return Ok(None);', '        let Some(n) = number(&after[0..end]) else {\n            return Ok(Some(items));'),
 (P, 'numbers_turned', F, 'items.push(n)?;', 'items.insert(0, n)?;'),
 (P, 'numbers_at_most_4', F, 'items.push(n)?;', 'if items.len() < 4 {\n            items.push(n)?;\n        }'),
 (P, 'numbers_fault_no_memory', F, '        let Some(n) = number(&after[0..end]) else {\n            return Ok(None);', '        let Some(n) = number(&after[0..end]) else {\n            return Err(AllocError);'),
 (P, 'numbers_blank_no_memory', F, "        if *first != b' ' {\n            return Ok(None);", "        if *first != b' ' {\n            return Err(AllocError);"),
 # sections
 (P, 'count_absent_is_0', S, NO_COUNT, NO_COUNT.replace('Err(Fault::Malformed { section, line: 0 })', 'Ok(0)')),
 (P, 'count_absent_no_memory', S, NO_COUNT, NO_COUNT.replace('Fault::Malformed { section, line: 0 }', 'Fault::NoMemory')),
 (P, 'count_bad_named_1', S, BAD_COUNT, BAD_COUNT.replace('line: 0', 'line: 1')),
 (P, 'count_bad_no_memory', S, BAD_COUNT, '        None => Err(Fault::NoMemory),'),
 (P, 'count_one_more', S, 'Some(n) => Ok(n),', 'Some(n) => Ok(n.saturating_sub(1)),'),
 (P, 'entry_absent_line_0', S, NO_ENTRY, NO_ENTRY.replace('section, line }', 'section, line: 0 }')),
 (P, 'entry_absent_no_memory', S, NO_ENTRY, NO_ENTRY.replace('Fault::Malformed { section, line }', 'Fault::NoMemory')),
 (P, 'entry_bad_no_memory', S, BAD_ENTRY, '        None => Err(Fault::NoMemory),'),
 (P, 'section_lines_from_0', S, 'entry(heap, lines, number, k + 1)', 'entry(heap, lines, number, k)'),
 (P, 'section_number_2', S, 'entry(heap, lines, number, k + 1)', 'entry(heap, lines, 2, k + 1)'),
 (P, 'section_first_32', S, 'for k in 0..count {', 'for k in 0..count.min(32) {'),
 (P, 'section_one_dropped', S, 'items.push(entry(heap, lines, number, k + 1)?)?;', 'let x = entry(heap, lines, number, k + 1)?;\n        if k > 0 {\n            items.push(x)?;\n        }'),
 (P, 'section_33_no_memory', S, '    let mut items = Vec::new(heap);\n', '    if count > 32 {\n        return Err(Fault::NoMemory);\n    }\n    let mut items = Vec::new(heap);\n'),
]
