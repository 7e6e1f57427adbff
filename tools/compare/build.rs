//! Makes the broken engines of the tests.

use std::{env, fs, path::Path};

/// A mistake: its name and, for each place that it changes, a piece of the
/// engine's text and what stands there instead.
type Flaw = (&'static str, &'static [(&'static str, &'static str)]);

/// Mistakes put into the bench one at a time; the tests ask that the comparison
/// finds each of them.
const BENCH_FLAWS: &[Flaw] = &[
    // "Raising the node before arriving above it. A failure then leaves a count
    // behind."
    (
        "count_left_behind",
        &[(
            "self.read(thread, node, self.climbed(route, node, found))",
            "if node > 0 && found.count() == 0 { self.words[usize::from(node)] = found.raised(Part::Direct); }
            self.read(thread, node, self.climbed(route, node, found))",
        )],
    ),
    // "Refusing a late arrival at a closed root with a count above 0."
    (
        "late_arrival_refused",
        &[("if node == 0 && found == EMPTY_CLOSED {", "if node == 0 && found.closed() {")],
    ),
    // "Reading a node again before the first swap on the way down."
    (
        "reads_before_the_swap",
        &[
            ("    // Departure.", "    ReadDown { route: u8, node: u8 },"),
            (
                "return Phase::RaiseDown { route, node: below, seen: EMPTY_OPEN };",
                "return Phase::ReadDown { route, node: below };",
            ),
            (
                "Phase::RaiseDown { route, node, seen } => {",
                "Phase::ReadDown { route, node } => {
                    let seen = self.words[usize::from(node)];
                    self.read(thread, node, Phase::RaiseDown { route, node, seen })
                }
                Phase::RaiseDown { route, node, seen } => {",
            ),
        ],
    ),
    // "Counting a step held up at the mutex as a failed swap."
    ("held_up_is_failure", &[("return HELD_UP;", "self.threads[thread].failures += 1; return HELD_UP;")]),
    // "Closing after a hand-over to readers because the leaving writer is still
    // counted as queued."
    ("hand_over_closes", &[("closed: self.queue.has_writer()", "closed: true")]),
    ("hand_over_opens", &[("closed: self.queue.has_writer()", "closed: false")]),
    (
        "nothing_owed",
        &[(
            "Phase::DepartRead { node: self.parent(node), made: Departure::Owed { route, node } }",
            "self.arrived(route, node)",
        )],
    ),
    // A failed swap returns to a further read.
    ("direct_swap_reads_again", &[("|_, found| Lock::looked(0, found)", "|_, _| Phase::Look { route: 0 }")]),
    ("way_up_reads_again", &[("lock.climbed(route, node, found)", "Phase::ReadUp { route, node }")]),
    (
        "way_down_reads_again",
        &[
            ("    // Departure.", "    ReadDown { route: u8, node: u8 },"),
            ("Phase::RaiseDown { route, node, seen: found }", "Phase::ReadDown { route, node }"),
            (
                "Phase::RaiseDown { route, node, seen } => {",
                "Phase::ReadDown { route, node } => {
                    let seen = self.words[usize::from(node)];
                    self.read(thread, node, Phase::RaiseDown { route, node, seen })
                }
                Phase::RaiseDown { route, node, seen } => {",
            ),
        ],
    ),
    (
        "departure_reads_again",
        &[("Phase::DepartSwap { node, seen: found, made }", "Phase::DepartRead { node, made }")],
    ),
    (
        "writer_reads_again",
        &[("|_: &Lock, found| Lock::writer_looked(found)", "|_: &Lock, _| Phase::WriterLook")],
    ),
    ("closing_reads_again", &[("|_, found| Lock::writer_found(found)", "|_, _| Phase::WriterReadRoot")]),
    // The word found is lost: the swap is tried again from the old word.
    (
        "direct_swap_loses_the_word",
        &[("|_, found| Lock::looked(0, found)", "|_, _| Phase::RaiseRoot { seen }")],
    ),
    (
        "way_up_loses_the_word",
        &[("lock.climbed(route, node, found)", "Phase::RaiseUp { route, node, seen }")],
    ),
    (
        "way_down_loses_the_word",
        &[("Phase::RaiseDown { route, node, seen: found }", "Phase::RaiseDown { route, node, seen }")],
    ),
    (
        "departure_loses_the_word",
        &[("Phase::DepartSwap { node, seen: found, made }", "Phase::DepartSwap { node, seen, made }")],
    ),
    (
        "writer_loses_the_word",
        &[("|_: &Lock, found| Lock::writer_looked(found)", "|_: &Lock, _| Phase::WriterSwap")],
    ),
    (
        "closing_loses_the_word",
        &[("|_, found| Lock::writer_found(found)", "|_, _| Phase::WriterClose { seen }")],
    ),
    // A failed swap's word decides less than the read's would.
    (
        "direct_swap_enters_a_closed_root",
        &[("|_, found| Lock::looked(0, found)", "|_, found| Phase::RaiseRoot { seen: found }")],
    ),
    (
        "way_up_raises_from_0",
        &[("lock.climbed(route, node, found)", "Phase::RaiseUp { route, node, seen: found }")],
    ),
    ("closing_starts_over", &[("|_, found| Lock::writer_found(found)", "|_, _| Phase::WriterLook")]),
    (
        "found_word_is_journalled_as_read",
        &[("Entry { kind: kind::SWAP_FAILED, word: node }", "Entry { kind: kind::WORD_READ, word: node }")],
    ),
    // The groups leave in the order in which they began.
    (
        "first_come_first_served",
        &[
            ("    readers: u64,\n", "    readers: u64, ahead: usize,\n"),
            ("Queue { readers: 0,", "Queue { readers: 0, ahead: 0,"),
            (
                "self.readers |= 1 << thread;",
                "if self.readers == 0 { self.ahead = self.length; }
                self.readers |= 1 << thread;",
            ),
            ("if self.readers == 0 {\n", "if self.readers == 0 || self.ahead > 0 {\n"),
            ("self.length -= 1;", "self.length -= 1; self.ahead = self.ahead.saturating_sub(1);"),
        ],
    ),
    // A reader behind a writer starts a second group.
    (
        "second_group_of_readers",
        &[
            ("    readers: u64,\n", "    readers: u64, second: u64, writer_since: bool,\n"),
            ("Queue { readers: 0,", "Queue { readers: 0, second: 0, writer_since: false,"),
            (
                "self.readers |= 1 << thread;",
                "if self.writer_since { self.second |= 1 << thread; } else { self.readers |= 1 << thread; }",
            ),
            ("self.length += 1;", "self.length += 1; self.writer_since = self.readers != 0;"),
            ("self.readers = 0;", "self.readers = self.second; self.second = 0; self.writer_since = false;"),
            (
                "self.length + usize::from(self.readers != 0)",
                "self.length + usize::from(self.readers != 0) + usize::from(self.second != 0)",
            ),
        ],
    ),
    (
        "leaving_writer_takes_a_writer",
        &[("if self.readers == 0 {", "if self.readers == 0 || self.length > 0 {")],
    ),
    (
        "last_reader_takes_readers",
        &[(
            "let members = self.queue.take_writer().unwrap_or_default();",
            "if let Some(members) = self.queue.take_readers() {
                return Ok(self.change_queue(thread, Phase::StoreReaders { leaver, members, closed: true }));
            }
            let members = self.queue.take_writer().unwrap_or_default();",
        )],
    ),
    (
        "youngest_writer_first",
        &[
            ("self.writers[self.first]", "self.writers[self.place(self.length - 1)]"),
            ("self.first = self.place(1);", ""),
        ],
    ),
    ("readers_are_not_counted", &[("self.length + usize::from(self.readers != 0)", "self.length")]),
    (
        "readers_are_counted_one_by_one",
        &[("usize::from(self.readers != 0)", "self.readers.count_ones() as usize")],
    ),
    ("taken_readers_stay", &[("self.readers = 0;", "")]),
    ("taken_writer_stays", &[("self.first = self.place(1);", "")]),
    // The stored number of waiting writers.
    (
        "joining_writer_is_not_numbered",
        &[
            ("self.number += 1;", ""),
            ("self.number -= 1;", "self.number = self.number.saturating_sub(1);"),
        ],
    ),
    ("leaving_writer_stays_numbered", &[("self.number -= 1;", "")]),
    (
        "joining_reader_is_numbered",
        &[("self.readers |= 1 << thread;", "self.readers |= 1 << thread; self.number += 1;")],
    ),
    (
        "leaving_readers_lower_the_number",
        &[("self.readers = 0;", "self.readers = 0; self.number = self.number.saturating_sub(1);")],
    ),
    (
        "number_stands_before_the_groups",
        &[
            ("pen.number(self.queue.groups());", "pen.number(self.queue.number().into());"),
            ("pen.number(usize::from(self.queue.number()));", "pen.number(self.queue.groups());"),
        ],
    ),
    ("number_is_that_of_the_groups", &[("usize::from(self.queue.number())", "self.queue.groups()")]),
    // The lock does not lock. A hand-over that opens although a writer is queued
    // stands above.
    (
        "writers_swap_enters_among_readers",
        &[(
            "self.swap(thread, 0, EMPTY_OPEN, EMPTY_CLOSED, Phase::Writing, again)",
            "let seen = if self.words[0].closed() { EMPTY_OPEN } else { self.words[0] };
            let new = Word::new(seen.direct(), seen.tree(), true);
            self.swap(thread, 0, seen, new, Phase::Writing, again)",
        )],
    ),
    (
        "arrival_at_empty_and_closed",
        &[("if node == 0 && found == EMPTY_CLOSED {", "if node == 0 && false {")],
    ),
    (
        "departure_wakes_too_early",
        &[("Departure::Unlock { .. } if new == EMPTY_CLOSED", "Departure::Unlock { .. } if new.closed()")],
    ),
    // Upgrade: the root's two counts.
    (
        "direct_arrival_counts_for_the_tree",
        &[("let new = seen.raised(Part::Direct);", "let new = seen.raised(Part::Tree);")],
    ),
    (
        "arrival_from_a_node_counts_as_direct",
        &[("let part = if node == 0 { Part::Tree } else { Part::Direct };", "let part = Part::Direct;")],
    ),
    (
        "direct_departure_leaves_the_tree",
        &[("Departure::Unlock { ticket: 0 } => Part::Direct,", "Departure::Unlock { ticket: 0 } => Part::Tree,")],
    ),
    ("departure_from_a_node_leaves_as_direct", &[("_ if node == 0 => Part::Tree,", "")]),
    (
        "upgrades_departure_leaves_as_direct",
        &[("_ if node == 0 => Part::Tree,", "_ if node == 0 && made != Departure::Upgrade => Part::Tree,")],
    ),
    (
        "trade_counts_for_the_tree",
        &[(
            "let again = |_: &Lock, found| Phase::TradeSwap { ticket, seen: found };
                self.swap(thread, 0, seen, seen.raised(Part::Direct), done, again)",
            "let again = |_: &Lock, found| Phase::TradeSwap { ticket, seen: found };
                self.swap(thread, 0, seen, seen.raised(Part::Tree), done, again)",
        )],
    ),
    (
        "trade_opens",
        &[(
            "let again = |_: &Lock, found| Phase::TradeSwap { ticket, seen: found };
                self.swap(thread, 0, seen, seen.raised(Part::Direct), done, again)",
            "let again = |_: &Lock, found| Phase::TradeSwap { ticket, seen: found };
                let new = Word::new(seen.direct() + 1, seen.tree(), false);
                self.swap(thread, 0, seen, new, done, again)",
        )],
    ),
    (
        "root_line_shows_the_tree_first",
        &[
            ("pen.number(usize::from(self.words[0].direct()));", "pen.number(self.words[0].tree().into());"),
            ("pen.number(usize::from(self.words[0].tree()));", "pen.number(self.words[0].direct().into());"),
        ],
    ),
    // Upgrade: granted and denied.
    ("upgrade_beside_the_tree", &[("found.direct() == 1 && found.tree() == 0", "found.direct() == 1")]),
    (
        "upgrade_beside_another",
        &[("found.direct() == 1 && found.tree() == 0", "found.direct() <= 2 && found.tree() == 0")],
    ),
    (
        "upgrade_at_closed_is_denied",
        &[(
            "found.direct() == 1 && found.tree() == 0",
            "found.direct() == 1 && found.tree() == 0 && !found.closed()",
        )],
    ),
    (
        "denial_loses_the_ticket",
        &[(
            "            Phase::UpgradeSwap { seen: found }
        } else {
            Phase::Reading { ticket: 0 }",
            "            Phase::UpgradeSwap { seen: found }
        } else {
            Phase::Idle",
        )],
    ),
    (
        "denial_by_a_failed_swap_is_not_counted",
        &[(
            "self.swap(thread, 0, seen, EMPTY_CLOSED, Phase::Writing, again)",
            "let entry = self.swap(thread, 0, seen, EMPTY_CLOSED, Phase::Writing, again);
                if self.threads[thread].phase == (Phase::Reading { ticket: 0 }) {
                    self.threads[thread].failures -= 1;
                }
                entry",
        )],
    ),
    (
        "denial_by_a_failed_swap_is_kind_10",
        &[(
            "self.swap(thread, 0, seen, EMPTY_CLOSED, Phase::Writing, again)",
            "let entry = self.swap(thread, 0, seen, EMPTY_CLOSED, Phase::Writing, again);
                if self.threads[thread].phase == (Phase::Reading { ticket: 0 }) {
                    return Ok(Entry { kind: kind::UPGRADE_DENIED, word: word::ROOT });
                }
                entry",
        )],
    ),
    ("denial_is_journalled_as_read", &[("pub const UPGRADE_DENIED: u8 = 10;", "pub const UPGRADE_DENIED: u8 = 1;")]),
    (
        "ticket_departs_before_it_arrives",
        &[
            (
                "(Call::Upgrade, Phase::Reading { ticket }) => Phase::TradeRead { ticket },",
                "(Call::Upgrade, Phase::Reading { ticket }) => {
                    Phase::DepartRead { node: ticket, made: Departure::Upgrade }
                }",
            ),
            ("Departure::Upgrade => Phase::UpgradeRead,", "Departure::Upgrade => Phase::TradeRead { ticket: 0 },"),
            (
                "let done = Phase::DepartRead { node: ticket, made: Departure::Upgrade };",
                "let done = Phase::UpgradeRead;",
            ),
        ],
    ),
    (
        "nodes_ticket_is_kept",
        &[(
            "Phase::Reading { ticket }) => Phase::TradeRead { ticket },",
            "Phase::Reading { .. }) => Phase::UpgradeRead,",
        )],
    ),
    (
        "upgrade_reads_again",
        &[(
            "let again = |_: &Lock, found| Lock::upgrading(found);",
            "let again = |_: &Lock, _| Phase::UpgradeRead;",
        )],
    ),
    (
        "upgrade_loses_the_word",
        &[(
            "let again = |_: &Lock, found| Lock::upgrading(found);",
            "let again = |_: &Lock, _| Phase::UpgradeSwap { seen };",
        )],
    ),
    (
        "upgrade_is_denied_by_every_failed_swap",
        &[(
            "let again = |_: &Lock, found| Lock::upgrading(found);",
            "let again = |_: &Lock, _| Phase::Reading { ticket: 0 };",
        )],
    ),
    (
        "trade_reads_again",
        &[("Phase::TradeSwap { ticket, seen: found }", "Phase::TradeRead { ticket }")],
    ),
    (
        "trade_loses_the_word",
        &[("Phase::TradeSwap { ticket, seen: found }", "Phase::TradeSwap { ticket, seen }")],
    ),
    // Downgrade.
    (
        "downgrade_forgets_itself",
        &[("let own = u16::from(leaver == Leaver::Downgrader);", "let own = 0;")],
    ),
    ("downgrade_opens", &[("let closed = self.queue.has_writer();", "let closed = false;")]),
    ("downgrade_closes", &[("let closed = self.queue.has_writer();", "let closed = true;")]),
    (
        "downgrade_wakes_nobody",
        &[("let next = if members == 0 {", "let next = if members == 0 || leaver == Leaver::Downgrader {")],
    ),
    (
        "downgrade_wakes_an_empty_group",
        &[("let next = if members == 0 {", "let next = if false {")],
    ),
    (
        "downgrade_takes_a_writer",
        &[(
            "let members = self.queue.take_readers().unwrap_or_default();",
            "let members = match self.queue.take_writer() {
                    Some(members) => members,
                    None => self.queue.take_readers().unwrap_or_default(),
                };",
        )],
    ),
    (
        "downgrade_takes_nobody",
        &[("let members = self.queue.take_readers().unwrap_or_default();", "let members = 0;")],
    ),
    (
        "downgrade_reads_by_a_node",
        &[(
            "self.release_mutex(thread, Phase::Reading { ticket: 0 })",
            "self.release_mutex(thread, Phase::Reading { ticket: self.sizes.nodes - 1 })",
        )],
    ),
    (
        "downgrade_reads_by_a_node_after_a_wake",
        &[(
            "Leaver::Downgrader => Phase::Reading { ticket: 0 },",
            "Leaver::Downgrader => Phase::Reading { ticket: self.sizes.nodes - 1 },",
        )],
    ),
    (
        "downgrade_leaves",
        &[("Leaver::Downgrader => Phase::Reading { ticket: 0 },", "Leaver::Downgrader => Phase::Idle,")],
    ),
    (
        "downgrade_stores_for_the_tree",
        &[(
            "let new = Word::new(own + members.count_ones() as u16, 0, closed);",
            "let new = Word::new(members.count_ones() as u16, own, closed);",
        )],
    ),
    (
        "downgrade_suits_a_reader",
        &[(
            "(Call::Downgrade, Phase::Writing) =>",
            "(Call::Downgrade, Phase::Reading { .. } | Phase::Writing) =>",
        )],
    ),
    (
        "waker_goes_on",
        &[(
            "Leaver::Writer | Leaver::LastReader => Phase::Idle,",
            "Leaver::Writer | Leaver::LastReader => Phase::Wake { leaver, waiters, members: 0 },",
        )],
    ),
    (
        "order_before_thread",
        &[(
            "if thread >= self.sizes.threads {",
            "if (96..=128).contains(&order) { return Err(refusal::ORDER); }
            if thread >= self.sizes.threads {",
        )],
    ),
    // Two locks: which lock goes on, and which is barred.
    (
        "first_lock_goes_on",
        &[("order::GO_ON => self.latest(usize::from(thread)),", "order::GO_ON => Which::First,")],
    ),
    (
        "other_lock_goes_on",
        &[(
            "order::GO_ON => self.latest(usize::from(thread)),",
            "order::GO_ON => self.latest(usize::from(thread)).other(),",
        )],
    ),
    ("call_taken_in_the_other_locks_call", &[("if !self.lock(which.other()).rests(thread) {", "if false {")]),
    (
        "call_taken_asleep_in_the_other_lock",
        &[(
            "if !self.lock(which.other()).rests(thread) {",
            "let other = self.lock(which.other());
            if !other.rests(thread) && other.threads[thread].phase != Phase::Asleep {",
        )],
    ),
    (
        "call_refused_while_the_other_lock_is_held",
        &[(
            "if !self.lock(which.other()).rests(thread) {",
            "if self.lock(which.other()).threads[thread].phase != Phase::Idle {",
        )],
    ),
    (
        "barred_before_order",
        &[(
            "let call = Call::named(order, self.sizes.nodes).ok_or(refusal::ORDER)?;",
            "if !self.lock(which.other()).rests(thread) { return Err(refusal::UNSUITED); }
            let call = Call::named(order, self.sizes.nodes).ok_or(refusal::ORDER)?;",
        )],
    ),
    (
        "suiting_before_order_128",
        &[(
            "let call = Call::named(order, self.sizes.nodes).ok_or(refusal::ORDER)?;",
            "if order == order::GO_ON && !self.lock(which).rests(thread) { return Err(refusal::UNSUITED); }
            let call = Call::named(order, self.sizes.nodes).ok_or(refusal::ORDER)?;",
        )],
    ),
    (
        "order_128_goes_on",
        &[("if order != order::GO_ON {", "if order % order::SECOND_LOCK != order::GO_ON {")],
    ),
    (
        "order_128_is_unsuited",
        &[(
            "let call = Call::named(order, self.sizes.nodes).ok_or(refusal::ORDER)?;",
            "if order == order::GO_ON { return Err(refusal::UNSUITED); }
            let call = Call::named(order, self.sizes.nodes).ok_or(refusal::ORDER)?;",
        )],
    ),
    (
        "second_lock_has_no_upgrade",
        &[(
            "let call = Call::named(order, self.sizes.nodes).ok_or(refusal::ORDER)?;",
            "let call = Call::named(order, self.sizes.nodes).ok_or(refusal::ORDER)?;
            if call == Call::Upgrade && which == Which::Second { return Err(refusal::ORDER); }",
        )],
    ),
    // Two locks: failures, words, the mutex, the sheet.
    (
        "failures_of_the_other_lock",
        &[(
            "        match which {
            Which::First => self.locks[Which::First as usize].step(thread),",
            "        let before = self.lock(which).threads[thread].failures;
        let entry = self.locks[which as usize].step(thread)?;
        if entry.kind == kind::SWAP_FAILED {
            self.locks[which as usize].threads[thread].failures = before;
            self.locks[which.other() as usize].threads[thread].failures += 1;
        }
        return Ok(entry.at(which));
        match which {
            Which::First => self.locks[Which::First as usize].step(thread),",
        )],
    ),
    (
        "failures_of_both_locks_together",
        &[(
            "        match which {
            Which::First => self.locks[Which::First as usize].step(thread),",
            "        let entry = self.locks[which as usize].step(thread)?;
        if entry.kind == kind::SWAP_FAILED {
            self.locks[which.other() as usize].threads[thread].failures += 1;
        }
        return Ok(entry.at(which));
        match which {
            Which::First => self.locks[Which::First as usize].step(thread),",
        )],
    ),
    ("words_have_32_added", &[("pub const SECOND_LOCK: u8 = 64;", "pub const SECOND_LOCK: u8 = 32;")]),
    ("words_have_nothing_added", &[("pub const SECOND_LOCK: u8 = 64;", "pub const SECOND_LOCK: u8 = 0;")]),
    (
        "word_33_has_nothing_added",
        &[(
            "word: self.word + which.word()",
            "word: if self.word == word::NONE { self.word } else { self.word + which.word() }",
        )],
    ),
    (
        "word_32_has_nothing_added",
        &[(
            "word: self.word + which.word()",
            "word: if self.word == word::QUEUE { self.word } else { self.word + which.word() }",
        )],
    ),
    (
        "mutex_of_both_locks",
        &[(
            "        match which {
            Which::First => self.locks[Which::First as usize].step(thread),",
            "        let taking = matches!(
            self.lock(which).threads[thread].phase,
            Phase::ReaderTakeMutex { .. } | Phase::WriterTakeMutex | Phase::LeaverTakeMutex { .. }
        );
        if taking && self.lock(which.other()).mutex.is_some() {
            return Ok(HELD_UP.at(which));
        }
        match which {
            Which::First => self.locks[Which::First as usize].step(thread),",
        )],
    ),
    (
        "wakes_at_both_locks",
        &[(
            "        match which {
            Which::First => self.locks[Which::First as usize].step(thread),",
            "        if let Phase::Wake { members, .. } = self.lock(which).threads[thread].phase {
            let other = &mut self.locks[which.other() as usize];
            for sleeper in (0..MOST_THREADS).filter(|sleeper| members >> sleeper & 1 == 1) {
                if other.threads[sleeper].phase == Phase::Writing {
                    other.threads[sleeper].phase = Phase::Idle;
                }
            }
        }
        match which {
            Which::First => self.locks[Which::First as usize].step(thread),",
        )],
    ),
    (
        "second_lock_is_not_printed",
        &[("for lock in &self.locks {", "for lock in &self.locks[..1] {")],
    ),
    (
        "second_lock_is_printed_where_it_was_used",
        &[("for lock in &self.locks {", "for lock in &self.locks[..1 + usize::from(self.at_second != 0)] {")],
    ),
    (
        "second_lock_is_printed_first",
        &[("for lock in &self.locks {", "for lock in self.locks.iter().rev() {")],
    ),
    (
        "second_lock_has_an_answer_line",
        &[("for lock in &self.locks {", "for (number, lock) in self.locks.iter().enumerate() {
            if number > 0 { pen.answer(0, 0); }")],
    ),
    (
        "sheet_of_4096_bytes",
        &[("pub const LEAST_SHEET: usize = 8192;", "pub const LEAST_SHEET: usize = 4096;")],
    ),
    (
        "sheet_of_8191_bytes",
        &[("pub const LEAST_SHEET: usize = 8192;", "pub const LEAST_SHEET: usize = 8191;")],
    ),
];

/// Mistakes put into the plain engine.
const PLAIN_FLAWS: &[Flaw] = &[
    ("writer_enters_among_readers", &[("return self.surplus == 0;", "return true;")]),
    ("writer_does_not_close", &[("self.closed = true;", "self.closed = self.surplus == 0;")]),
    (
        "reader_enters_when_closed",
        &[("            self.surplus += 1;\n", "        }\n        {\n            self.surplus += 1;\n")],
    ),
    (
        "reader_enters_after_closing",
        &[(
            "    fn arrive(&mut self) -> bool {\n        if !self.closed {",
            "    fn arrive(&mut self) -> bool {\n        if !self.closed || self.surplus > 0 {",
        )],
    ),
    ("departure_is_never_the_last", &[("!(self.surplus == 0 && self.closed)", "true")]),
    ("every_departure_is_the_last", &[("!(self.surplus == 0 && self.closed)", "!self.closed")]),
    (
        "last_reader_takes_readers",
        &[(
            "if !self.indicator.depart() {",
            "if !self.indicator.depart() {
                if let Some(readers) = self.queue.take_readers() {
                    self.indicator.open_with_arrivals(readers.count_ones(), true);
                    self.wake(readers, Standing::Reading);
                    return Standing::Idle;
                }",
        )],
    ),
    (
        "last_reader_takes_nobody",
        &[("if !self.indicator.depart() {", "if !self.indicator.depart() && false {")],
    ),
    (
        "last_reader_opens",
        &[(
            "if !self.indicator.depart() {",
            "if !self.indicator.depart() { self.indicator.open_with_arrivals(0, false);",
        )],
    ),
    ("hand_over_opens", &[("self.queue.has_writer()", "false")]),
    ("hand_over_closes", &[("self.queue.has_writer()", "true")]),
    ("hand_over_counts_one_reader", &[("readers.count_ones(), ", "1, ")]),
    (
        "leaving_writer_takes_a_writer",
        &[(
            "if let Some(readers) = self.queue.take_readers() {",
            "if let Some(readers) = if self.queue.has_writer() { None } else { self.queue.take_readers() } {",
        )],
    ),
    (
        "leaving_writer_opens",
        &[(
            "        } else if let Some(writer) = self.queue.take_writer() {",
            "        } else if let Some(writer) = self.queue.take_writer() {
            self.indicator.open_with_arrivals(0, false);",
        )],
    ),
    (
        "woken_readers_write",
        &[("self.wake(readers, Standing::Reading);", "self.wake(readers, Standing::Writing);")],
    ),
    ("one_of_the_group_wakes", &[("asleep &= asleep - 1;", "asleep = 0;")]),
    ("nobody_sleeps", &[("self.queue.join_reader(thread);", "return Standing::Idle;")]),
    ("reader_waits_as_a_writer", &[("self.queue.join_reader(thread);", "self.queue.join_writer(thread);")]),
    (
        "order_0_is_taken",
        &[("            // \"order 0 under 6\"\n", "            (order::GO_ON, standing) => standing,\n")],
    ),
    (
        "order_0_is_unsuited",
        &[(
            "            // \"order 0 under 6\"\n",
            "            (order::GO_ON, _) => return Err(refusal::UNSUITED),\n",
        )],
    ),
    (
        "sleepers_order_is_none",
        &[(
            "            // \"orders to a sleeper under 7\"\n",
            "            (_, Standing::Asleep) => return Err(refusal::ORDER),\n",
        )],
    ),
    (
        "order_3_is_unsuited",
        &[(
            "            // \"order 0 under 6\"\n",
            "            (order::UPGRADE, _) => return Err(refusal::UNSUITED),\n",
        )],
    ),
    (
        "order_3_is_taken",
        &[(
            "            // \"order 0 under 6\"\n",
            "            (order::UPGRADE, Standing::Reading) if self.indicator.surplus == 1 => {
                self.indicator.open_with_arrivals(0, true);
                Standing::Writing
            }\n",
        )],
    ),
    (
        "order_4_is_unsuited",
        &[(
            "            // \"order 0 under 6\"\n",
            "            (order::DOWNGRADE, _) => return Err(refusal::UNSUITED),\n",
        )],
    ),
    (
        "order_4_is_taken",
        &[(
            "            // \"order 0 under 6\"\n",
            "            (order::DOWNGRADE, Standing::Writing) => {
                self.indicator.open_with_arrivals(1, self.queue.has_writer());
                Standing::Reading
            }\n",
        )],
    ),
    ("node_n_is_taken", &[("order - order::READ_LOCK >= self.sizes.nodes", "false")]),
    (
        "suiting_before_order",
        &[(
            "if order - order::READ_LOCK >= self.sizes.nodes",
            "if order - order::READ_LOCK >= self.sizes.nodes && standing == Standing::Idle",
        )],
    ),
    ("ticket_is_printed", &[("b\" reading - 0\\n\"", "b\" reading 0 0\\n\"")]),
    (
        "nodes_are_printed",
        &[(
            "pen.text(b\"queue free \");",
            "for _ in 1..self.sizes.nodes { pen.text(b\"node 1 0\\n\"); }
            pen.text(b\"queue free \");",
        )],
    ),
    (
        "refused_call_is_counted",
        &[("answer, taken, state: Some(engine)", "answer, taken: taken + 1, state: Some(engine)")],
    ),
    (
        "number_stands_before_the_groups",
        &[
            ("pen.number(self.queue.groups());", "pen.number(self.queue.number().into());"),
            ("pen.number(usize::from(self.queue.number()));", "pen.number(self.queue.groups());"),
        ],
    ),
    ("number_is_that_of_the_groups", &[("usize::from(self.queue.number())", "self.queue.groups()")]),
    (
        "number_is_not_printed",
        &[("pen.text(b\" \");\n        pen.number(usize::from(self.queue.number()));", "")],
    ),
    ("small_buffer_is_written", &[("page.len() < LEAST_SHEET", "page.len() < LEAST_SHEET - 1")]),
    ("sheet_of_4096_bytes", &[("page.len() < LEAST_SHEET", "page.len() < LEAST_SHEET / 2")]),
    (
        "second_lock_is_taken",
        &[(
            "        self.standings[thread] = match (order, standing) {",
            "        let order = if order > 128 { order - 128 } else { order };
        self.standings[thread] = match (order, standing) {",
        )],
    ),
    (
        "second_lock_is_unsuited",
        &[(
            "            // \"order 0 under 6\"\n",
            "            (129..=132 | 192..=223, _) => return Err(refusal::UNSUITED),\n",
        )],
    ),
];

/// Mistakes put into the dispatcher.
const DISPATCH_FLAWS: &[Flaw] = &[
    (
        "thread_is_passed_over",
        &[(
            "let order = match bench.lock(Which::First).phase(thread) {",
            "if given && thread + 1 == sizes.threads && steps.len() % 3 == 0 { continue; }
            let order = match bench.lock(Which::First).phase(thread) {",
        )],
    ),
    // After a step that ends a call the next turn is thread 0's.
    (
        "round_starts_again",
        &[(
            "            given = true;
        }",
            "            given = true;
            if bench.lock(Which::First).rests(usize::from(thread)) { break; }
        }",
        )],
    ),
    (
        "round_starts_at_1",
        &[(
            "for thread in 0..sizes.threads {",
            "for thread in (0..sizes.threads).map(|t| (t + 1) % sizes.threads) {",
        )],
    ),
    (
        "sleeper_gets_a_step",
        &[(
            "Phase::Asleep => continue,",
            "Phase::Asleep if !given => continue, Phase::Asleep => order::GO_ON,",
        )],
    ),
    (
        "woken_thread_waits_a_round",
        &[
            (
                "let mut given = true;",
                "let mut given = true; let mut slept = vec![false; usize::from(sizes.threads)];",
            ),
            (
                "        given = false;
",
                "        given = false;
            for thread in 0..sizes.threads {
                slept[usize::from(thread)] = bench.lock(Which::First).phase(thread) == Phase::Asleep;
            }
",
            ),
            (
                "Phase::Asleep => continue,",
                "Phase::Asleep => continue,
                _ if slept[usize::from(thread)] && given => continue,",
            ),
        ],
    ),
    ("call_out_of_order", &[(".pop_front()", ".pop_back()")]),
    ("step_4097", &[("if steps.len() == MOST_ROWS {", "if steps.len() == MOST_ROWS + 1 {")]),
    ("step_4095", &[("if steps.len() == MOST_ROWS {", "if steps.len() == MOST_ROWS - 1 {")]),
    (
        "waiter_for_the_mutex_gets_no_step",
        &[(
            "Phase::Asleep => continue,",
            "Phase::Asleep => continue,
                Phase::ReaderTakeMutex { .. } | Phase::WriterTakeMutex | Phase::LeaverTakeMutex { .. }
                    if bench.lock(Which::First).mutex().is_some() => continue,",
        )],
    ),
    (
        "order_0_is_a_call",
        &[(
            "if Call::named(order, sizes.nodes).is_none() {",
            "if order > 0 && Call::named(order, sizes.nodes).is_none() {",
        )],
    ),
    (
        "second_lock_is_taken",
        &[(
            "if Call::named(order, sizes.nodes).is_none() {",
            "if Call::named(if order > 128 { order - 128 } else { order }, sizes.nodes).is_none() {",
        )],
    ),
    (
        "second_lock_is_refused_at_its_turn",
        &[(
            "if Call::named(order, sizes.nodes).is_none() {",
            "if order < 128 && Call::named(order, sizes.nodes).is_none() {",
        )],
    ),
    (
        "rows_are_checked_at_their_turn",
        &[
            (
                "if let Some(answer) = refused(sizes, threads, orders) {",
                "if let Some(answer) = refused(sizes, threads, orders).filter(|_| orders.len() == 1) {",
            ),
            (
                "        wanted[usize::from(thread)].push_back(order);",
                "        if thread < sizes.threads { wanted[usize::from(thread)].push_back(order); }",
            ),
        ],
    ),
    (
        "orders_before_threads",
        &[(
            "        if thread >= sizes.threads {
            return Some(refusal::THREAD);
        }
        if Call::named(order, sizes.nodes).is_none() {
            return Some(refusal::ORDER);
        }",
            "        if Call::named(order, sizes.nodes).is_none() {
            return Some(refusal::ORDER);
        }
        if thread >= sizes.threads {
            return Some(refusal::THREAD);
        }",
        )],
    ),
    (
        "small_schedule_is_taken",
        &[
            ("schedule.len() < LEAST_SCHEDULE", "schedule.len() < 5 + 2 * threads.len()"),
            (
                "write(schedule, sizes, &steps);",
                "if schedule.len() >= 5 + 2 * steps.len() { write(schedule, sizes, &steps); }",
            ),
        ],
    ),
    (
        "nothing_is_written_after_5_and_6",
        &[(
            "write(schedule, sizes, &steps);",
            "if answer == 0 || answer == 7 { write(schedule, sizes, &steps); }",
        )],
    ),
    (
        "nothing_is_written_after_7",
        &[("write(schedule, sizes, &steps);", "if answer != 7 { write(schedule, sizes, &steps); }")],
    ),
    (
        "schedule_has_the_calls_orders",
        &[("steps.push((thread, order));", "steps.push((thread, if order == 0 { 2 } else { order }));")],
    ),
    ("rows_high_byte_is_lost", &[("(steps.len() as u16)", "(steps.len() as u8 as u16)")]),
    ("calls_are_counted", &[("taken: steps.len()", "taken: steps.iter().filter(|step| step.1 > 0).count()")]),
    (
        "limit_is_a_refusal",
        &[(
            "return Dispatched { answer: refusal::NONE, steps, bench };",
            "return Dispatched { answer: refusal::UNSUITED, steps, bench };",
        )],
    ),
    (
        "schedule_of_a_small_sheet",
        &[(
            "    if page.len() < LEAST_SHEET {
        return 0;",
            "    if page.len() < LEAST_SHEET {
        run(file, schedule);
        return 0;",
        )],
    ),
];

/// Mistakes put into the ticket lock.
const TICKET_FLAWS: &[Flaw] = &[
    (
        "ticket_wraps_at_65535",
        &[(
            "self.ticket = self.ticket.wrapping_add(1);",
            "self.ticket = if self.ticket == 65_534 { 0 } else { self.ticket.wrapping_add(1) };",
        )],
    ),
    (
        "grant_wraps_at_65535",
        &[(
            "self.grant = self.grant.wrapping_add(1);",
            "self.grant = if self.grant == 65_534 { 0 } else { self.grant.wrapping_add(1) };",
        )],
    ),
    (
        "both_wrap_at_65535",
        &[
            (
                "self.ticket = self.ticket.wrapping_add(1);",
                "self.ticket = if self.ticket == 65_534 { 0 } else { self.ticket.wrapping_add(1) };",
            ),
            (
                "self.grant = self.grant.wrapping_add(1);",
                "self.grant = if self.grant == 65_534 { 0 } else { self.grant.wrapping_add(1) };",
            ),
        ],
    ),
    (
        "ticket_wraps_to_1",
        &[(
            "self.ticket = self.ticket.wrapping_add(1);",
            "self.ticket = self.ticket.checked_add(1).unwrap_or(1);",
        )],
    ),
    (
        "grant_stays_at_65535",
        &[("self.grant = self.grant.wrapping_add(1);", "self.grant = self.grant.saturating_add(1);")],
    ),
    ("near_at_a_distance_of_2", &[("self.distance(ticket) > 1", "self.distance(ticket) > 2")]),
    ("far_at_a_distance_of_1", &[("self.distance(ticket) > 1", "self.distance(ticket) > 0")]),
    (
        "distance_not_round_the_wrap",
        &[("ticket.wrapping_sub(self.grant)", "ticket.saturating_sub(self.grant)")],
    ),
    ("distance_either_way", &[("ticket.wrapping_sub(self.grant)", "ticket.abs_diff(self.grant)")]),
    (
        "compare_advances_the_grant",
        &[(
            "                if ticket == self.grant {
                    self.standings[thread] = Standing::Holding;
                }",
            "                if ticket == self.grant {
                    self.standings[thread] = Standing::Holding;
                } else {
                    self.grant = self.grant.wrapping_add(1);
                }",
        )],
    ),
    (
        "waiter_advances_the_grant",
        &[(
            "(order::RELEASE, Standing::Holding) => {",
            "(order::RELEASE, Standing::Holding | Standing::Waiting { .. }) => {",
        )],
    ),
    (
        "ticket_is_taken_twice",
        &[(
            "self.ticket = self.ticket.wrapping_add(1);",
            "if thread != 1 { self.ticket = self.ticket.wrapping_add(1); }",
        )],
    ),
    (
        "waiter_takes_again",
        &[(
            "(order::TAKE, Standing::Idle) => {",
            "(order::TAKE, Standing::Idle | Standing::Waiting { .. }) => {",
        )],
    ),
    (
        "repeated_take_changes_nothing",
        &[(
            "            (order::TAKE, Standing::Idle) => {",
            "            (order::TAKE, Standing::Waiting { .. }) => {}
            (order::TAKE, Standing::Idle) => {",
        )],
    ),
    (
        "repeated_take_is_no_order",
        &[(
            "            // \"a waiter's repeated order 1 under 7\"\n",
            "            (order::TAKE, Standing::Waiting { .. }) => return Err(refusal::ORDER),\n",
        )],
    ),
    (
        "compare_in_vain_is_refused",
        &[(
            "                if ticket == self.grant {",
            "                if ticket != self.grant { return Err(refusal::UNSUITED); }
                if ticket == self.grant {",
        )],
    ),
    ("every_compare_holds", &[("if ticket == self.grant {", "if true {")]),
    ("near_waiter_holds", &[("if ticket == self.grant {", "if self.distance(ticket) <= 1 {")]),
    (
        "taking_the_grant_holds",
        &[(
            "self.standings[thread] = Standing::Waiting { ticket: self.ticket };",
            "self.standings[thread] = if self.ticket == self.grant {
                    Standing::Holding
                } else {
                    Standing::Waiting { ticket: self.ticket }
                };",
        )],
    ),
    (
        "waiter_at_the_grant_is_printed_holding",
        &[(
            "                Standing::Waiting { .. } => b\" near\\n\",",
            "                Standing::Waiting { ticket } if ticket == self.grant => b\" holding\\n\",
                Standing::Waiting { .. } => b\" near\\n\",",
        )],
    ),
    (
        "release_passes_one_over",
        &[("self.grant = self.grant.wrapping_add(1);", "self.grant = self.grant.wrapping_add(2);")],
    ),
    (
        "holder_compares",
        &[(
            "            (order::RELEASE, Standing::Holding) => {",
            "            (order::COMPARE, Standing::Holding) => {}
            (order::RELEASE, Standing::Holding) => {",
        )],
    ),
    (
        "idle_thread_releases",
        &[(
            "(order::RELEASE, Standing::Holding) => {",
            "(order::RELEASE, Standing::Holding | Standing::Idle) => {",
        )],
    ),
    (
        "order_3_is_unsuited",
        &[(
            "            _ => return Err(refusal::ORDER),",
            "            _ => return Err(refusal::UNSUITED),",
        )],
    ),
    (
        "order_before_thread",
        &[(
            "        if thread >= self.threads {",
            "        if order > order::RELEASE { return Err(refusal::ORDER); }
        if thread >= self.threads {",
        )],
    ),
    (
        "suiting_before_order",
        &[(
            "            _ => return Err(refusal::ORDER),",
            "            (_, Standing::Idle) => return Err(refusal::ORDER),
            _ => return Err(refusal::UNSUITED),",
        )],
    ),
    ("start_high_byte_first", &[("[start_low, start_high]", "[start_high, start_low]")]),
    (
        "start_is_0",
        &[(
            "TicketLock { threads, ticket: start, grant: start,",
            "TicketLock { threads, ticket: 0, grant: 0,",
        )],
    ),
    ("grant_starts_at_0", &[("grant: start,", "grant: 0,")]),
    (
        "grant_is_printed_first",
        &[
            ("pen.large_number(usize::from(self.ticket));", "pen.large_number(usize::from(self.grant) + 0);"),
            ("pen.large_number(usize::from(self.grant));", "pen.large_number(usize::from(self.ticket) + 0);"),
        ],
    ),
    (
        "four_digits",
        &[("pen.large_number(usize::from(self.ticket));", "pen.number(usize::from(self.ticket % 10_000));")],
    ),
    ("rows_4097", &[("rows > MOST_ROWS", "rows > MOST_ROWS + 1")]),
    ("no_threads", &[("!(1..=MOST_THREADS)", "!(0..=MOST_THREADS)")]),
    (
        "length_before_sizes",
        &[(
            "    let rows = usize::from(u16::from_le_bytes([rows_low, rows_high]));",
            "    let rows = usize::from(u16::from_le_bytes([rows_low, rows_high]));
    if arrays.len() != 2 * rows { return Err(refusal::LENGTH); }",
        )],
    ),
    (
        "six_bytes_are_few",
        &[(
            "return Err(refusal::LENGTH);",
            "return Err(if file.len() < 7 { refusal::SHORT_FILE } else { refusal::LENGTH });",
        )],
    ),
    (
        "refused_row_is_counted",
        &[("answer, taken, state: Some(lock)", "answer, taken: taken + 1, state: Some(lock)")],
    ),
    ("small_buffer_is_written", &[("page.len() < LEAST_SHEET", "page.len() < LEAST_SHEET - 1")]),
    ("sheet_of_4096_bytes", &[("page.len() < LEAST_SHEET", "page.len() < LEAST_SHEET / 2")]),
];

/// Mistakes put into the credit table.
const CREDIT_FLAWS: &[Flaw] = &[
    ("balance_below_0", &[("} else if after < 0 {", "} else if after < -20 {")]),
    ("balance_of_0_is_denied", &[("} else if after < 0 {", "} else if after <= 0 {")]),
    ("entry_is_booked_twice", &[("let kind = if self.booked >> number & 1 == 1 {", "let kind = if false {")]),
    ("booked_entry_is_not_marked", &[("self.booked |= 1 << number;", "")]),
    (
        "denied_entry_is_marked",
        &[(
            "} else if after < 0 {",
            "} else if after < 0 {
            self.booked |= 1 << number;",
        )],
    ),
    (
        "denied_entry_is_never_booked",
        &[(
            "let kind = if self.booked >> number & 1 == 1 {",
            "if after < 0 {
            self.booked |= 1 << number;
            return Ok(Entry { kind: kind::DENIED, word: word::NONE });
        }
        let kind = if self.booked >> number & 1 == 1 {",
        )],
    ),
    (
        "repeated_entry_is_denied",
        &[(
            "let kind = if self.booked >> number & 1 == 1 {",
            "let kind = if after < 0 {
            kind::DENIED
        } else if self.booked >> number & 1 == 1 {",
        )],
    ),
    ("entries_share_marks", &[("self.booked |= 1 << number;", "self.booked |= 0x10001 << (number % 16);")]),
    (
        "room_is_the_entry",
        &[(
            "let room = *self.numbers.get(number)?;",
            "self.numbers.get(number)?; let room = number as u8 % self.rooms;",
        )],
    ),
    (
        "room_0_gets_all",
        &[("let room = *self.numbers.get(number)?;", "self.numbers.get(number)?; let room = 0;")],
    ),
    (
        "rooms_are_printed_in_reverse",
        &[("self.balances().iter().enumerate()", "self.balances().iter().rev().enumerate()")],
    ),
    (
        "amount_is_unsigned",
        &[("let after = *balance + i32::from(amount);", "let after = *balance + i32::from(amount as u16);")],
    ),
    (
        "amount_high_byte_first",
        &[(
            "[self.amounts[2 * number], self.amounts[2 * number + 1]]",
            "[self.amounts[2 * number + 1], self.amounts[2 * number]]",
        )],
    ),
    (
        "amounts_beside_their_rooms",
        &[(
            "[self.amounts[2 * number], self.amounts[2 * number + 1]]",
            "[self.amounts[number], self.amounts[self.numbers.len() + number]]",
        )],
    ),
    (
        "songs_are_not_subtracted",
        &[("let after = *balance + i32::from(amount);", "let after = *balance + i32::from(amount).abs();")],
    ),
    ("balance_is_16_bit", &[("*balance = after;", "*balance = i32::from(after as u16);")]),
    ("balance_stays_at_32767", &[("*balance = after;", "*balance = after.min(32_767);")]),
    (
        "kinds_are_shifted",
        &[
            ("pub const REPEATED: u8 = 12;", "pub const REPEATED: u8 = 13;"),
            ("pub const DENIED: u8 = 13;", "pub const DENIED: u8 = 12;"),
        ],
    ),
    (
        "word_is_the_queue",
        &[("Ok(Entry { kind, word: word::NONE })", "Ok(Entry { kind, word: word::QUEUE })")],
    ),
    (
        "word_has_64_added",
        &[("Ok(Entry { kind, word: word::NONE })", "Ok(Entry { kind, word: word::NONE + 64 })")],
    ),
    // Who may book.
    (
        "reader_books",
        &[(
            "self.bench.lock(Which::First).phase(thread) == Phase::Writing",
            "matches!(self.bench.lock(Which::First).phase(thread), Phase::Writing | Phase::Reading { .. })",
        )],
    ),
    (
        "idle_thread_books",
        &[(
            "self.bench.lock(Which::First).phase(thread) == Phase::Writing",
            "matches!(self.bench.lock(Which::First).phase(thread), Phase::Writing | Phase::Idle)",
        )],
    ),
    (
        "sleeper_books",
        &[(
            "self.bench.lock(Which::First).phase(thread) == Phase::Writing",
            "matches!(self.bench.lock(Which::First).phase(thread), Phase::Writing | Phase::Asleep)",
        )],
    ),
    (
        "writer_of_the_second_lock_books",
        &[(
            "self.bench.lock(Which::First).phase(thread) == Phase::Writing",
            "Which::BOTH.iter().any(|which| self.bench.lock(*which).phase(thread) == Phase::Writing)",
        )],
    ),
    (
        "books_in_a_call_of_the_second_lock",
        &[("if !writes || !self.bench.lock(Which::Second).rests(usize::from(thread)) {", "if !writes {")],
    ),
    (
        "books_asleep_in_the_second_lock",
        &[(
            "if !writes || !self.bench.lock(Which::Second).rests(usize::from(thread)) {",
            "let asleep = self.bench.lock(Which::Second).phase(thread) == Phase::Asleep;
        if !writes || !asleep && !self.bench.lock(Which::Second).rests(usize::from(thread)) {",
        )],
    ),
    (
        "holder_of_both_may_not_book",
        &[(
            "!self.bench.lock(Which::Second).rests(usize::from(thread))",
            "self.bench.lock(Which::Second).phase(thread) != Phase::Idle",
        )],
    ),
    (
        "booking_with_128_added",
        &[(
            "        match order {
            BOOK..=LAST_BOOK => self.book(thread, order - BOOK),",
            "        match order {
            224..=255 => self.book(thread, order - 224),
            BOOK..=LAST_BOOK => self.book(thread, order - BOOK),",
        )],
    ),
    (
        "booking_with_128_added_is_unsuited",
        &[(
            "        match order {
            BOOK..=LAST_BOOK => self.book(thread, order - BOOK),",
            "        match order {
            224..=255 if thread < self.bench.sizes().threads => Err(refusal::UNSUITED),
            BOOK..=LAST_BOOK => self.book(thread, order - BOOK),",
        )],
    ),
    ("entry_31_is_no_order", &[("pub const LAST_BOOK: u8 = 127;", "pub const LAST_BOOK: u8 = 126;")]),
    (
        "suiting_before_entry",
        &[(
            "let (room, amount) = self.till.entry(number).ok_or(refusal::ORDER)?;",
            "if self.bench.lock(Which::First).phase(thread) != Phase::Writing {
            return Err(refusal::UNSUITED);
        }
        let (room, amount) = self.till.entry(number).ok_or(refusal::ORDER)?;",
        )],
    ),
    (
        "entry_before_thread",
        &[(
            "        if thread >= self.bench.sizes().threads {
            return Err(refusal::THREAD);",
            "        if self.till.entry(number).is_none() { return Err(refusal::ORDER); }
        if thread >= self.bench.sizes().threads {
            return Err(refusal::THREAD);",
        )],
    ),
    (
        "entry_e_is_unsuited",
        &[(
            "self.till.entry(number).ok_or(refusal::ORDER)?",
            "self.till.entry(number).ok_or(refusal::UNSUITED)?",
        )],
    ),
    // The till.
    ("room_r_is_taken", &[("all(|room| *room < rooms)", "all(|room| *room <= rooms && *room < 32)")]),
    ("rooms_are_not_checked", &[("all(|room| *room < rooms)", "all(|room| *room < 32)")]),
    (
        "last_room_is_not_checked",
        &[
            ("numbers.iter().all(", "numbers.iter().rev().skip(1).all("),
            ("let room = *self.numbers.get(number)?;", "let room = *self.numbers.get(number)? % 32;"),
        ],
    ),
    (
        "rooms_33",
        &[
            ("!(1..=MOST_ROOMS)", "!(1..=MOST_ROOMS + 1)"),
            (
                "&self.balances[..usize::from(self.till.rooms)]",
                "&self.balances[..usize::from(self.till.rooms).min(32)]",
            ),
            ("&mut self.balances[usize::from(room)]", "&mut self.balances[usize::from(room % 32)]"),
        ],
    ),
    ("no_room_is_taken", &[("!(1..=MOST_ROOMS)", "!(0..=MOST_ROOMS)")]),
    ("entries_33", &[("entries > MOST_ENTRIES", "entries > MOST_ENTRIES + 1")]),
    ("longer_till_is_taken", &[("arrays.len() != 3 * entries", "arrays.len() < 3 * entries")]),
    (
        "empty_till_is_no_till",
        &[(
            "    let Some(till) = Till::new(till) else {",
            "    let Some(till) = Till::new(if till.is_empty() { &[1, 0] } else { till }) else {",
        )],
    ),
    (
        "till_before_length",
        &[(
            "        Err(answer) => return refused(answer),",
            "        Err(refusal::LENGTH) if Till::new(till).is_none() => return refused(TILL),
        Err(answer) => return refused(answer),",
        )],
    ),
    (
        "journal_before_till",
        &[(
            "    let Some(till) = Till::new(till) else {",
            "    if journal.len() < 2 * numbers.len() { return refused(refusal::JOURNAL); }
    let Some(till) = Till::new(till) else {",
        )],
    ),
    ("till_is_refusal_8", &[("pub const TILL: u8 = 10;", "pub const TILL: u8 = 8;")]),
    (
        "refused_till_prints_the_locks",
        &[(
            "        return refused(TILL);",
            "        let none: &'static [u8] = &[1, 0];
        let table = Till::new(none).map(|till| Table::fresh(sizes, till));
        return Outcome { answer: TILL, taken: 0, state: table };",
        )],
    ),
    (
        "rooms_without_a_booking_are_left_out",
        &[(
            "        for (room, balance) in self.balances().iter().enumerate() {",
            "        for (room, balance) in self.balances().iter().enumerate().filter(|room| *room.1 > 0) {",
        )],
    ),
    (
        "balance_of_four_digits",
        &[("pen.large_number(*balance as usize);", "pen.number(*balance as usize % 10_000);")],
    ),
    (
        "journal_of_a_small_sheet",
        &[(
            "    let outcome = run(file, till, journal);
    if page.len() < LEAST_SHEET {
        return 0;
    }",
            "    if page.len() < LEAST_SHEET {
        return 0;
    }
    let outcome = run(file, till, journal);",
        )],
    ),
    ("small_buffer_is_written", &[("page.len() < LEAST_SHEET", "page.len() < LEAST_SHEET - 1")]),
];

/// Mistakes in giving steps at turns.
const DRAW_FLAWS: &[Flaw] = &[
    (
        "turn_of_no_thread_ends_it",
        &[(
            "        if thread >= sizes.threads {
            continue;",
            "        if thread >= sizes.threads {
            break;",
        )],
    ),
    (
        "turn_passed_over_ends_it",
        &[(
            "        let Some(order) = order else {
            continue;",
            "        let Some(order) = order else {
            break;",
        )],
    ),
    ("sleeper_gets_a_step", &[("Phase::Asleep => None,", "Phase::Asleep => Some(order::GO_ON),")]),
    ("ends_at_4095", &[("steps.len() == MOST_ROWS", "steps.len() == MOST_ROWS - 1")]),
    (
        "unsuited_call_is_passed_over",
        &[(
            "            answer = unsuited;
            break;",
            "            continue;",
        )],
    ),
    ("turns_come_again", &[("for &thread in left {", "for &thread in left.clone().chain(left) {")]),
    ("high_bit_is_ignored", &[("for &thread in left {", "for thread in left.map(|turn| turn & 127) {")]),
    ("turns_backward", &[("for &thread in left {", "for &thread in left.rev() {")]),
    ("steps_after_5_and_6", &[("        left = [].iter();", "        left = turns.iter();")]),
    ("last_call_first", &[("].pop_front(),", "].pop_back(),")]),
    (
        "no_schedule_of_8197_bytes",
        &[("    if schedule.len() < LEAST_SCHEDULE {", "    if schedule.len() <= LEAST_SCHEDULE {")],
    ),
    ("small_buffer_is_written", &[("page.len() < LEAST_SHEET", "page.len() < LEAST_SHEET - 1")]),
];

/// Mistakes in running a site.
const SITE_FLAWS: &[Flaw] = &[
    // Whose turn it is, and what it is for.
    (
        "turn_of_no_thread_is_refused",
        &[(
            "if thread >= site.sizes.threads {",
            "if thread >= site.sizes.threads {
            return Err(refusal::THREAD);",
        )],
    ),
    (
        "turn_of_no_thread_is_not_used",
        &[(
            "if thread >= site.sizes.threads {",
            "if thread >= site.sizes.threads {
            return Ok(());",
        )],
    ),
    ("high_bit_is_ignored", &[("self.turn(site, thread))", "self.turn(site, thread & 127))")]),
    (
        "sleeper_is_held_up",
        &[(
            "            Phase::Asleep => {
                self.tally.passed += 1;
                return Ok(());
            }",
            "            Phase::Asleep => order::GO_ON,",
        )],
    ),
    ("calls_come_once", &[("(client.next + 1) % client.calls.len()", "client.next + 1")]),
    (
        "last_call_again",
        &[("(client.next + 1) % client.calls.len()", "(client.next + 1).min(client.calls.len() - 1)")],
    ),
    (
        "unsuited_at_the_second_turn",
        &[(
            "            phase @ (Phase::Idle",
            "            Phase::Idle if client.done > 0 && client.calls.len() > 2 => {
                return Err(refusal::UNSUITED);
            }
            phase @ (Phase::Idle",
        )],
    ),
    (
        "unsuited_call_is_passed_over",
        &[(
            "let entry = self.bench.row(thread, order)?;",
            "let Ok(entry) = self.bench.row(thread, order) else {
            self.tally.passed += 1;
            return Ok(());
        };",
        )],
    ),
    (
        "refused_turn_is_used",
        &[(
            "let entry = self.bench.row(thread, order)?;",
            "let entry = self.bench.row(thread, order).inspect_err(|_| self.tally.passed += 1)?;",
        )],
    ),
    // Holding and thinking.
    (
        "hold_and_think_exchanged",
        &[
            ("Phase::Idle => site.think,", "Phase::Idle => site.hold,"),
            ("Phase::Writing => site.hold,", "Phase::Writing => site.think,"),
        ],
    ),
    (
        "conversions_do_not_hold",
        &[(
            "            Phase::Reading { .. } | Phase::Writing => site.hold,",
            "            Phase::Reading { .. } | Phase::Writing if asked(order).is_none() => 0,
            Phase::Reading { .. } | Phase::Writing => site.hold,",
        )],
    ),
    (
        "readers_think",
        &[(
            "Phase::Idle => self.tally.thinking += 1,",
            "Phase::Idle | Phase::Reading { .. } => self.tally.thinking += 1,",
        )],
    ),
    (
        "thinks_one_turn_more",
        &[("Phase::Idle => site.think,", "Phase::Idle => site.think.saturating_add(1),")],
    ),
    (
        "thinks_before_its_first_call",
        &[("vec![Client::default();", "vec![Client { pause: site.think, ..Client::default() };")],
    ),
    // Calls and waits.
    ("first_row_is_waited", &[("since: self.rows }", "since: self.rows - 1 }")]),
    (
        "first_row_is_waited_in_all",
        &[("self.waiting[lock] += 1;", "self.waiting[lock] += 1; self.tally.waits[lock].waited += 1;")],
    ),
    ("woken_by_nobody", &[("entry.kind == kind::SLEEPERS_WOKEN", "false")]),
    ("upgrade_waits", &[("order::WRITE_LOCK => Some(0),", "order::WRITE_LOCK | order::UPGRADE => Some(0),")]),
    (
        "write_locks_and_read_locks_exchanged",
        &[
            ("order::WRITE_LOCK => Some(0),", "order::WRITE_LOCK => Some(1),"),
            ("order::READ_LOCK.. => Some(1),", "order::READ_LOCK.. => Some(0),"),
        ],
    ),
    (
        "unlocks_are_not_counted",
        &[("self.tally.finished += 1;", "self.tally.finished += usize::from(order != order::UNLOCK);")],
    ),
    (
        "unfinished_counts_as_finished",
        &[("&[tally.finished, unfinished]", "&[tally.finished + unfinished, unfinished]")],
    ),
    ("longest_is_the_last", &[("waits.longest.max(self.rows - since)", "self.rows - since")]),
    // Rows.
    (
        "held_up_is_failed",
        &[(
            "if entry.kind == kind::SWAP_FAILED {",
            "if matches!(entry.kind, kind::SWAP_FAILED | kind::HELD_UP) {",
        )],
    ),
    (
        "store_is_not_on_the_root",
        &[("entry.word == word::ROOT", "entry.word == word::ROOT && entry.kind != kind::PLAIN_STORE")],
    ),
    ("failures_of_a_thread_are_lost", &[("client.failed += 1;", "client.failed = 1;")]),
    // The warm-up.
    ("warm_up_is_measured", &[("    run.measure();\n", "")]),
    (
        "warm_up_forgets_who_waits",
        &[
            ("self.tally = Tally::default();", "self.tally = Tally::default(); self.waiting = [0; 2];"),
            ("self.waiting[lock] -= 1;", "self.waiting[lock] = self.waiting[lock].saturating_sub(1);"),
        ],
    ),
    ("warm_up_forgets_calls", &[("client.done = 0;", "client.done = 0; client.under = None;")]),
    ("warm_up_counts_calls_of_threads", &[("client.done = 0;", "")]),
    ("warm_up_counts_failures_of_threads", &[("client.failed = 0;", "")]),
    ("warm_up_high_byte_first", &[("u32::from_le_bytes([a, b, c, d])", "u32::from_be_bytes([a, b, c, d])")]),
    ("warm_up_of_two_bytes", &[("u32::from_le_bytes([a, b, c, d])", "u32::from_le_bytes([a, b, 0, 0])")]),
    ("rows_of_the_warm_up_are_left_out", &[("|run| run.rows)", "|run| run.tally.rows)")]),
    // The file.
    (
        "order_before_thread",
        &[(
            "        if thread >= sizes.threads {",
            "        if Call::named(order, sizes.nodes).is_none() {
            return Err(refusal::ORDER);
        }
        if thread >= sizes.threads {",
        )],
    ),
    (
        "order_0_is_unsuited",
        &[(
            "if Call::named(order, sizes.nodes).is_none()",
            "if order > 0 && Call::named(order, sizes.nodes).is_none()",
        )],
    ),
    ("rows_4097", &[("rows <= MOST_ROWS", "rows <= MOST_ROWS + 1")]),
    (
        "length_before_size",
        &[(
            "    let sizes = Sizes::new",
            "    if arrays.len() != 2 * rows { return Err(refusal::LENGTH); }
    let sizes = Sizes::new",
        )],
    ),
    ("longer_file_is_taken", &[("arrays.len() != 2 * rows", "arrays.len() < 2 * rows")]),
    (
        "short_file_is_refusal_2",
        &[("        return Err(refusal::SHORT_FILE);", "        return Err(refusal::SIZE);")],
    ),
    ("small_buffer_is_written", &[("page.len() < LEAST_SHEET", "page.len() < LEAST_SHEET - 1")]),
];

/// Mistakes in exploring a lock.
const EXPLORE_FLAWS: &[Flaw] = &[
    ("last_node_is_not_tried", &[("0..order::SECOND_LOCK", "0..order::READ_LOCK + self.sizes.nodes - 1")]),
    (
        "upgrade_is_not_tried",
        &[(
            "if tried.row(thread, order).is_err() {",
            "if order == order::UPGRADE || tried.row(thread, order).is_err() {",
        )],
    ),
    (
        "last_thread_is_not_tried",
        &[("for thread in 0..self.sizes.threads {", "for thread in 0..self.sizes.threads - 1 {")],
    ),
    (
        "failures_count",
        &[("number: queue.number(),", "number: queue.number().wrapping_add(lock.failures(0) as u8),")],
    ),
    ("writers_are_a_set", &[("writers: queue.writers().collect(),", "writers: Vec::new(),")]),
    ("swaps_on_the_way_down_are_one", &[("again: rows.again,", "again: 0,")]),
    (
        "leavers_are_two",
        &[(
            "if leaver == Leaver::LastReader { Leaver::Writer }",
            "if leaver == Leaver::LastReader { leaver }",
        )],
    ),
    (
        "tickets_are_remembered",
        &[("Departure::Unlock { ticket: ticket.min(1) }", "Departure::Unlock { ticket }")],
    ),
    ("two_deeper", &[("let depth = self.steps[from].depth + 1;", "let depth = self.steps[from].depth + 2;")]),
    (
        "schedule_of_the_state_before",
        &[(
            "        while number > 0 {",
            "        number = self.steps[number].from;\n        while number > 0 {",
        )],
    ),
    (
        "schedule_backward",
        &[("        schedule.threads.reverse();\n", ""), ("        schedule.orders.reverse();\n", "")],
    ),
    ("room_for_one_less", &[("if self.steps.len() == room {", "if self.steps.len() + 1 == room {")]),
    ("complete_though_too_small", &[("                        self.complete = false;\n", "")]),
    ("nine_nodes", &[("if nodes > MOST_NODES ||", "if nodes > MOST_NODES + 1 ||")]),
    ("fan_out_of_a_byte", &[("u8::try_from(fan_out).ok()?", "fan_out as u8")]),
];

/// Mistakes in holding a record.
const RECORD_FLAWS: &[Flaw] = &[
    ("root_without_closed", &[("u32::from(root.closed()) + 2", "2")]),
    (
        "direct_and_tree_exchanged",
        &[
            ("2 * u32::from(root.direct())", "2 * u32::from(root.tree())"),
            ("131_072 * u32::from(root.tree())", "131_072 * u32::from(root.direct())"),
        ],
    ),
    ("root_is_the_sum", &[("131_072 *", "2 *")]),
    ("tree_in_65536", &[("131_072 *", "65_536 *")]),
    ("node_as_a_root", &[("u32::from(lock.word(node).count())", "root_value(lock.word(node))")]),
    ("value_of_the_first_lock", &[("lock.root()", "bench.lock(Which::First).root()")]),
    ("node_of_the_first_lock", &[("lock.word(node)", "bench.lock(Which::First).word(node)")]),
    ("node_31_has_no_value", &[("1..word::QUEUE", "1..31")]),
    ("queue_has_a_value", &[("        _ => None,", "        _ => Some(0),")]),
    (
        "value_before_the_row",
        &[
            (
                "    let entry = bench.row(thread, order)",
                "    let before = Given::after(bench, Entry { kind, word });
    let entry = bench.row(thread, order)",
            ),
            ("Some(recorded) != value_of(bench, word)", "before.value != Some(recorded)"),
        ],
    ),
    (
        "failed_swap_has_no_value",
        &[("if recorded != NOT_RECORDED &&", "if recorded != NOT_RECORDED && kind != 3 &&")],
    ),
    ("value_is_not_compared", &[("if recorded != NOT_RECORDED &&", "if false &&")]),
    ("value_must_be_recorded", &[("if recorded != NOT_RECORDED &&", "if")]),
    (
        "value_where_none_is",
        &[(
            "Some(recorded) != value_of(bench, word)",
            "value_of(bench, word).is_some_and(|value| value != recorded)",
        )],
    ),
    ("value_high_byte_first", &[("u32::from_le_bytes(value)", "u32::from_be_bytes(value)")]),
    (
        "value_of_16_bits",
        &[(
            "Some(recorded) != value_of(bench, word)",
            "value_of(bench, word).map(|value| value as u16) != Some(recorded as u16)",
        )],
    ),
    ("kind_is_not_compared", &[("if entry != (Entry { kind, word })", "if entry.word != word")]),
    ("word_is_not_compared", &[("if entry != (Entry { kind, word })", "if entry.kind != kind")]),
    (
        "lock_is_not_compared",
        &[("if entry != (Entry { kind, word })", "if (entry.kind, entry.word % 64) != (kind, word % 64)")],
    ),
    (
        "value_before_the_entry",
        &[(
            "        return other(answer::OTHER_ENTRY);",
            "        let value = u32::from_le_bytes(value);
        let differs = value != NOT_RECORDED && Some(value) != value_of(bench, entry.word);
        return other(if differs { answer::OTHER_VALUE } else { answer::OTHER_ENTRY });",
        )],
    ),
    ("another_value_is_11", &[("pub const OTHER_VALUE: u8 = 12;", "pub const OTHER_VALUE: u8 = 11;")]),
    ("state_after_the_row", &[("state: Some(state_after(sizes, &rows[..held]))", "state: Some(bench)")]),
    (
        "row_is_counted",
        &[("return Outcome { answer, held, given,", "return Outcome { answer, held: held + 1, given,")],
    ),
    ("no_entry_line", &[("given.write(&mut pen);", "")]),
    (
        "entry_line_without_value",
        &[("Some(value) => pen.large_number(value as usize),", "Some(_) => pen.text(b\"-\"),")],
    ),
    (
        "entry_line_of_the_first_lock",
        &[("pen.number(usize::from(self.entry.word));", "pen.number(usize::from(self.entry.word % 64));")],
    ),
    ("no_value_is_0", &[("None => pen.text(b\"-\"),", "None => pen.text(b\"0\"),")]),
    (
        "short_record_is_refusal_2",
        &[("        return Err(refusal::SHORT_FILE);", "        return Err(refusal::SIZE);")],
    ),
    ("part_of_a_row_is_left_out", &[("(rows, []) if", "(rows, _) if")]),
    (
        "length_before_size",
        &[(
            "    let sizes = Sizes::new",
            "    if rows.len() % ROW != 0 { return Err(refusal::LENGTH); }
    let sizes = Sizes::new",
        )],
    ),
    ("rows_from_4097_on_are_refused", &[("rows.len() <= MOST_RECORDED", "rows.len() <= 4_096")]),
    ("small_buffer_is_written", &[("page.len() < LEAST_SHEET", "page.len() < LEAST_SHEET - 1")]),
];

fn main() {
    println!("cargo:rerun-if-changed=build.rs");
    let mut text = String::new();
    text += &broken_engines("src/machine.rs", BENCH_FLAWS, "broken_benches", "BenchSheet", "bench_sheet");
    text += &broken_engines("src/plain.rs", PLAIN_FLAWS, "broken_plains", "PlainSheet", "plain_sheet");
    let dispatch = ("broken_dispatchers", "DispatchSheet", "dispatch_sheet");
    text += &broken_engines("src/dispatcher.rs", DISPATCH_FLAWS, dispatch.0, dispatch.1, dispatch.2);
    text += &broken_engines("src/drawer.rs", DRAW_FLAWS, "broken_drawers", "DrawSheet", "draw_sheet");
    text += &broken_engines("src/site.rs", SITE_FLAWS, "broken_sites", "SiteSheet", "site_sheet");
    let explorations = ("broken_explorations", "ExploreLock", "explore_lock");
    text += &broken_engines("src/explore.rs", EXPLORE_FLAWS, explorations.0, explorations.1, explorations.2);
    text += &broken_engines("src/ticket.rs", TICKET_FLAWS, "broken_tickets", "TicketSheet", "ticket_sheet");
    text += &broken_engines("src/credit.rs", CREDIT_FLAWS, "broken_credits", "CreditSheet", "credit_sheet");
    text += &broken_engines("src/record.rs", RECORD_FLAWS, "broken_records", "RecordSheet", "record_sheet");
    let folder = env::var("OUT_DIR").expect("cargo names OUT_DIR");
    fs::write(Path::new(&folder).join("broken.rs"), text).expect("OUT_DIR is writable");
}

/// A module that has one for every broken engine and a list of their functions,
/// `ALL`.
fn broken_engines(file: &str, flaws: &[Flaw], module: &str, kind: &str, function: &str) -> String {
    println!("cargo:rerun-if-changed={file}");
    let source = fs::read_to_string(file).expect("the engine's source is readable");
    // A file's heading may not stand inside a module that is included.
    let lines = source.lines().filter(|line| !line.starts_with("//!"));
    // They need not be fast, and are built sooner so.
    let lines = lines.filter(|line| line.trim() != "#[inline(always)]");
    let source: String = lines.flat_map(|line| [line, "\n"]).collect();

    let mut modules = String::new();
    let mut all = String::new();
    for (name, changes) in flaws {
        let mut broken = source.clone();
        for (from, to) in *changes {
            assert_eq!(source.matches(from).count(), 1, "{name}: `{from}` has one place in {file}");
            broken = broken.replace(from, to);
        }
        modules += &format!("mod {name} {{\n{broken}}}\n");
        all += &format!("    (\"{name}\", {name}::{function}),\n");
    }
    format!(
        "#[allow(dead_code, unused_variables, unreachable_code, clippy::all)]\nmod {module} {{\n\
         {modules}pub const ALL: &[(&str, crate::differ::{kind})] = &[\n{all}];\n}}\n"
    )
}
