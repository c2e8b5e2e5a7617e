#!/usr/bin/env python3
"""Tests that the node in `node/` continues through faults.

Its layout, its lints and its tests: networks of processes that are killed, parted, slowed, lied to and run out of disk, after which all
finalized chains agree, no honest node signed two votes that contradict each other, and views are still finalized; and one node among
members that a test plays. Then a network as a newcomer begins it, with a faulty node and some that are killed.

    tests/node/node.py [--archive PATH] [--long]     without an archive one is built, unproved, in a minute or two
    tests/node/node.py --chaos MINUTES               a network under one fault after another, alone: `node/node/tests/chaos.rs`
    tests/node/node.py --wrong                       each wrong body of a table, in a copy: a test has to fail

It ends with status 1 where something is not as it has to be. Where packages are missing it has `node/setup` install them; where they
can't be had it says so in one line, and ends with status 77: skipped."""

import argparse
import json
import os
import re
import shutil
import subprocess
import sys
import tempfile
from pathlib import Path

sys.path.insert(0, str(Path(__file__).resolve().parents[1]))
from lib import side_by_side
from lib.program import ROOT
from lib.side_by_side import cargo

NODE = ROOT / "node"
SKIPPED = 77
LEAST_TESTS = 369
LINTS = (("fmt", "--check"), ("clippy", "--offline", "--quiet", "--all-targets", "--", "-D", "warnings"))
# The libraries that the container of `node/Containerfile` has.
IN_CONTAINER = {"libssl", "libcrypto", "libgcc_s", "libc", "libm", "libdl", "libpthread"}
# The words of the network that `./demo` runs.
NETWORK = re.compile(r"words=\((--.*)\)")

# A file, a text there, what is put in its place, and what fails then.
WRONG_BODIES = (
    ("the part that verifies passes on votes of anyone", "../../keys/src/messages.rs", "Message::Vote(vote) => public.is_vote(vote),", "Message::Vote(_) => true,"),
    ("the part that verifies passes on any offer of a snapshot", "../../keys/src/messages.rs", "Message::Range(it) | Message::Snapshot(_, it) => public", "Message::Snapshot(..) => true,\n            Message::Range(it) => public"),
    ("a block that waits to be delivered is dropped", "../../chain/src/delivery.rs", "block.view() >= below || block.view() > tail", "block.view() >= below"),
    ("a transaction that is sent again is applied again", "../examples/ledger_http/accounts.rs", "it.number != sender.next || ", ""),
    ("what is recorded is not stored", "replica.rs", "Output::Store(entries) => self.parts.journal.append(&entries)?,", "Output::Store(_) => {}"),
    ("votes are not verified", "peers/reader.rs", "is_good.unwrap_or_else(|| horizon.is_good_in_the_end(vote, verify)) || self.count(false)",
     "is_good.is_some() || self.count(false)"),
    ("a signature that is not good is remembered as good", "peers/verified.rs", "        if is_good {\n            self.lock().remember(vote);\n        }",
     "        self.lock().remember(vote);"),
    ("signatures are remembered by view and signer alone", "peers/verified.rs", "self.good.get(&key_of(vote)).is_some_and(|it| it.contains(vote))",
     "self.good.keys().any(|it| (it.0, it.2) == (vote.subject.round().view, vote.signer))"),
    ("signatures are remembered by subject and signer, whatever their bytes", "peers/verified.rs", "is_some_and(|it| it.contains(vote))",
     "is_some_and(|it| it.iter().any(|it| it.subject == vote.subject))"),
    ("signatures of far views are remembered", "peers/horizon.rs", "            true => self.verified.is_good(vote, verify),\n            false => Some(verify(vote)),",
     "            _ => self.verified.is_good(vote, verify),"),
    ("two readers verify one signature", "peers/verified.rs", "if !state.running.insert(vote.clone()) {", "if !state.running.insert(vote.clone()) && vote.signature.is_empty() {"),
    ("each certificate on a subject is passed on", "peers/horizon.rs", "!is_known && known.passed.insert(key, subject) != Some(subject)", "!is_known"),
    ("a certificate that was dropped is taken from nobody else", "replica.rs", "            self.parts.horizon.took(subject);\n", "            let _ = subject;\n"),
    ("a certificate waits behind what its sender sent", "peers/reader.rs", "            self.reader.inbox.tell(Event::Message(self.from, message));",
     "            return self.reader.inbox.put(self.from, message, 0) != Put::Closed;"),
    ("certificates are sent back to who sent them", "peers/reader.rs", "                horizon.show(self.from, subject);\n", ""),
    ("what an honest member sent is broadcast by all", "peers/holders.rs", "if !is_again && senders > most_faulty(members) as usize {", "if !is_again && senders > members as usize {"),
    ("what faulty members say to have is broadcast by nobody", "peers/holders.rs", "if !is_again && senders > most_faulty(members) as usize {",
     "if !is_again && senders + 1 > most_faulty(members) as usize {"),
    ("what was sent is not sent again to those that missed it", "peers/holders.rs", "let was_sent = |member| !is_again && self", "let was_sent = |member| self"),
    ("a signer signs two votes of a kind and view", "signer/guard.rs", "            Some(_) => return Err(format!(\"another vote",
     "            Some(_) if view > 0 => return Ok(()),\n            Some(_) => return Err(format!(\"another vote"),
    ("a signer signs to nullify and to finalize a view", "signer/guard.rs", "if self.votes.contains_key(&(view, against)) {", "if view == 0 && self.votes.contains_key(&(view, against)) {"),
    ("a signer signs below its lowest view", "signer/guard.rs", "if view < self.lowest {", "if view == 0 {"),
    ("a signer forgets what it signed", "signer/guard.rs", "        let written = self.file.write_all(line.as_bytes()).and_then(|()| self.file.sync_data());",
     "        let written = (!line.is_empty()).then_some(()).ok_or(\"none\");"),
    ("a signer's new file takes the place of another one", "signer/guard.rs", "create_new(true).append(true).read(true).open(&new)",
     "create(true).append(true).read(true).open(&new)"),
    ("a host's signer signs by any key", "crypto.rs", "if self.is_hosts && !self.is_good(", "if false && !self.is_good("),
    ("a link that is cut one way is cut both ways", "faults.rs", "cuts.from.extend(one_way.is_none().then_some(member));", "cuts.from.insert(member);"),
    ("a signer signs any text", "signer/server.rs", "subject.ok_or(\"what is to be signed is no vote of this network\")?",
     "match subject { Some(it) => it, None => return Ok(self.key.sign(&Subject::Nullify(Default::default()), text)?.to_vec()) }"),
    ("a signer of another network is taken", "signer/remote.rs", "if status != DONE || there != who(&self.owner) {", "if status != DONE {"),
    ("a member may hold many connections", "../../net/src/accept.rs", "if let Some(older) = place.replace(open) {",
     "std::mem::forget(open); if let Some(older) = None::<Open> {"),
    ("a greeting takes as long as it likes", "../../net/src/session.rs", "pub const GREETING: Duration = Duration::from_secs(2);",
     "pub const GREETING: Duration = Duration::from_secs(600);"),
    ("a silent link stays", "../../net/src/session.rs", "pub const SILENCE: Duration = Duration::from_secs(2);", "pub const SILENCE: Duration = Duration::from_secs(600);"),
    ("the queue to a peer has no bound", "../../net/src/send_queue.rs", "if bytes > MOST_BYTES {", "if bytes == usize::MAX {"),
    ("blocks that nobody asked for are passed on", "peers/reader.rs", "Message::Block(bytes) => horizon.wants(bytes),", "Message::Block(_) => true,"),
    ("a forger stays", "peers/reader.rs", "if self.forged > MOST_FORGED {", "if self.forged == u32::MAX {"),
    ("a block is not compared with its proposal", "peers/reader.rs", "digest(block) == payload || self.count(false)", "payload == payload"),
    ("certificates that are lacking are not asked for", "replica.rs", "Output::Fetch(it) => self.fetch(&it),", "Output::Fetch(_) => {}"),
    ("blocks that are lacking are not asked for", "missing_blocks.rs", "self.wanted.iter_mut().filter_map(due).collect()",
     "self.wanted.iter_mut().take(0).filter_map(due).collect()"),
    ("peers are served no final blocks", "archive/keeper.rs", "Behind::Blocks(range) => Message::Range(range),",
     "Behind::Blocks(_) => Message::NoRange(after, View::GENESIS),"),
    ("peers are served all that they ask for", "../../net/src/peers.rs", "let is_left = locked(&peer.served).take(frame.len() as f64, Instant::now());",
     "let is_left = !frame.is_empty();"),
    ("a range of blocks is not compared with its certificate", "peers/reader.rs", "(it.is_linked() || self.count(false))", "!it.blocks.is_empty()"),
    ("a message has several texts", "../../wire/src/read.rs", "rest.is_empty().then_some((first, second))", "Some((first, second))"),
    ("a signature has any length", "../../wire/src/read.rs", ".filter(|_| length <= LONGEST_SIGNATURE)?", "?"),
    ("a frame has any length", "../../wire/src/frame.rs", "if length > LONGEST {", "if length == usize::MAX {"),
    ("blocks of a range are not hashed", "../../wire/src/message.rs", "self.blocks.iter().all(|it| digest(it.bytes()) == it.payload())",
     "!self.blocks.is_empty()"),
    ("a stored block's checksum is not tested", "segments.rs", "if sum_of(lengths, body) != sum {", "if lengths == u32::MAX {"),
    ("blocks are pruned that the application has not stored", "archive.rs", "&& second <= durable + 1", "&& second < durable + u64::from(u32::MAX)"),
    ("a missing block is not named", "../../chain/src/final_chain.rs", "                self.holes.insert(view, payload);\n                return Ok(());",
     "                return Ok(());"),
    ("a block that the host forgot before its turn is not missing again", "../../chain/src/final_chain.rs",
     "                self.holes.insert(view, payload);\n                break;", "                self.children.remove(&self.tail.payload);\n                break;"),
    ("a block that was missing changes nothing", "../../chain/src/final_chain.rs", "self.mark(block.view(), block.digest(), store)?;", ""),
    ("the last delivered block is delivered again", "../../chain/src/final_chain.rs", "            self.drop_taken();\n        }\n        taken",
     "            self.drop_taken();\n            taken.extend(taken.last().cloned());\n        }\n        taken"),
    ("children are delivered before their parents", "../../chain/src/final_chain.rs", "taken.push(Entry {", "taken.insert(0, Entry {"),
    ("two final blocks on one parent are taken", "../../chain/src/final_chain.rs", "Some((_, same)) if same == payload => return Ok(()),", "Some(_) => return Ok(()),"),
    ("fetched blocks of no chain are kept", "../../chain/src/final_chain.rs", "self.drop_taken();", ""),
    ("blocks are archived whose finalization is not stored", "replica/finality.rs", "if last > self.chain.target() {", "if last < View::GENESIS {"),
    ("the application's thread waits for the disk", "ledger/synced.rs", "self.running = Some(thread::Builder::new().name(\"chain\".into()).spawn(sync)?);",
     "self.height = sync()?;"),
    ("a sync that the disk refused counts", "ledger/synced.rs", "self.height = ended.join().map_err(|_| io::Error::other(\"a sync panicked\"))??;",
     "self.height = ended.join().map_or(height, |it| it.unwrap_or(height));"),
    ("what the application can't tell yet is not asked again", "application/worker.rs", "            backlog.questions.extend(again);",
     "            drop(again);"),
    ("a member that does not reply is asked as often as others", "../../chain/src/catch_up.rs", "self.silent.get(of).is_none_or(|it| it.until <= now);",
     "self.silent.get(of).is_none_or(|it| it.until <= now) || self.members > 0;"),
    ("a slice whose first blocks came alone is asked for as before", "../../chain/src/catch_up.rs", "            let after = self.cut_off(after, last);\n",
     "            let _ = Self::cut_off;\n"),
    ("what members refuse makes waits longer", "../../chain/src/catch_up.rs", "slice.asked = Some((of, after_missed(now, slice.missed)));",
     "slice.asked = Some((of, after_missed(now, slice.tries - 1)));"),
    ("a block is asked of a member that is down", "missing_blocks/asks.rs", "it.is_connected = connection.is_some();", "it.is_connected = true;"),
    ("a member that is silent is waited for", "missing_blocks/asks.rs", "if self.early > now {", "if self.early < self.again {"),
    ("a member that is back is asked in its turn alone", "missing_blocks/asks.rs", "self.asked.get(it) != Some(times);", "!self.asked.contains_key(it) && *times > 0;"),
    ("members are asked early without end", "missing_blocks/asks.rs", "members.take_early(now).then(|| self.ask(next, members, now))",
     "(members.take_early(now) || true).then(|| self.ask(next, members, now))"),
    ("certificates are asked of members that are down", "replica/requests.rs", "turns.find(|it| self.parts.peers.connection(*it).is_some());",
     "turns.find(|it| *it == of);"),
    ("a member that is heard of again is not back", "replica/requests.rs", "if heard.elapsed() > QUIET {", "if heard.elapsed() > 1000 * QUIET {"),
    ("final blocks are asked of members that are down", "../../chain/src/catch_up.rs", "|of: &Participant| !self.down.contains(of);",
     "|of: &Participant| !self.down.contains(of) || *of != self.me;"),
    ("a connection that ended is open", "../../net/src/link.rs", "let ended = write_frames(&mut session, &link.queue);\n                link.changes.fetch_add(1, Relaxed);",
     "let ended = write_frames(&mut session, &link.queue);\n                link.changes.fetch_add(2, Relaxed);"),
    ("a snapshot is waited for that nobody else offers", "state_sync.rs", " || good.len() >= *enough =>", " || good.len() > *enough + 1000 =>"),
    ("pieces are asked of those first that offered nothing", "state_sync/pieces.rs", "others.sort_by_key(|it| !offered_by.contains(it));",
     "others.sort_by_key(|it| offered_by.contains(it));"),
    ("a segment that was begun loses the blocks before it", "archive.rs", "for number in self.numbers().into_iter().rev() {\n            let mut found = None;",
     "for number in self.numbers().into_iter().rev().take(1) {\n            let mut found = None;"),
    ("a segment whose blocks a power cut took stays", "archive.rs", "        archive.segments.remove_empty(archive.tail.height + 1)?;\n", ""),
    ("a last segment is removed with its blocks", "segments.rs", "            && length <= HEAD\n", "            && length >= HEAD\n"),
    ("all lacking blocks are asked of one member", "../../chain/src/catch_up.rs", "self.next = self.following(of);", ""),
    ("a node without file descriptors tries without end", "../../net/src/accept.rs", "                thread::sleep(NO_ROOM);\n                continue;",
     "                let _ = NO_ROOM;\n                continue;"),
    ("who is refused knocks without end", "../../net/src/link.rs", "wait = (wait * 2).min(BACKOFF.1);", "wait = BACKOFF.0;"),
    ("blocks that are too long are proposed", "replica/blocks.rs", "if bytes > LONGEST_BLOCK {", "if bytes == usize::MAX {"),
    ("evidence is verified by one signature", "evidence.rs", "for vote in [&self.first, &self.second] {", "for vote in [&self.first] {"),
    ("any two votes are evidence", "evidence.rs", "        _ => None,\n    }\n}\n\nfn bytes_of", "        _ => Some(\"two votes\"),\n    }\n}\n\nfn bytes_of"),
    ("evidence is logged alone", "replica/votes.rs", "self.evidence.write(&Evidence {\n                first: first.clone(),\n                second: second.clone(),\n            })?;", "let _ = |first, second| Evidence { first, second };"),
    ("a snapshot that its block does not bind is taken", "application/requests.rs", "application.bound(&block) == Some(offer.digest)",
     "application.bound(&block).is_some()"),
    ("the certificate of a snapshot is not verified", "peers/reader.rs", "horizon.wants_offers() && self.verify_range(it),", "horizon.wants_offers() && it.is_linked(),"),
    ("pieces of a snapshot are not compared", "peers/reader.rs", "let is_good = of.is_piece(index, bytes) || self.count(false);", "let is_good = !bytes.is_empty();"),
    ("who sends a wrong piece is asked for more", "state_sync/pieces.rs", "self.avoided.insert(by);", "let _ = by;"),
    ("who sends no piece is asked for more", "state_sync/pieces.rs", "if *missed >= MOST_MISSED {", "if *missed >= u32::MAX {"),
    ("asks of a peer wait without end", "archive/asks.rs", "if peer.waiting.len() < MOST_OF_A_PEER {", "if peer.waiting.len() < usize::MAX {"),
    ("asks of a peer take any time of the archive", "archive/asks.rs", "peer.time.spend(time.as_secs_f64(), now);", "let _ = (time, now);"),
    ("a member is offered snapshots without end", "application/requests.rs", "it.elapsed() < OFFERED_EVERY", "it.elapsed() > OFFERED_EVERY"),
    ("a member may offer snapshots without end", "state_sync.rs", "StateSync::Asking { offered, .. } => offered.insert(from),", "StateSync::Asking { offered, .. } => offered.insert(from) || true,"),
    ("the first snapshot that is offered is taken", "state_sync.rs", "Some((_, other)) if other.manifest.height >= offer.manifest.height => {}", "Some(_) => {}"),
    ("a snapshot that was being installed is forgotten", "start.rs", "let replaced = installation::resume(&settings.data, &mut application)?;",
     "let replaced: Option<u64> = None;"),
    ("a snapshot that is damaged on the disk is installed", "state_sync/installation.rs", "if !are_whole(folder, &of)? {", "if false && !are_whole(folder, &of)? {"),
    ("an archive that a snapshot took the place of is continued", "start.rs", "Some(height) if archive.tail().height < height =>", "Some(height) if height == 0 =>"),
    ("a chain that a snapshot takes the place of is overwritten", "ledger/restore.rs", "if !write_chain(&new, manifest, Lines::of(&self.folder)?, bytes)? {",
     "if write_chain(&new, manifest, Lines::of(&self.folder)?, bytes)? && self.height == u64::MAX {"),
    ("a snapshot takes the place of lines that the chain has", "ledger/restore.rs", "Some(link) => written(&link),", "Some(_) => written(&link_of(&last, taken_us)),"),
    ("a leader binds a snapshot that others have not yet", "ledger/snapshots.rs", "std::ops::Range<u64> = 8..40;", "std::ops::Range<u64> = 0..40;"),
    ("any snapshot may be bound", "ledger/snapshots.rs", "Some((digest, _)) => Some(*digest == bond.digest),", "Some(_) => Some(true),"),
    ("blocks are pruned that a snapshot's successors need", "application/requests.rs", "self.bound.iter().filter_map(|it| it.2).min()", "self.bound.iter().filter_map(|it| it.2).max()"),
    ("what takes the place of a file overwrites it", "set_aside.rs", ".find(|it| fs::symlink_metadata(it).is_err())", ".next()"),
    ("nobody says which block all others have pruned", "replica/finality.rs", "let height = if is_nowhere { tail.height + 1 } else { 0 };",
     "let (height, is_nowhere) = (0, is_nowhere && pruned > others);"),
    ("a member that is down hides which block the others have pruned", "replica/finality.rs",
     " || (stands > LACKING && is_pruned(pruned, others, others / 3));", ";"),
    ("an application that lost blocks is not given them again", "start.rs", "    replay(&mut archive, application)?;\n", ""),
    ("a certificate of too few votes is taken", "../../keys/src/public.rs", "signed.len() == self.quorum()", "signed.len() + 1 >= self.quorum()"),
    ("a damaged journal is taken for a torn one", "../../journal/src/format.rs", "if at == HEAD || was_synced(bytes, at) || !is_torn(bytes, at) {", "if at == HEAD {"),
    ("zeros behind the last entries are damage", "../../journal/src/format.rs", "|| !is_torn(bytes, at) {", "|| bytes.len() - at >= BEFORE {"),
    ("what was synced and is lacking is taken for torn", "../../journal/src/format.rs", "|| was_synced(bytes, at) ||", "||"),
    ("entries do not say what was synced before them", "../../journal/src/journal.rs", "format::piece(entries, it.synced)?", "format::piece(entries, 0)?"),
    ("a journal that failed is written to", "../../journal/src/journal.rs", "        if self.has_failed {\n            return Err", "        if false {\n            return Err"),
    ("a node that can't store continues", "replica.rs", "Output::Store(entries) => self.parts.journal.append(&entries)?,",
     "Output::Store(entries) => drop(self.parts.journal.append(&entries)),"),
    ("a record is made short and the journal kept", "replica.rs", "self.parts.journal.replace(&entries)?;", "drop(entries);"),
    ("a write of the journal that failed is ignored", "../../journal/src/journal.rs", "it.file.as_mut().map_or(Ok(()), |file| file.write_all(&piece))?;",
     "let _ = it.file.as_mut().map_or(Ok(()), |file| file.write_all(&piece));"),
    ("a sync of the journal that failed is ignored", "../../journal/src/journal.rs", "it.file.as_ref().map_or(Ok(()), File::sync_data)?;",
     "let _ = it.file.as_ref().map_or(Ok(()), File::sync_data);"),
    ("a new journal is not synced", "../../journal/src/journal.rs", "    file.sync_all()?;\n    fs::rename", "    fs::rename"),
    ("the folder of a new journal is not synced", "../../journal/src/journal.rs", "    Ok(sync_folder(folder)?)\n", "    Ok(())\n"),
    ("the folder above a new one is not synced", "../../journal/src/journal.rs", "all[..unsure].iter()", "all[unsure..].iter()"),
    ("the folder of a new segment is not synced", "segments.rs", "            sync_folder(&self.folder)?;\n", ""),
    ("the folder above new segments is not synced", "segments.rs", "            sync_folder(folder.parent().unwrap_or(Path::new(\".\")))?;\n", ""),
    ("what an earlier process wrote is not synced", "segments.rs", "        segments.is_dirty = true;\n", ""),
    ("blocks that can't be written are ignored", "segments.rs", "file.write_all(&framed).map_err(not_stored(&segment))?;",
     "let _ = file.write_all(&framed).map_err(not_stored(&segment));"),
    ("an archive that can't be stored is logged alone", "archive/keeper.rs",
     "self.inbox.tell(Event::Failed(format!(\"the archive: {error}\")));\n                return;", "self.log(&error);"),
    ("a chain that can't be stored is ignored", "ledger.rs", "self.synced.next(&self.file, self.height).map_err(not_stored(&self.path))",
     "Ok(self.synced.next(&self.file, self.height).unwrap_or(self.height))"),
    ("a vote that a signer did not store is signed when it is asked for again", "signer/guard.rs", "        if self.has_failed {\n", "        if false {\n"),
    ("a new file that a crash left stays", "signer/guard.rs", "        guard.remove_left_files();\n", ""),
    ("a new file of others is removed", "signer/guard.rs", "text.starts_with(of_owner) && text[..end].lines().skip(1).all(is_stored)", "end > 0 || is_stored(text) || true"),
    ("a file that another signer replaced is taken", "signer/guard.rs", "Ok(()) if is_named().map_err(|error| at(path, error))? => Ok(()),",
     "Ok(()) if is_named().is_ok() => Ok(()),"),
    ("who is slow with a request is waited for", "http.rs", "self.stream.set_read_timeout(self.left()?)?;", "self.stream.set_read_timeout(Some(WITHIN))?;"),
    ("who does not read a reply is waited for", "http.rs", "self.stream.set_write_timeout(self.left()?)?;", "self.stream.set_write_timeout(None)?;"),
    ("the lag counts what is passed to the archive", "replica/finality.rs", "target.get().saturating_sub(self.parts.keeper.synced().get())", "views"),
    ("each final view writes all blocks again", "blocks.rs", "        let last = self.segments.lengths().last_key_value().map(|(number, _)| *number);\n",
     "        for block in self.by_payload.values() {\n            let (segment, _) = self.segments.append(self.next, block.bytes())?;\n"
     "            self.next += 1;\n            self.highest.insert(segment, archived);\n        }\n"
     "        let last = self.segments.lengths().last_key_value().map(|(number, _)| *number);\n"),
    ("blocks that are passed stay on the disk", "blocks.rs", "self.highest.iter().filter_map(is_over).collect();",
     "self.highest.iter().filter_map(is_over).take(0).collect();"),
    ("two processes have one key", "../../journal/src/journal.rs", "Err(TryLockError::WouldBlock) => Err(JournalError::new(folder, Cause::InUse)),",
     "Err(TryLockError::WouldBlock) => Ok(file),"),
    ("a leader that proposes early and often takes all room", "replica.rs", "if is_near && (is_first || self.parts.engine.admits_vote(view)) {", "if is_near {"),
    ("all blocks of a leader are kept", "replica.rs", "if is_near && is_first || self.missing", "if is_near || self.missing"),
    ("a peer that floods holds up the others", "../../net/src/inbox.rs", "self.turn = (index + 1) % count;", "self.turn = 0;"),
    ("a node without a journal makes one", "start.rs", "test_journal(&settings.data)?;", "let _ = (test_journal(&settings.data), crate::init(settings));"),
    ("what a lost journal left is not named", "start.rs", "match places.into_iter().find(|it| it.exists()) {", "match places.into_iter().find(|_| false) {"),
    ("init takes a folder that holds something", "init.rs", "    test_free(folder)?;\n", "    let _ = test_free(folder);\n"),
    ("init takes no folder that an interrupted init left", "init.rs", "if !is_of_init(&entry)", "if is_of_init(&entry).is_ok() || !is_of_init(&entry)"),
    ("init takes a folder whose lock holds something", "init.rs", " && metadata.len() == 0", ""),
    ("a file that was to replace a lost journal is overwritten", "../../journal/src/journal.rs", "&& !is_begun(&fresh, bytes)? {",
     "&& is_begun(&fresh, bytes).is_err() {"),
    ("what a file named as the lock holds is cut away", "../../journal/src/journal.rs", ".truncate(false)", ".truncate(true)"),
    ("a folder that an interrupted process made is not synced above", "../../journal/src/journal.rs", "{ missing } else { all.len() };",
     "{ 0 } else { missing };"),
    ("a journal of another key is taken", "../../journal/src/journal.rs", "Some(difference) => Err(refused(Cause::Other(difference))),", "Some(_) => Ok(Some(recovered)),"),
    ("a journal that is older than the chain is taken", "start.rs", "if height == 0 || last <= finalized {", "if true {"),
    ("a block is final before its finalization is stored", "replica.rs", "matches!(output, Output::Finalized(_)) || is_behind", "is_behind"),
    ("a run removes what it did not write", "run_folder.rs", "if !is_empty && !is_marked {", "if false {"),
    ("blocks are built without a pause", "pace.rs", "let paced = self.last.map_or(now, |last| last + self.least);", "let paced = now;"),
    ("a handoff does not wait", "pace.rs", "if is_handoff { paced.max(asked.since + self.handoff) } else { paced }", "paced"),
    ("a handoff waits after its view was entered", "pace.rs", "let is_handoff = *view > current && self", "let is_handoff = self"),
    ("a block within a term waits as in a handoff", "pace.rs", "*view > current && self.turns.begins_term(*view)", "*view > current"),
    ("a leader's vote is not sent to those that voted for another proposal", "leader_votes.rs", "found.to_send = seen.others(leader);", ""),
    ("a leader's vote is dropped where its view is certified", "peers/reader.rs", "(is_proposal || !horizon.knows(&vote.subject))",
     "!horizon.knows(&vote.subject)"),
    ("a vote for another proposal is dropped where the view is certified", "peers/horizon.rs",
     "locked(&self.known).certificates.get(&key) == Some(subject)", "locked(&self.known).certificates.contains_key(&key)"),
    ("votes in a notarization are not compared", "replica/far.rs", "let found = self.leader_votes.see_certificate(&it);", "let found = Default::default();"),
    ("what is signed in one network counts in another", "../../identity/src/identity.rs", "self.shared(b\"simplex-node namespace\").into()",
     "Namespace::new([0; 32])"),
    ("a vote is verified without its namespace", "../../keys/src/public.rs", "&vote.subject.text(&self.namespace)", "&vote.subject.encode()"),
    ("the settings name another namespace", "settings.rs", "(self.identity()?.namespace(), Epoch::new(it.epoch))", "(simplex_view_state::Namespace::new([0; 32]), Epoch::new(it.epoch))"),
    ("a journal of another network is taken", "../../identity/src/identity.rs", "if self.network != member.network {", "if false {"),
    ("genesis is the same in all networks", "../../identity/src/identity.rs", "text.extend_from_slice(&self.network.prefixed());", ""),
    ("who answers at a member's address is taken for it", "../../net/src/tls.rs",
     "chain.error_depth() == 0 && key.is_some_and(|it| is_allowed(&members, &it))", "chain.error_depth() == 0 || key.is_some_and(|it| is_allowed(&members, &it))"),
    ("a greeting's time begins anew with each read", "../../net/src/tls.rs",
     "let left = until.checked_duration_since(Instant::now()).filter(|it| !it.is_zero());", "let left = (until.elapsed() < Duration::from_secs(600)).then_some(Duration::from_secs(2));"),
    ("a member with other settings is taken", "peers.rs", '        ("term_length", &identity.term_length.to_string()),\n', ""),
    ("settings are not compared", "../../net/src/greeting.rs", "there_name != name.as_bytes() || there != here.as_bytes()", "there_name != name.as_bytes()"),
    ("any text is an address", "../../net/src/address.rs", "text.len() <= 253 && !is_number && text.split('.').all(is_part)", "!is_number || is_part(text)"),
    ("a node listens where it is dialled", "settings.rs", "self.listen.as_ref().unwrap_or(&self.members[self.index as usize].address)",
     "&self.members[self.index as usize].address"),
    ("events of what came are not traced", "replica.rs", "self.events.after(seen, is_of_use);", "drop(seen);"),
    ("a resume is traced as a start", "events.rs", "if entries == 0 {", "if entries < u64::MAX {"),
    ("traces of two runs are mixed", "bin/simplex-local/traced.rs", ".find(|it| it.exists())", ".find(|_| false)"),
    ("a full queue of events is waited for", "../../trace/src/queue.rs", "to.try_send(line).is_ok()", "to.send(line).is_ok()"),
    ("dropped events are not counted", "../../trace/src/queue.rs", "self.dropped.fetch_add(1, Relaxed);", "{}"),
    ("a trace is written over any file", "../../trace/src/file.rs", "Some(Err(_)) | None => Err(FileError::NoTrace(path.to_owned())),",
     "Some(Err(_)) | None => Ok(None),"),
    ("a trace is written over another program's", "../../trace/src/file.rs", "let earlier = header_at(path)?.filter(|it| program",
     "let earlier = header_at(path)?.filter(|_| false).filter(|it| program"),
    ("a lifetime is appended to half a line", "../../trace/src/file.rs", "cut_last_line(path, &file).map_err(named)?;", ""),
    ("another version is read", "../../trace/src/reader.rs", "if version != VERSION {", "if version == 0 {"),
    ("a certificate that came is made here", "../../trace/src/observer.rs", "let is_made = !self.accepted.contains(&(kind, view));",
     "let is_made = true;"),
    ("each first view of a term is a handoff", "../../trace/src/observer.rs", "if is_first_of_term && !is_certified {", "if is_first_of_term {"),
    ("a view that is left is not explained", "../../trace/src/withheld.rs", "let events = left.filter(is_tracked)",
     "let events = left.filter(is_tracked).filter(|_| false)"),
    ("a vote to nullify explains each vote that is withheld", "../../trace/src/withheld.rs", "if is_new || !engine.voted_nullify(views.current) {",
     "if is_new || current > 0 {"),
    ("why votes were withheld is not on the page", "../../view/src/reasons.rs", "of_reason.entry(*reason).or_default().insert(*member);",
     "let _ = (reason, member);"),
    ("a leader that had ended is thought slow", "../../view/src/facts.rs", "Code::Crash => self.set_up(seen.member, false),", "Code::Crash => {}"),
    ("text of a trace ends a script of the page", "../../view/src/page.rs", "json.replace('<', \"\\\\u003c\")", "json.to_owned()"),
    ("traces of two networks make one page", "../../view/src/merge.rs", "if !reader.header.is_of_the_network_of(&run.header) {", "if reader.header.members == 0 {"),
    ("a simulated host forgets its journal", "../../sim/src/engine_host.rs",
     "Some(stored) => Engine::resume(&config, &options, now, stored, &self.disk.journal)?,", "Some(_) => Engine::start(&config, &options, now)?,"),
    ("a vote that is cast twice is not seen", "../../sim/src/checks.rs", "let vote = message.vote().filter(|it| it.signer == from)?;",
     "let vote = message.vote().filter(|it| it.signer != from)?;"),
    ("a disagreement is not seen", "../../sim/src/network.rs", "let violation = self.checks.finalized(Participant::new(index as u32), proposal);",
     "let violation = None;"),
    ("a simulation has chance of its own", "../../sim/src/network.rs", "random: Random::new(plan.seed),",
     "random: Random::new(plan.seed ^ u64::from(std::time::UNIX_EPOCH.elapsed().map_or(0, |it| it.subsec_nanos()))),"),
    ("links are never cut", "../../sim/src/network.rs", "let is_cut = side(sent.from) != side(sent.to);", "let is_cut = false;"),
    ("a silent leader proposes", "../../sim/src/fault.rs", "if matches!(sent.message, Message::Proposal(..)) {", "if false {"),
    ("what is passed is not cancelled", "application/worker.rs", "cancelled.cancel();\n        }\n    }\n\n    /// Asks something", "drop(cancelled);\n        }\n    }\n\n    /// Asks something"),
    ("a host of parts asks for a missing block at each reply", "../examples/with_parts/host.rs", "self.blocks.hole().filter(|it| Some(*it) != asked)",
     "self.blocks.hole().filter(|_| asked != Some(Default::default()))"),
    ("a notarized block on another block than the notarized one is judged", "replica/blocks.rs",
     "let is_good = block.is_of(&proposal) && self.may_be_parent(block.parent)?;", "let is_good = block.is_of(&proposal);"),
    ("an answer of the application is lost", "replica/blocks.rs", "self.handle(Input::Certified { view, is_success })?;", "drop(is_success);"),
    ("the disk is waited for before a reply that is near", "replica.rs", "            self.take_replies()?;\n", ""),
    ("a slow application is waited for each time", "application/worker.rs", "!self.shared.is_slow.load(Relaxed) && {", "{"),
    ("a panic of the application is not told", "application/worker.rs", 'None => "the application panicked".to_owned(),', "None => return,"),
    ("a certificate of a far view does not wait", "replica/far.rs", "const FAR: u64 = 256;", "const FAR: u64 = 1 << 40;"),
    ("the ledger over HTTP forgets what ancestors hold", "../examples/ledger_http/ledger.rs", "ancestors.iter().filter_map(transactions)",
     "ancestors.iter().take(0).filter_map(transactions)"),
    ("an application is shown no ancestors", "application/worker.rs", "above.after(last, parent, self.shared.lock().finals.iter());",
     "above.after(last, parent, self.shared.lock().finals.iter()).map(|_| Ancestors::default());"),
    ("final blocks that wait are no ancestors", "application/worker.rs", "parent, self.shared.lock().finals.iter());", "parent, [].iter());"),
    ("all final blocks that wait are ancestors of each block", "application/worker.rs", "backlog.finals.len() > MOST_FINALS &&", "backlog.finals.len() > usize::MAX - 1 &&"),
    ("a block without an ancestor is invalid", "application/ancestors.rs", "None => return Branch::Missing(next.0, next.1),", "None => return Branch::Broken,"),
    ("a branch that leaves out a final block is waited for", "application/ancestors.rs", "if next.0 <= last.0 {\n                return Branch::Broken;",
     "if next.0 <= last.0 {\n                return Branch::Missing(next.0, next.1);"),
    ("what waits for a block waits on where that is archived", "missing_blocks.rs", "self.take_where(|block| block.0 <= upto)", "self.take_where(|block| block.0 < upto && upto == View::GENESIS)"),
    ("a build that never began is not answered", "application/worker.rs", "is_build || !is_passed", "let _ = is_build; !is_passed"),
    ("a damaged line of the chain is cut away", "ledger.rs", "            let link = link?;\n", "            let Ok(link) = link else { break };\n"),
    ("a start has the whole chain in memory", "ledger.rs", "for link in Lines::of(folder)? {", "for link in read_chain(folder)?.into_iter().map(Ok::<Link, io::Error>) {"),
    ("final blocks that come at once are not wanted yet", "replica/finality.rs", "        self.parts.horizon.want_ranges(self.catch_up.asked().collect());\n",
     "        let (horizon, wanted) = (self.parts.horizon.clone(), self.catch_up.asked().collect());\n"
     "        std::thread::spawn(move || {\n            std::thread::sleep(std::time::Duration::from_millis(50));\n            horizon.want_ranges(wanted);\n        });\n"),
    ("a snapshot is taken beside the whole old chain in memory", "ledger/restore.rs", "        if !write_chain(&new, manifest, Lines::of(&self.folder)?",
     "        let _whole: Vec<_> = Lines::of(&self.folder)?.collect();\n        if !write_chain(&new, manifest, Lines::of(&self.folder)?"),
    ("a chain that is longer than a snapshot is its beginning", "ledger/restore.rs", "Ok(is_beginning && old.next().transpose()?.is_none())",
     "Ok(is_beginning)"),
    ("a key that others may read is taken", "crypto.rs", "if mode & 0o077 != 0 {", "if mode == 0 {"),
    ("the bytes of a secret key stay in memory", "crypto.rs", "    secret.fill(0);\n", ""),
    ("a clock falls back with the machine's", "clock.rs", "self.ahead += by;", "self.ahead = Duration::ZERO; self.begun = Instant::now();"),
)


def is_ready():
    """Whether all packages are there, or could be installed."""
    if not shutil.which("cargo"):
        print("node: skipped, since there is no cargo")
        return False
    tried = subprocess.run([NODE / "setup"], capture_output=True, text=True)
    if tried.returncode:
        print(f"node: skipped, since Debian's packages can't be had: {(tried.stderr.strip() or tried.stdout.strip()).splitlines()[-1]}")
    return tried.returncode == 0


def faults(surroundings, target):
    """What is not as it has to be."""
    for name, file, old, _ in WRONG_BODIES:
        if (count := (NODE / "node/src" / file).read_text().count(old)) != 1:
            yield f"{name}: its text stands {count} times in {file}"
    # Built alone first, as a newcomer does: the tests' build would bring what a command does not name.
    yield from newcomers_faults(surroundings, target)
    yield from operators_faults(target)
    # What a test measures in a long run is measured alone.
    at_once = 1 if "SIMPLEX_LONG" in surroundings else os.cpu_count()
    try:
        passed, failed = side_by_side.run(NODE, surroundings, at_once, beside=LINTS)
    except side_by_side.NotBuilt as error:
        yield f"the tests are not built:\n{error}"
        return
    yield from failed
    if passed < LEAST_TESTS:
        yield f"{passed} tests passed, where {LEAST_TESTS} are asked for"


def operators_faults(target):
    """What is not as it has to be of the units of systemd and of the container file, over the program that was built."""
    program = target / "debug/simplex-node"
    if not program.is_file():
        return
    if not shutil.which("systemd-analyze"):
        print("node: the units of systemd were not verified: there is no systemd-analyze")
    for unit in sorted(NODE.glob("*.service")):
        yield from units_faults(unit, program, target)
    yield from containers_faults(program)


def units_faults(unit, program, target):
    """What is not as it has to be of a unit of systemd: what it begins has to be understood by the program."""
    text = unit.read_text()
    values = dict(re.findall(r"(\w+)=(\w+)", " ".join(re.findall(r"^Environment=(.*)$", text, re.M))))
    words = re.sub(r"\$\{(\w+)\}", lambda it: values.get(it[1], ""), re.search(r"^ExecStart=(.*)$", text, re.M)[1]).split()
    # No file of it is here: it is refused by a file's name with status 1, and by 2 where it does not understand its words.
    tried = subprocess.run([program, *words[1:]], capture_output=True, text=True, timeout=60)
    if tried.returncode != 1 or "No such file" not in tried.stderr:
        yield f"{unit.name}: {' '.join(words)}: status {tried.returncode}: {tried.stderr[-500:]}"
    if shutil.which("systemd-analyze"):
        copy = target / unit.name
        copy.write_text(re.sub(r"^User=.*$", "User=root", text, flags=re.M).replace("/usr/local/bin/simplex-node", str(program)))
        done = subprocess.run(["systemd-analyze", "verify", "--man=no", copy], capture_output=True, text=True)
        about = [line for line in done.stderr.splitlines() if unit.name in line]
        if done.returncode or about:
            yield f"systemd-analyze verify {unit.name}: {about or done.stderr[-500:]}"


def containers_faults(program):
    """What is not as it has to be of the container file: its words, its user, its volume, and the libraries that the program needs."""
    text = re.sub(r"\\\n", " ", (NODE / "Containerfile").read_text())
    lines = dict(line.split(" ", 1) for line in text.splitlines() if line and not line.startswith("#"))
    words = json.loads(lines["ENTRYPOINT"]) + json.loads(lines["CMD"])
    if lines["COPY"].split() != [program.name, words[0]] or lines["USER"] in ("root", "0") or lines["VOLUME"] not in text.split("--home-dir")[1]:
        yield f"the container runs {words} as {lines['USER']}, and copies {lines['COPY']}"
    asked = subprocess.run([program, *words[1:]], capture_output=True, text=True)
    if words[-1] not in asked.stderr:
        yield f"simplex-node {' '.join(words[1:])} does not read these settings: {asked.stderr}"
    libraries = set(re.findall(r"(lib[\w.+-]+)\.so", subprocess.run(["ldd", program], capture_output=True, text=True).stdout))
    if not libraries <= IN_CONTAINER:
        yield f"the container lacks {', '.join(sorted(libraries - IN_CONTAINER))}"


def newcomers_faults(surroundings, target):
    """What is not as it has to be of the network that `./demo` runs, in a build for trying."""
    words = NETWORK.search((ROOT / "demo").read_text())[1].split()
    built = cargo(NODE, surroundings, "build", "--offline")
    if built.returncode:
        yield f"cargo build:\n{built.stderr[-4000:]}"
        return
    done = subprocess.run([target / "debug/simplex-local", *words], cwd=target, capture_output=True, text=True)
    print(done.stdout[done.stdout.find("\nThe last views"):].strip())
    if done.returncode:
        yield f"simplex-local {' '.join(words)}:\n{(done.stdout + done.stderr)[-2000:]}"
    elif "--html" in words and not (target / words[words.index("--html") + 1]).is_file():
        yield f"simplex-local {' '.join(words)} wrote no page"


def chaos(surroundings, minutes):
    """What is not as it has to be of a network under one fault after another, whose figures are printed."""
    words = ("test", "--offline", "--quiet", "--release", "--package", "simplex-node", "--test", "chaos", "--", "--nocapture")
    done = cargo(NODE, {**surroundings, "SIMPLEX_CHAOS": str(minutes)}, *words)
    print(done.stdout.strip())
    if done.returncode:
        yield f"chaos: {done.stderr[-4000:]}"


def wrong_bodies(surroundings, room, only):
    """Those that no test found, of the wrong bodies whose name holds a word."""
    copy = room / "copy"
    shutil.copytree(NODE, copy / "node", ignore=shutil.ignore_patterns("target"))
    shutil.copytree(ROOT / "bindings", copy / "bindings", ignore=shutil.ignore_patterns("target", "*.a"))
    shutil.copytree(ROOT / "docs", copy / "docs")  # whose commands are tried
    for name, file, old, new in (it for it in WRONG_BODIES if only in it[0]):
        path = copy / "node/node/src" / file
        right = path.read_text()
        if right.count(old) != 1:
            yield f"{name}: its text stands {right.count(old)} times in {file}"
            continue
        path.write_text(right.replace(old, new))
        try:
            texts = side_by_side.run(copy / "node", surroundings)[1]
        except side_by_side.NotBuilt as error:
            texts = [str(error)]
        path.write_text(right)
        failed = sorted({test for text in texts for test in re.findall(r"^    (\w[\w:]*)$", text, re.M)})
        print(f"{name}: {', '.join(failed) if failed else ''.join(texts)[-300:]}", flush=True)
        if not failed:
            yield f"{name}: no test failed"


def main():
    parser = argparse.ArgumentParser(description=__doc__, formatter_class=argparse.RawDescriptionHelpFormatter)
    parser.add_argument("--archive", type=Path, help="the library, if it is built already")
    parser.add_argument("--target", type=Path, help="cargo's folder (else one that is removed)")
    parser.add_argument("--long", action="store_true", help="fifty kills, what floods cost, a minute without packets, long blocks, processes that stand still")
    parser.add_argument("--chaos", type=float, metavar="MINUTES", help="one network under one fault after another, for so long, alone")
    parser.add_argument("--wrong", action="store_true", help="the wrong bodies alone")
    parser.add_argument("--only", default="", help="the wrong bodies whose name holds this")
    given = parser.parse_args()
    if not is_ready():
        sys.exit(SKIPPED)
    with tempfile.TemporaryDirectory() as room:
        room = Path(room)
        archive = given.archive and given.archive.resolve() or room / "libsimplex.a"
        if not given.archive:
            subprocess.run([ROOT / "bindings/build", "--unproved", "--out", archive], check=True)
        target = given.target or room / "target"
        surroundings = {**os.environ, "SIMPLEX_ARCHIVE": str(archive), "CARGO_TARGET_DIR": str(target), "CARGO_NET_OFFLINE": "true"}
        surroundings |= {"SIMPLEX_LONG": "1"} if given.long else {}
        if given.chaos:
            found = list(chaos(surroundings, given.chaos))
        else:
            found = list(wrong_bodies(surroundings, room, given.only) if given.wrong else faults(surroundings, target))
    for it in found:
        print(it)
    print(f"node: {len(found)} not as they have to be")
    sys.exit(1 if found else 0)


if __name__ == "__main__":
    main()
