//! The functions of `bindings/c/include/simplex.h`, as C has them. Nothing of this module is public.

use std::ffi::c_char;
use std::marker::PhantomData;

/// The result of `simplex_version` for the structs below.
pub(crate) const VERSION: u32 = 5;

/// The kinds of certificates. Votes of a kind make the certificate of the same number.
pub(crate) const NOTARIZATION: u32 = 1;
pub(crate) const NULLIFICATION: u32 = 2;
pub(crate) const FINALIZATION: u32 = 3;

/// No member.
pub(crate) const NOBODY: u32 = u32::MAX;

/// Which items of the last reply are read.
pub(crate) const PROPOSALS: u32 = 1;
pub(crate) const FETCHES: u32 = 2;
pub(crate) const DROPPED: u32 = 3;

/// Which bytes of a member are read.
pub(crate) const OF_REPLY: u32 = 0;
pub(crate) const SHOWN: u32 = 1;

/// Which bytes of an engine are read.
pub(crate) const OF_OUTPUT: u32 = 0;
pub(crate) const OTHER_OF_OUTPUT: u32 = 1;
pub(crate) const SHOWN_OF_ENGINE: u32 = 2;

/// All bytes that wait behind a handle, of which `part` reads those from a byte on.
pub(crate) fn all_bytes(part: impl Fn(u64) -> Chunk) -> Vec<u8> {
    let mut bytes = Vec::new();
    loop {
        let chunk = part(bytes.len() as u64);
        if chunk.count == 0 {
            return bytes;
        }
        bytes.extend_from_slice(&chunk.bytes[..chunk.count as usize]);
    }
}

#[repr(C)]
#[derive(Clone, Copy, Default)]
pub(crate) struct Round {
    pub(crate) epoch: u64,
    pub(crate) view: u64,
}

#[repr(C)]
#[derive(Clone, Copy, Default)]
pub(crate) struct Proposal {
    pub(crate) round: Round,
    pub(crate) parent: u64,
    pub(crate) payload: [u8; 32],
}

#[repr(C)]
#[derive(Clone, Copy, Default)]
pub(crate) struct Call {
    pub(crate) kind: u32,
    pub(crate) reason: u32,
    pub(crate) success: u32,
    pub(crate) reserved: u32,
    pub(crate) view: u64,
    pub(crate) moment: u64,
    pub(crate) token: u64,
    pub(crate) round: Round,
    pub(crate) proposal: Proposal,
}

#[repr(C)]
#[derive(Clone, Copy, Default)]
pub(crate) struct Context {
    pub(crate) round: Round,
    pub(crate) parent: u64,
    pub(crate) payload: [u8; 32],
}

#[repr(C)]
#[derive(Clone, Copy)]
pub(crate) struct Reply {
    pub(crate) status: u32,
    pub(crate) kind: u32,
    pub(crate) has: u32,
    pub(crate) flag: u32,
    pub(crate) member: u32,
    pub(crate) reason: u32,
    pub(crate) moment: u64,
    pub(crate) waiting: u64,
    pub(crate) lacking: u64,
    pub(crate) count: u64,
    pub(crate) fetches: u64,
    pub(crate) proposal: Proposal,
    pub(crate) context: Context,
}

#[repr(C)]
#[derive(Clone, Copy)]
pub(crate) struct Fetch {
    pub(crate) proposal: u64,
    pub(crate) view: u64,
}

#[repr(C)]
#[derive(Clone, Copy)]
pub(crate) struct Settings {
    pub(crate) members: u32,
    pub(crate) signer: u32,
    pub(crate) term_length: u32,
    pub(crate) draws: u32,
    pub(crate) stalls: u32,
    pub(crate) is_finalized: u32,
    pub(crate) stall_timeout: u64,
    pub(crate) optimistic_views: u64,
    pub(crate) epoch: u64,
    pub(crate) view_retention: u64,
    pub(crate) leader_timeout: u64,
    pub(crate) certification_timeout: u64,
    pub(crate) timeout_retry: u64,
    pub(crate) skip_timeout: u64,
    pub(crate) skip_budget: u64,
    pub(crate) floor: Proposal,
    pub(crate) namespace: [u8; 32],
}

#[repr(C)]
#[derive(Clone, Copy)]
pub(crate) struct Stored {
    pub(crate) entries: u64,
    pub(crate) closed: u64,
    pub(crate) retention: u64,
    pub(crate) least_retention: u64,
    pub(crate) is_pruned: u32,
    pub(crate) reserved: u32,
}

#[repr(C)]
#[derive(Clone, Copy)]
pub(crate) struct Restart {
    pub(crate) drop: u64,
    pub(crate) moment: u64,
    pub(crate) prune: u32,
    pub(crate) reserved: u32,
    pub(crate) settings: Settings,
}

#[repr(C)]
#[derive(Clone, Copy)]
pub(crate) struct Entries {
    pub(crate) status: u32,
    pub(crate) reserved: u32,
    pub(crate) bytes: u64,
    pub(crate) stored: Stored,
}

#[repr(C)]
#[derive(Clone, Copy)]
pub(crate) struct Withheld {
    pub(crate) status: u32,
    pub(crate) reason: u32,
}

#[repr(C)]
#[derive(Clone, Copy)]
pub(crate) struct View {
    pub(crate) status: u32,
    pub(crate) leader: u32,
    pub(crate) is_tracked: u32,
    pub(crate) admits_vote: u32,
    pub(crate) admits_certificate: u32,
    pub(crate) voted_nullify: u32,
    pub(crate) has_notarization: u32,
    pub(crate) has_nullification: u32,
    pub(crate) has_finalization: u32,
    pub(crate) has_forwardable: u32,
    pub(crate) epoch: u64,
    pub(crate) current: u64,
    pub(crate) last_finalized: u64,
    pub(crate) min_active: u64,
    pub(crate) forwardable: Proposal,
}

#[repr(C)]
#[derive(Clone, Copy)]
pub(crate) struct Found {
    pub(crate) status: u32,
    pub(crate) has: u32,
    pub(crate) bytes: u64,
    pub(crate) proposal: Proposal,
}

#[repr(C)]
#[derive(Clone, Copy)]
pub(crate) struct Item {
    pub(crate) status: u32,
    pub(crate) has: u32,
    pub(crate) view: u64,
    pub(crate) fetch: Fetch,
    pub(crate) proposal: Proposal,
}

#[repr(C)]
#[derive(Clone, Copy)]
pub(crate) struct Chunk {
    pub(crate) status: u32,
    pub(crate) reserved: u32,
    pub(crate) count: u64,
    pub(crate) bytes: [u8; 1024],
}

#[repr(C)]
#[derive(Clone, Copy)]
pub(crate) struct Text {
    pub(crate) status: u32,
    pub(crate) count: u32,
    pub(crate) bytes: [u8; 96],
}

#[repr(C)]
#[derive(Clone, Copy)]
pub(crate) struct Scan {
    pub(crate) entries: u64,
    pub(crate) bytes: u64,
    pub(crate) ending: u32,
    pub(crate) reserved: u32,
}

#[repr(C)]
#[derive(Clone, Copy)]
pub(crate) struct Told {
    pub(crate) kind: u32,
    pub(crate) success: u32,
    pub(crate) proposal: Proposal,
}

#[repr(C)]
#[derive(Clone, Copy)]
pub(crate) struct Effects {
    pub(crate) status: u32,
    pub(crate) reserved: u32,
    pub(crate) count: u64,
    pub(crate) fetches: u64,
}

#[repr(C)]
#[derive(Clone, Copy)]
pub(crate) struct Effect {
    pub(crate) status: u32,
    pub(crate) kind: u32,
    pub(crate) reason: u32,
    pub(crate) reserved: u32,
    pub(crate) view: u64,
    pub(crate) cause: u64,
    pub(crate) end: u64,
}

#[repr(C)]
#[derive(Clone, Copy)]
pub(crate) struct Settled {
    pub(crate) status: u32,
    pub(crate) is_failed: u32,
    pub(crate) is_open: u32,
    pub(crate) nullification: u32,
    pub(crate) notarization: u32,
    pub(crate) uncertifiable: u32,
    pub(crate) fetches: u64,
}

#[repr(C)]
#[derive(Clone, Copy)]
pub(crate) struct Outstanding {
    pub(crate) status: u32,
    pub(crate) reserved: u32,
    pub(crate) count: u64,
    pub(crate) bytes: u64,
}

#[repr(C)]
#[derive(Clone, Copy)]
pub(crate) struct Served {
    pub(crate) status: u32,
    pub(crate) has: u32,
    pub(crate) bytes: u64,
    pub(crate) view: u64,
}

#[repr(C)]
#[derive(Clone, Copy, Default)]
pub(crate) struct Subject {
    pub(crate) kind: u32,
    pub(crate) member: u32,
    pub(crate) proposal: Proposal,
}

#[repr(C)]
#[derive(Clone, Copy)]
pub(crate) struct Options {
    pub(crate) retry: u64,
    pub(crate) on_its_way: u64,
    pub(crate) long_record: u64,
}

#[repr(C)]
#[derive(Clone, Copy, Default)]
pub(crate) struct Input {
    pub(crate) kind: u32,
    pub(crate) reason: u32,
    pub(crate) success: u32,
    pub(crate) reserved: u32,
    pub(crate) view: u64,
    pub(crate) subject: Subject,
    pub(crate) context: Context,
}

#[repr(C)]
#[derive(Clone, Copy)]
pub(crate) struct Taken {
    pub(crate) status: u32,
    pub(crate) is_of_use: u32,
}

#[repr(C)]
#[derive(Clone, Copy)]
pub(crate) struct Output {
    pub(crate) status: u32,
    pub(crate) kind: u32,
    pub(crate) fetch: u32,
    pub(crate) member: u32,
    pub(crate) view: u64,
    pub(crate) bytes: u64,
    pub(crate) other_bytes: u64,
    pub(crate) stored: Stored,
    pub(crate) subject: Subject,
    pub(crate) other: Subject,
    pub(crate) context: Context,
}

#[repr(C)]
#[derive(Clone, Copy)]
pub(crate) struct Status {
    pub(crate) status: u32,
    pub(crate) reserved: u32,
    pub(crate) wake: u64,
    pub(crate) ignored: u64,
    pub(crate) fetches: u64,
}

#[repr(C)]
#[derive(Clone, Copy)]
pub(crate) struct Open {
    pub(crate) status: u32,
    pub(crate) fetch: u32,
    pub(crate) view: u64,
    pub(crate) count: u64,
    pub(crate) moment: u64,
}

/// An engine behind its handle.
#[repr(C)]
pub(crate) struct OpaqueEngine {
    _nothing: [u8; 0],
    _not_shared: PhantomData<*mut u8>,
}

/// A resolver behind its handle.
#[repr(C)]
pub(crate) struct OpaqueResolver {
    _nothing: [u8; 0],
    _not_shared: PhantomData<*mut u8>,
}

/// A member behind its handle.
#[repr(C)]
pub(crate) struct Opaque {
    _nothing: [u8; 0],
    _not_shared: PhantomData<*mut u8>,
}

const _: () = assert!(size_of::<Call>() == 112 && size_of::<Reply>() == 176 && size_of::<Settings>() == 184);
const _: () = assert!(size_of::<Restart>() == 208 && size_of::<Entries>() == 56 && size_of::<View>() == 128);
const _: () = assert!(size_of::<Found>() == 72 && size_of::<Item>() == 88 && size_of::<Chunk>() == 1040);
const _: () = assert!(size_of::<Text>() == 104 && size_of::<Scan>() == 24 && size_of::<Stored>() == 40);
const _: () = assert!(size_of::<Told>() == 64 && size_of::<Effects>() == 24 && size_of::<Effect>() == 40);
const _: () = assert!(size_of::<Settled>() == 32 && size_of::<Served>() == 24 && size_of::<Outstanding>() == 24);
const _: () = assert!(size_of::<Subject>() == 64 && size_of::<Options>() == 24 && size_of::<Input>() == 144);
const _: () = assert!(size_of::<Taken>() == 8 && size_of::<Output>() == 264 && size_of::<Status>() == 32 && size_of::<Open>() == 32);

unsafe extern "C" {
    pub(crate) safe fn simplex_version() -> u32;
    pub(crate) safe fn simplex_build_info() -> *const c_char;
    pub(crate) fn simplex_member_start(
        settings: &Settings,
        leaders: *const u32,
        leaders_len: usize,
        certificate: *const u8,
        certificate_len: usize,
        now: u64,
        out: &mut *mut Opaque,
    ) -> u32;
    pub(crate) fn simplex_member_resume(
        settings: &Settings,
        leaders: *const u32,
        leaders_len: usize,
        certificate: *const u8,
        certificate_len: usize,
        now: u64,
        stored: &Stored,
        journal: *const u8,
        journal_len: usize,
        out: &mut *mut Opaque,
    ) -> u32;
    pub(crate) fn simplex_member_call(at: *mut Opaque, call: &Call, certificate: *const u8, certificate_len: usize) -> Reply;
    pub(crate) fn simplex_member_bytes(at: *mut Opaque, which: u32, from: u64) -> Chunk;
    pub(crate) fn simplex_member_item(at: *mut Opaque, which: u32, index: u64) -> Item;
    pub(crate) fn simplex_member_certificate(at: *mut Opaque, kind: u32, view: u64) -> Found;
    pub(crate) fn simplex_member_entries(at: *mut Opaque, count: u64) -> Entries;
    pub(crate) fn simplex_member_prune_record(at: *mut Opaque) -> Entries;
    pub(crate) fn simplex_member_view(at: *mut Opaque, view: u64) -> View;
    pub(crate) fn simplex_member_withheld(at: *mut Opaque, kind: u32, view: u64) -> Withheld;
    pub(crate) fn simplex_member_restart(
        at: *mut Opaque,
        restart: &Restart,
        leaders: *const u32,
        leaders_len: usize,
        certificate: *const u8,
        certificate_len: usize,
    ) -> u32;
    pub(crate) fn simplex_member_free(at: *mut Opaque);
    pub(crate) safe fn simplex_subject(namespace: &[u8; 32], kind: u32, proposal: &Proposal) -> Text;
    pub(crate) fn simplex_scan(journal: *const u8, journal_len: usize) -> Scan;
    pub(crate) fn simplex_resolver_start(term_length: u32, journal: *const u8, journal_len: usize, out: &mut *mut OpaqueResolver) -> u32;
    pub(crate) fn simplex_resolver_told(at: *mut OpaqueResolver, told: &Told, certificate: *const u8, certificate_len: usize) -> Effects;
    pub(crate) fn simplex_resolver_effect(at: *mut OpaqueResolver, index: u64) -> Effect;
    pub(crate) fn simplex_resolver_settled(at: *mut OpaqueResolver, view: u64) -> Settled;
    pub(crate) fn simplex_resolver_outstanding(at: *mut OpaqueResolver) -> Outstanding;
    pub(crate) fn simplex_resolver_produce(at: *mut OpaqueResolver, view: u64) -> Served;
    pub(crate) fn simplex_resolver_bytes(at: *mut OpaqueResolver, from: u64) -> Chunk;
    pub(crate) fn simplex_resolver_free(at: *mut OpaqueResolver);
    pub(crate) fn simplex_engine_start(
        settings: &Settings,
        leaders: *const u32,
        leaders_len: usize,
        certificate: *const u8,
        certificate_len: usize,
        options: &Options,
        now: u64,
        out: &mut *mut OpaqueEngine,
    ) -> u32;
    pub(crate) fn simplex_engine_resume(
        settings: &Settings,
        leaders: *const u32,
        leaders_len: usize,
        certificate: *const u8,
        certificate_len: usize,
        options: &Options,
        now: u64,
        stored: &Stored,
        journal: *const u8,
        journal_len: usize,
        out: &mut *mut OpaqueEngine,
    ) -> u32;
    pub(crate) fn simplex_engine_handle(at: *mut OpaqueEngine, input: &Input, bytes: *const u8, bytes_len: usize, now: u64) -> Taken;
    pub(crate) fn simplex_engine_poll(at: *mut OpaqueEngine, now: u64) -> Output;
    pub(crate) fn simplex_engine_bytes(at: *mut OpaqueEngine, which: u32, from: u64) -> Chunk;
    pub(crate) fn simplex_engine_status(at: *mut OpaqueEngine) -> Status;
    pub(crate) fn simplex_engine_open(at: *mut OpaqueEngine, index: u64) -> Open;
    pub(crate) fn simplex_engine_view(at: *mut OpaqueEngine, view: u64) -> View;
    pub(crate) fn simplex_engine_withheld(at: *mut OpaqueEngine, kind: u32, view: u64) -> Withheld;
    pub(crate) fn simplex_engine_certificate(at: *mut OpaqueEngine, kind: u32, view: u64) -> Found;
    pub(crate) fn simplex_engine_serve(at: *mut OpaqueEngine, view: u64) -> Served;
    pub(crate) fn simplex_engine_free(at: *mut OpaqueEngine);
}
