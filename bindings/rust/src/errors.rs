//! Why a call returns no reply, and why there is no member.

use std::error::Error;
use std::fmt;

/// Why a call returns no reply. Except when memory runs out, nothing has changed.
#[derive(Clone, Copy, PartialEq, Eq, Hash, Debug)]
#[non_exhaustive]
pub enum Refusal {
    /// Out of memory: nothing has changed, or the member has failed and returns [`Refusal::Failed`] from now on.
    OutOfMemory,
    /// The member has failed. Its record is still there: call [`Member::restart`](crate::Member::restart), or store it and resume.
    Failed,
    /// A view is above 2^63 - 1.
    ViewTooLarge,
    /// A deadline is above 2^64 - 1 milliseconds.
    TimeOverflow,
    /// The host broke a condition of the call: a certificate or a proposal is of another epoch or of a view that is not retained,
    /// or no request, verification or offer is open in the view.
    NotAllowed,
    /// There was no memory for the certificate that was passed, and no call was made.
    NotMade,
}

impl Refusal {
    /// Returns the refusal of a status; `None` if the call returned a reply.
    pub(crate) fn of(status: u32) -> Option<Refusal> {
        Some(match status {
            0 => return None,
            1 => Refusal::OutOfMemory,
            2 => Refusal::Failed,
            3 => Refusal::ViewTooLarge,
            4 => Refusal::TimeOverflow,
            5 => Refusal::NotAllowed,
            7 => Refusal::NotMade,
            _ => unreachable!("status {status} of a typed call"),
        })
    }
}

impl fmt::Display for Refusal {
    fn fmt(&self, f: &mut fmt::Formatter<'_>) -> fmt::Result {
        f.write_str(match self {
            Refusal::OutOfMemory => "out of memory",
            Refusal::Failed => "the member has failed",
            Refusal::ViewTooLarge => "a view is above 2^63 - 1",
            Refusal::TimeOverflow => "a deadline is above 2^64 - 1 milliseconds",
            Refusal::NotAllowed => "the call is not allowed here",
            Refusal::NotMade => "there was no memory for the certificate, and no call was made",
        })
    }
}

impl Error for Refusal {}

/// Why an engine returns no reply. After an error of [`Engine::handle`](crate::Engine::handle) or [`Engine::poll`](crate::Engine::poll) the
/// engine has failed, except after `NotAllowed` and `NotMade`: resume another from what was stored.
#[derive(Clone, Copy, PartialEq, Eq, Hash, Debug)]
#[non_exhaustive]
pub enum EngineError {
    /// Out of memory.
    OutOfMemory,
    /// The engine or its member failed before.
    Failed,
    /// A view is above 2^63 - 1.
    ViewTooLarge,
    /// A deadline is above 2^64 - 1 milliseconds.
    TimeOverflow,
    /// An entry of the record has 2^32 bytes or more: a certificate is too long.
    EntryTooLong,
    /// This engine can't take the input: a vote, where leaders are drawn from certificates
    /// ([`Leaders::Drawn`](crate::Leaders::Drawn)), which no votes make. Nothing was passed.
    NotAllowed,
    /// There was no memory for the signature or the certificate. Nothing was passed.
    NotMade,
}

impl EngineError {
    /// Returns the error of a status; `None` if the call returned a reply.
    pub(crate) fn of(status: u32) -> Option<EngineError> {
        Some(match status {
            0 => return None,
            1 => EngineError::OutOfMemory,
            2 => EngineError::Failed,
            3 => EngineError::ViewTooLarge,
            4 => EngineError::TimeOverflow,
            6 => EngineError::NotAllowed,
            7 => EngineError::NotMade,
            14 => EngineError::EntryTooLong,
            _ => unreachable!("status {status} of an engine"),
        })
    }
}

impl fmt::Display for EngineError {
    fn fmt(&self, f: &mut fmt::Formatter<'_>) -> fmt::Result {
        f.write_str(match self {
            EngineError::OutOfMemory => "out of memory",
            EngineError::Failed => "the engine has failed",
            EngineError::ViewTooLarge => "a view is above 2^63 - 1",
            EngineError::TimeOverflow => "a deadline is above 2^64 - 1 milliseconds",
            EngineError::EntryTooLong => "an entry has 2^32 bytes or more",
            EngineError::NotAllowed => {
                "this engine's leaders are drawn from certificates: pass it certificates and no votes; nothing has changed"
            }
            EngineError::NotMade => "out of memory for the bytes that were passed; nothing has changed",
        })
    }
}

impl Error for EngineError {}

/// Why settings don't make a member.
#[derive(Clone, Copy, PartialEq, Eq, Hash, Debug)]
#[non_exhaustive]
pub enum SettingsError {
    /// There is no member, or the signer is not one of them.
    NoSuchMember,
    /// A term has no view, or the table of leaders has no entry.
    NothingLeads,
    /// There are no participants.
    NoParticipants,
    /// The leader timeout is 0.
    LeaderTimeoutZero,
    /// The certification timeout is not above the leader timeout.
    CertificationNotAboveLeader,
    /// The skip timeout is not above the certification timeout.
    SkipNotAboveCertification,
    /// The skip timeout is not above [`Config::timeout_retry`](crate::Config::timeout_retry).
    SkipNotAboveRetry,
    /// [`Config::timeout_retry`](crate::Config::timeout_retry) is 0.
    RetryZero,
    /// The view retention is 0.
    RetentionZero,
    /// The floor's finalization is of another epoch.
    FloorEpoch,
    /// The floor's finalization is of genesis.
    FloorAtGenesis,
    /// The floor's finalization is not accepted.
    FloorUnverified,
    /// The elector has other members.
    OtherMembers,
    /// An entry of the table of leaders is no member's index.
    NoSuchLeader,
    /// The table of leaders has another number of entries than there are members ([`Leaders::Table`](crate::Leaders::Table)): make it anew
    /// where the number of members has changed.
    OtherTable,
    /// A fetch would be asked again at once: [`Options::retry`](crate::Options::retry) is below a millisecond.
    FetchRetryZero,
    /// A time has more than 2^64 - 1 milliseconds.
    TimeTooLong,
}

impl fmt::Display for SettingsError {
    fn fmt(&self, f: &mut fmt::Formatter<'_>) -> fmt::Result {
        f.write_str(match self {
            SettingsError::NoSuchMember => "there is no member, or the signer is none of them",
            SettingsError::NothingLeads => "a term has no view, or the table of leaders no entry",
            SettingsError::NoParticipants => "there are no participants",
            SettingsError::LeaderTimeoutZero => "the leader timeout is 0",
            SettingsError::CertificationNotAboveLeader => "the certification timeout is not above the leader timeout",
            SettingsError::SkipNotAboveCertification => "the skip timeout is not above the certification timeout",
            SettingsError::SkipNotAboveRetry => "the skip timeout is not above the retry",
            SettingsError::RetryZero => "the retry is 0",
            SettingsError::RetentionZero => "the view retention is 0",
            SettingsError::FloorEpoch => "the floor's finalization is of another epoch",
            SettingsError::FloorAtGenesis => "the floor's finalization is of genesis",
            SettingsError::FloorUnverified => "the floor's finalization is not accepted",
            SettingsError::OtherMembers => "the elector has other members",
            SettingsError::NoSuchLeader => "an entry of the table of leaders is no member's index",
            SettingsError::OtherTable => "the table of leaders has another number of entries than there are members",
            SettingsError::FetchRetryZero => "the retry of fetches is below a millisecond",
            SettingsError::TimeTooLong => "a time has more than 2^64 - 1 milliseconds",
        })
    }
}

impl Error for SettingsError {}

/// Why a record, or a floor, is refused.
#[derive(Clone, Copy, PartialEq, Eq, Hash, Debug)]
#[non_exhaustive]
pub enum RecoverError {
    /// An entry's view is below that of the entry before it.
    OutOfOrder,
    /// The floor or an entry is of another epoch.
    OtherEpoch,
    /// The floor's finalization or an entry is of genesis.
    ZeroView,
    /// A view or a parent is above 2^63 - 1.
    ViewTooLarge,
    /// A vote is not of the member that signs here.
    ForeignSigner,
    /// A vote names a parent that is not below its view.
    ParentNotBelow,
    /// A verdict has no notarization of its view before it.
    VerdictWithoutNotarization,
    /// A verdict of a view contradicts one before it.
    ContradictingVerdicts,
    /// A view was voted both to nullify and to finalize.
    NullifyBesideFinalize,
    /// The record has two votes of one kind in a view, for two proposals.
    ContradictingVotes,
    /// A vote to finalize has no true verdict of its view before it.
    FinalizeWithoutVerdict,
    /// A deadline is above 2^64 - 1 milliseconds.
    TimeOverflow,
    /// The record was pruned, and the new retention is larger than an earlier lifetime's.
    RetentionGrown,
}

impl fmt::Display for RecoverError {
    fn fmt(&self, f: &mut fmt::Formatter<'_>) -> fmt::Result {
        f.write_str(match self {
            RecoverError::OutOfOrder => "an entry's view is below that of the entry before it",
            RecoverError::OtherEpoch => "the floor or an entry is of another epoch",
            RecoverError::ZeroView => "the floor or an entry is of genesis",
            RecoverError::ViewTooLarge => "a view or a parent is above 2^63 - 1",
            RecoverError::ForeignSigner => "a vote is not of the member that signs here",
            RecoverError::ParentNotBelow => "a vote names a parent that is not below its view",
            RecoverError::VerdictWithoutNotarization => "a verdict has no notarization of its view before it",
            RecoverError::ContradictingVerdicts => "a verdict contradicts one before it",
            RecoverError::NullifyBesideFinalize => "a view was voted both to nullify and to finalize",
            RecoverError::ContradictingVotes => "two votes of one kind in a view are for two proposals",
            RecoverError::FinalizeWithoutVerdict => "a vote to finalize has no true verdict before it",
            RecoverError::TimeOverflow => "a deadline is above 2^64 - 1 milliseconds",
            RecoverError::RetentionGrown => "the record was pruned, and the settings retain more views than an earlier lifetime did",
        })
    }
}

impl Error for RecoverError {}

/// Why there is no member: why a start, a resume or a restart is refused.
#[derive(Clone, Copy, PartialEq, Eq, Hash, Debug)]
#[non_exhaustive]
pub enum OpenError {
    /// The library has another version than this package.
    OtherVersion,
    /// Out of memory.
    OutOfMemory,
    /// The settings don't make a member.
    Settings(SettingsError),
    /// The journal has fewer entries than were stored, so votes may be lost. Such a member must not continue.
    EntriesLost,
    /// Bytes of the journal are damaged, or its end is cut: [`scan`](crate::scan) returns where.
    Damaged,
    /// A frame of the journal holds no entry of a record.
    NoEntry,
    /// The record, or the floor, is refused.
    Recover(RecoverError),
}

impl OpenError {
    /// Returns the error of a status; `None` if there is a member.
    pub(crate) fn of(status: u32) -> Option<OpenError> {
        Some(match status {
            0 => return None,
            1 => OpenError::OutOfMemory,
            11 => OpenError::EntriesLost,
            12 => OpenError::Damaged,
            13 => OpenError::NoEntry,
            8..=33 => OpenError::Settings(settings_error(status)),
            40..=52 => OpenError::Recover(recover_error(status)),
            _ => unreachable!("status {status} of a start"),
        })
    }
}

fn settings_error(status: u32) -> SettingsError {
    match status {
        8 => SettingsError::NoSuchMember,
        9 => SettingsError::NothingLeads,
        20 => SettingsError::NoParticipants,
        21 => SettingsError::LeaderTimeoutZero,
        22 => SettingsError::CertificationNotAboveLeader,
        23 => SettingsError::SkipNotAboveCertification,
        24 => SettingsError::SkipNotAboveRetry,
        25 => SettingsError::RetryZero,
        26 => SettingsError::RetentionZero,
        27 => SettingsError::FloorEpoch,
        28 => SettingsError::FloorAtGenesis,
        29 => SettingsError::FloorUnverified,
        30 => SettingsError::OtherMembers,
        31 => SettingsError::NoSuchLeader,
        32 => SettingsError::OtherTable,
        33 => SettingsError::FetchRetryZero,
        _ => unreachable!("status {status} of settings whose flags are typed"),
    }
}

fn recover_error(status: u32) -> RecoverError {
    match status {
        40 => RecoverError::OutOfOrder,
        41 => RecoverError::OtherEpoch,
        42 => RecoverError::ZeroView,
        43 => RecoverError::ViewTooLarge,
        44 => RecoverError::ForeignSigner,
        45 => RecoverError::ParentNotBelow,
        46 => RecoverError::VerdictWithoutNotarization,
        47 => RecoverError::ContradictingVerdicts,
        48 => RecoverError::NullifyBesideFinalize,
        49 => RecoverError::ContradictingVotes,
        50 => RecoverError::FinalizeWithoutVerdict,
        51 => RecoverError::TimeOverflow,
        _ => RecoverError::RetentionGrown,
    }
}

impl fmt::Display for OpenError {
    fn fmt(&self, f: &mut fmt::Formatter<'_>) -> fmt::Result {
        match self {
            OpenError::OtherVersion => f.write_str("the library has another version than this package"),
            OpenError::OutOfMemory => f.write_str("out of memory"),
            OpenError::Settings(error) => write!(f, "the settings are refused: {error}"),
            OpenError::EntriesLost => f.write_str("the journal has fewer entries than were stored"),
            OpenError::Damaged => f.write_str("the journal is damaged or cut"),
            OpenError::NoEntry => f.write_str("a frame of the journal holds no entry"),
            OpenError::Recover(error) => write!(f, "the record is refused: {error}"),
        }
    }
}

impl Error for OpenError {
    fn source(&self) -> Option<&(dyn Error + 'static)> {
        match self {
            OpenError::Settings(error) => Some(error),
            OpenError::Recover(error) => Some(error),
            _ => None,
        }
    }
}

/// Why recorded entries are not returned as bytes. The record stays, and can be asked for again.
#[derive(Clone, Copy, PartialEq, Eq, Hash, Debug)]
#[non_exhaustive]
pub enum EntriesError {
    /// Out of memory.
    OutOfMemory,
    /// An entry has 2^32 bytes or more: a certificate is too long.
    EntryTooLong,
}

impl fmt::Display for EntriesError {
    fn fmt(&self, f: &mut fmt::Formatter<'_>) -> fmt::Result {
        f.write_str(match self {
            EntriesError::OutOfMemory => "out of memory",
            EntriesError::EntryTooLong => "an entry has 2^32 bytes or more",
        })
    }
}

impl Error for EntriesError {}
