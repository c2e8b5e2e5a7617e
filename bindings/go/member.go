package simplex

// #include "simplex.h"
import "C"

import (
	"math"
	"runtime"
)

// Member is a member, for a host that writes its own engine: docs/EMBEDDING.md has the loop. A call that returns a vote has recorded it: store
// the new entries before you send the vote. One goroutine calls it at a time. Close frees it, and the garbage collector does where nobody
// closed it. After OutOfMemory nothing has changed, or the member has failed and returns Failed until a restart; after each other status
// nothing has changed. A closed member returns NoHandle.
type Member struct{ at *C.simplex_member }

// AbandonedReason says why a handoff, a proposal that is built before its parent is certified, must be abandoned.
type AbandonedReason uint32

// The reasons.
const (
	ViewExit              AbandonedReason = C.SIMPLEX_VIEW_EXIT
	AncestrySuperseded    AbandonedReason = C.SIMPLEX_ANCESTRY_SUPERSEDED
	AncestryInvalidated   AbandonedReason = C.SIMPLEX_ANCESTRY_INVALIDATED
	ParentNullify         AbandonedReason = C.SIMPLEX_PARENT_NULLIFY
	ViewNullify           AbandonedReason = C.SIMPLEX_VIEW_NULLIFY
	ResponseClosed        AbandonedReason = C.SIMPLEX_RESPONSE_CLOSED
	IneligibleAtRecording AbandonedReason = C.SIMPLEX_INELIGIBLE_AT_RECORDING
)

// Added is the result of adding a certificate.
type Added struct {
	IsNew       bool
	Equivocator *Participant // a leader that signed two proposals, which certificates show
}

// ProposalRequest is a block to build.
type ProposalRequest struct {
	Context   Context
	IsHandoff bool // its parent is not certified yet
}

// Work is what TryVerify returns: a VerifyOutput or a Missing.
type Work interface{ isWork() }

// Missing says that a proposal waits for a certificate: ask the target for it.
type Missing struct {
	Proposal View // the view of the proposal that waits
	View     View // the certificate's view
	Kind     Kind // a notarization or a nullification
	Target   Participant
}

func (VerifyOutput) isWork() {}
func (Missing) isWork()      {}

// CertificateFetch is a notarization to fetch for other members, and the view of the proposal that waits for it.
type CertificateFetch struct{ Proposal, View View }

// Candidates are the proposals to certify, and the notarizations to fetch.
type Candidates struct {
	Proposals []Proposal
	Fetches   []CertificateFetch
}

// VoteOrder is a vote that the member cast: once the new entries of the record are stored, sign the text with the signer's key, and send it.
type VoteOrder struct {
	Subject  Subject
	Signer   Participant
	Text     []byte
	IsRepeat bool // a vote to nullify that was cast before
}

// Timeout is the next timeout of a view.
type Timeout struct {
	Moment Millis
	Reason TimeoutReason
}

// Cut is what a restart removes from the record before the new lifetime begins.
type Cut struct {
	Last  uint64 // at most this number of the last entries, but never a vote or an entry before one
	Prune bool   // all entries further below the highest finalized view than the last lifetime's retention
}

// StartMember begins a member that never voted. One that voted must resume, or it could vote twice in a view. It returns a Status where the
// settings or the floor are refused.
func StartMember(config Config, now Millis) (*Member, error) {
	settings, err := config.flat()
	if err != nil {
		return nil, err
	}
	var at *C.simplex_member
	certificate := config.certificate()
	status := C.simplex_member_start(&settings, members(config.Leaders), C.size_t(len(config.Leaders)), bytesAt(certificate),
		C.size_t(len(certificate)), C.uint64_t(now), &at)
	return begunMember(status, at)
}

// ResumeMember continues a member from its journal, the bytes of its entries in their order, and what was stored beside them last. It returns
// a Status where these or the settings are refused.
func ResumeMember(config Config, now Millis, stored Stored, journal []byte) (*Member, error) {
	settings, err := config.flat()
	if err != nil {
		return nil, err
	}
	var at *C.simplex_member
	beside, certificate := stored.flat(), config.certificate()
	status := C.simplex_member_resume(&settings, members(config.Leaders), C.size_t(len(config.Leaders)), bytesAt(certificate),
		C.size_t(len(certificate)), C.uint64_t(now), &beside, bytesAt(journal), C.size_t(len(journal)), &at)
	return begunMember(status, at)
}

func begunMember(status C.uint32_t, at *C.simplex_member) (*Member, error) {
	if err := errorOf(status); err != nil {
		return nil, err
	}
	member := &Member{at}
	runtime.SetFinalizer(member, (*Member).Close)
	return member, nil
}

// Close frees the member. It does nothing where the member is closed.
func (it *Member) Close() {
	C.simplex_member_free(it.at)
	it.at = nil
	runtime.SetFinalizer(it, nil)
}

// Restart ends the lifetime, also of a member that has failed, and begins another from its record. Where the settings or the retention are
// refused nothing has changed. After another error the record is cut and the member has failed: store EntriesSince(0) in place of the journal.
func (it *Member) Restart(config Config, now Millis, cut Cut) error {
	settings, err := config.flat()
	if err != nil {
		return err
	}
	certificate := config.certificate()
	restart := C.struct_simplex_restart{drop: C.uint64_t(cut.Last), moment: C.uint64_t(now), prune: flag(cut.Prune), settings: settings}
	status := C.simplex_member_restart(it.at, &restart, members(config.Leaders), C.size_t(len(config.Leaders)), bytesAt(certificate),
		C.size_t(len(certificate)))
	runtime.KeepAlive(it)
	return errorOf(status)
}

// EntriesSince returns the entries of the record after its first count, to be stored before a vote is sent. Also of a member that has failed.
func (it *Member) EntriesSince(count uint64) (Entries, error) {
	return it.entriesOf(C.simplex_member_entries(it.at, C.uint64_t(count)))
}

// PruneRecord prunes the record, after Prune, and returns all that is left, to be stored in place of the journal in one step. The lifetime
// continues. After an error the record is pruned and not returned: ask for EntriesSince(0).
func (it *Member) PruneRecord() (Entries, error) {
	return it.entriesOf(C.simplex_member_prune_record(it.at))
}

func (it *Member) entriesOf(shown C.struct_simplex_entries) (Entries, error) {
	if err := errorOf(shown.status); err != nil {
		return Entries{}, err
	}
	return Entries{it.bytes(C.SIMPLEX_SHOWN), storedOf(shown.stored)}, nil
}

// Stored returns what is stored beside the journal, with the number of entries of the record. Also of a member that has failed.
func (it *Member) Stored() (Stored, error) {
	// No record has so many entries, so none is shown.
	shown := C.simplex_member_entries(it.at, math.MaxUint64)
	runtime.KeepAlive(it)
	return storedOf(shown.stored), errorOf(shown.status)
}

// IsFailed returns whether the member has failed: out of memory, or a restart was refused. A closed one has failed.
func (it *Member) IsFailed() bool {
	status := C.simplex_member_view(it.at, 0).status
	runtime.KeepAlive(it)
	return status != C.SIMPLEX_OK
}

// View returns what the member knows, and what it knows of a view; Failed once the member has failed.
func (it *Member) View(view View) (Views, error) {
	shown := C.simplex_member_view(it.at, C.uint64_t(view))
	runtime.KeepAlive(it)
	return viewsOf(shown)
}

// Withheld returns why the member withholds its vote of a kind on a view; NotWithheld exactly where Construct returns the vote.
func (it *Member) Withheld(kind Kind, view View) (Withheld, error) {
	withheld := C.simplex_member_withheld(it.at, C.uint32_t(kind), C.uint64_t(view))
	runtime.KeepAlive(it)
	return Withheld(withheld.reason), errorOf(withheld.status)
}

// Certificate returns a view's certificate; nil where the view is not tracked or has none.
func (it *Member) Certificate(kind Kind, view View) (*Certificate, error) {
	found := C.simplex_member_certificate(it.at, C.uint32_t(kind), C.uint64_t(view))
	if err := errorOf(found.status); err != nil {
		return nil, err
	}
	return it.certificateIn(found.has, found.proposal, C.SIMPLEX_SHOWN), nil
}

func (it *Member) certificateIn(has C.uint32_t, proposal C.struct_simplex_proposal, which C.uint32_t) *Certificate {
	if has == 0 {
		return nil
	}
	return &Certificate{subjectOf(has, proposal), it.bytes(which)}
}

func (it *Member) bytes(which C.uint32_t) []byte {
	all := allBytes(func(from C.uint64_t) C.struct_simplex_chunk { return C.simplex_member_bytes(it.at, which, from) })
	runtime.KeepAlive(it)
	return all
}
