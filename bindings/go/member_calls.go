package simplex

// #include "simplex.h"
import "C"

import "runtime"

// make makes a call; the reply's bytes and items stay until the next one.
func (it *Member) make(call C.struct_simplex_call, certificate []byte) (C.struct_simplex_reply, error) {
	reply := C.simplex_member_call(it.at, &call, bytesAt(certificate), C.size_t(len(certificate)))
	runtime.KeepAlive(it)
	return reply, errorOf(reply.status)
}

func (it *Member) ofView(kind C.uint32_t, view View) (C.struct_simplex_reply, error) {
	return it.make(C.struct_simplex_call{kind: kind, view: C.uint64_t(view)}, nil)
}

func (it *Member) timed(kind C.uint32_t, view View, reason TimeoutReason, now Millis) (C.struct_simplex_reply, error) {
	return it.make(C.struct_simplex_call{kind: kind, view: C.uint64_t(view), reason: C.uint32_t(reason), moment: C.uint64_t(now)}, nil)
}

func (it *Member) item(which C.uint32_t, index C.uint64_t) C.struct_simplex_item {
	found := C.simplex_member_item(it.at, which, index)
	runtime.KeepAlive(it)
	return found
}

// Add passes a certificate that the host made or received, and verified.
func (it *Member) Add(certificate Certificate, now Millis) (Added, error) {
	kinds := map[Kind]C.uint32_t{
		Notarization: C.SIMPLEX_ADD_NOTARIZATION, Nullification: C.SIMPLEX_ADD_NULLIFICATION, Finalization: C.SIMPLEX_ADD_FINALIZATION,
	}
	kind, isKind := kinds[certificate.Subject.Kind]
	if !isKind {
		return Added{}, NoCall
	}
	proposal := certificate.Subject.Proposal.flat()
	call := C.struct_simplex_call{kind: kind, moment: C.uint64_t(now), round: proposal.round, proposal: proposal}
	reply, err := it.make(call, certificate.Bytes)
	if err != nil {
		return Added{}, err
	}
	added := Added{IsNew: reply.flag != 0}
	if reply.kind == C.SIMPLEX_REPLY_ADDED {
		added.Equivocator = memberOf(reply.member)
	}
	return added, nil
}

// SetProposal passes a proposal of its view's leader. It returns whether the proposal must be verified.
func (it *Member) SetProposal(proposal Proposal) (bool, error) {
	call := C.struct_simplex_call{kind: C.SIMPLEX_SET_PROPOSAL, view: C.uint64_t(proposal.Round.View), proposal: proposal.flat()}
	reply, err := it.make(call, nil)
	return reply.flag != 0, err
}

// TryPropose returns the next block to build; nil where there is none.
func (it *Member) TryPropose() (*ProposalRequest, error) {
	reply, err := it.ofView(C.SIMPLEX_TRY_PROPOSE, 0)
	if err != nil || reply.has == 0 {
		return nil, err
	}
	return &ProposalRequest{contextOf(reply.context, reply.member), reply.has == 2}, nil
}

// Proposed passes the payload that was built on request in the view. It returns whether the payload is accepted.
func (it *Member) Proposed(view View, payload Digest, now Millis) (bool, error) {
	call := C.struct_simplex_call{
		kind: C.SIMPLEX_PROPOSED, view: C.uint64_t(view), moment: C.uint64_t(now), proposal: Proposal{Payload: payload}.flat(),
	}
	reply, err := it.make(call, nil)
	return reply.flag != 0, err
}

// SupersedeProposalRequest returns whether the request to build in the view is superseded; then ask again, for another parent.
func (it *Member) SupersedeProposalRequest(view View) (bool, error) {
	reply, err := it.ofView(C.SIMPLEX_SUPERSEDE_PROPOSAL_REQUEST, view)
	return reply.flag != 0, err
}

// PendingHandoffAbandonment returns why the handoff that is built in the view must be abandoned; nil where it need not be.
func (it *Member) PendingHandoffAbandonment(view View) (*AbandonedReason, error) {
	reply, err := it.ofView(C.SIMPLEX_PENDING_HANDOFF_ABANDONMENT, view)
	if err != nil || reply.has == 0 {
		return nil, err
	}
	reason := AbandonedReason(reply.reason)
	return &reason, nil
}

// ReleaseProposalRequest abandons the request to build in the view. It returns whether one was open.
func (it *Member) ReleaseProposalRequest(view View) (bool, error) {
	reply, err := it.ofView(C.SIMPLEX_RELEASE_PROPOSAL_REQUEST, view)
	return reply.flag != 0, err
}

// TryVerify returns the next proposal to verify, as a VerifyOutput, or the certificate that one waits for, as a Missing; nil where there is
// neither.
func (it *Member) TryVerify() (Work, error) {
	reply, err := it.ofView(C.SIMPLEX_TRY_VERIFY, 0)
	if err != nil || reply.has == 0 {
		return nil, err
	}
	if reply.has == 1 {
		return VerifyOutput{contextOf(reply.context, reply.member), proposalOf(reply.proposal)}, nil
	}
	return Missing{View(reply.waiting), View(reply.lacking), Kind(reply.reason), Participant(reply.member)}, nil
}

// Verified reports the view's proposal as valid. It returns whether the proposal is marked so: not if it or its parent changed since it was
// returned.
func (it *Member) Verified(view View) (bool, error) {
	reply, err := it.ofView(C.SIMPLEX_VERIFIED, view)
	return reply.flag != 0, err
}

// VerificationFailed reports the view's proposal as invalid, or as one that could not be verified.
func (it *Member) VerificationFailed(view View, reason TimeoutReason, now Millis) error {
	_, err := it.timed(C.SIMPLEX_VERIFICATION_FAILED, view, reason, now)
	return err
}

// CertifyCandidates returns the proposals to certify, and the notarizations to fetch for other members.
func (it *Member) CertifyCandidates() (Candidates, error) {
	reply, err := it.ofView(C.SIMPLEX_CERTIFY_CANDIDATES, 0)
	if err != nil {
		return Candidates{}, err
	}
	var made Candidates
	for index := C.uint64_t(0); index < reply.count; index++ {
		made.Proposals = append(made.Proposals, proposalOf(it.item(C.SIMPLEX_PROPOSALS, index).proposal))
	}
	for index := C.uint64_t(0); index < reply.fetches; index++ {
		fetch := it.item(C.SIMPLEX_FETCHES, index).fetch
		made.Fetches = append(made.Fetches, CertificateFetch{View(fetch.proposal), View(fetch.view)})
	}
	return made, nil
}

// SetCertifyHandle notes the host's token for the certification of the view's proposal.
func (it *Member) SetCertifyHandle(view View, token uint64) error {
	_, err := it.make(C.struct_simplex_call{kind: C.SIMPLEX_SET_CERTIFY_HANDLE, view: C.uint64_t(view), token: C.uint64_t(token)}, nil)
	return err
}

// Certified passes the application's verdict on the view's proposal. It returns the notarization that was judged; nil where the view is not
// tracked.
func (it *Member) Certified(view View, isSuccess bool, now Millis) (*Certificate, error) {
	call := C.struct_simplex_call{kind: C.SIMPLEX_CERTIFIED, view: C.uint64_t(view), success: flag(isSuccess), moment: C.uint64_t(now)}
	reply, err := it.make(call, nil)
	if err != nil || reply.has == 0 {
		return nil, err
	}
	return it.certificateIn(C.SIMPLEX_NOTARIZATION, reply.proposal, C.SIMPLEX_OF_REPLY), nil
}

// Construct returns this member's vote of a kind on the view; nil where the vote's rule does not allow it.
func (it *Member) Construct(kind Kind, view View) (*VoteOrder, error) {
	calls := map[Kind]C.uint32_t{
		Notarization: C.SIMPLEX_CONSTRUCT_NOTARIZE, Nullification: C.SIMPLEX_CONSTRUCT_NULLIFY, Finalization: C.SIMPLEX_CONSTRUCT_FINALIZE,
	}
	call, isKind := calls[kind]
	if !isKind {
		return nil, NoCall
	}
	reply, err := it.ofView(call, view)
	if err != nil || reply.has == 0 {
		return nil, err
	}
	isRepeat := kind == Nullification && reply.flag != 0
	return &VoteOrder{subjectOf(C.uint32_t(kind), reply.proposal), Participant(reply.member), it.bytes(C.SIMPLEX_OF_REPLY), isRepeat}, nil
}

// Broadcast returns the view's certificate of a kind for broadcast, once; nil where there is none to send.
func (it *Member) Broadcast(kind Kind, view View) (*Certificate, error) {
	calls := map[Kind]C.uint32_t{
		Notarization: C.SIMPLEX_BROADCAST_NOTARIZATION, Nullification: C.SIMPLEX_BROADCAST_NULLIFICATION,
		Finalization: C.SIMPLEX_BROADCAST_FINALIZATION,
	}
	call, isKind := calls[kind]
	if !isKind {
		return nil, NoCall
	}
	reply, err := it.ofView(call, view)
	if err != nil {
		return nil, err
	}
	return it.certificateIn(reply.has, reply.proposal, C.SIMPLEX_OF_REPLY), nil
}

// BestCertificate returns the certificate that lets other members enter the current view; nil where there is none.
func (it *Member) BestCertificate() (*Certificate, error) {
	reply, err := it.ofView(C.SIMPLEX_GET_BEST_CERTIFICATE, 0)
	if err != nil {
		return nil, err
	}
	return it.certificateIn(reply.has, reply.proposal, C.SIMPLEX_OF_REPLY), nil
}

// TriggerTimeout times the view out for a reason that the member does not see by itself. It returns whether that timeout counts from now on.
func (it *Member) TriggerTimeout(view View, reason TimeoutReason, now Millis) (bool, error) {
	reply, err := it.timed(C.SIMPLEX_TRIGGER_TIMEOUT, view, reason, now)
	return reply.flag != 0, err
}

// NextTimeout returns the next timeout of the current view. Once it has come, the member votes to nullify the view.
func (it *Member) NextTimeout(now Millis) (Timeout, error) {
	reply, err := it.timed(C.SIMPLEX_NEXT_TIMEOUT, 0, Retry, now)
	return Timeout{Millis(reply.moment), TimeoutReason(reply.reason)}, err
}

// Prune drops the views that are no longer retained, and returns them, lowest first. The record stays: PruneRecord.
func (it *Member) Prune() ([]View, error) {
	reply, err := it.ofView(C.SIMPLEX_PRUNE, 0)
	if err != nil {
		return nil, err
	}
	var dropped []View
	for index := C.uint64_t(0); index < reply.count; index++ {
		dropped = append(dropped, View(it.item(C.SIMPLEX_DROPPED, index).view))
	}
	return dropped, nil
}
