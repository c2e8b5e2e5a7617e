package simplex

// #include "simplex.h"
import "C"

import "encoding/binary"

// Digest is the digest of a payload.
type Digest [32]byte

// Namespace is the bytes that each text to sign begins with: a digest of the network's name, its epoch and its members' keys, say. In two
// networks with one namespace the signatures of one count in the other.
type Namespace [32]byte

// View is the number of a view.
type View = uint64

// Participant is the index of a member.
type Participant = uint32

// Millis is a moment or a time in milliseconds.
type Millis = uint64

// Kind says what a vote says, and which certificate such votes make.
type Kind uint32

// The kinds of votes and certificates.
const (
	Notarization  Kind = C.SIMPLEX_NOTARIZATION
	Nullification Kind = C.SIMPLEX_NULLIFICATION
	Finalization  Kind = C.SIMPLEX_FINALIZATION
)

// FetchKind says which certificate is fetched.
type FetchKind uint32

// The certificates that are fetched: the view's notarization, a nullification that covers it, or whatever certificate decides it.
const (
	FetchNotarization  FetchKind = C.SIMPLEX_FETCH_NOTARIZATION
	FetchNullification FetchKind = C.SIMPLEX_FETCH_NULLIFICATION
	FetchDecision      FetchKind = C.SIMPLEX_FETCH_DECISION
)

// TimeoutReason says why a view times out.
type TimeoutReason uint32

// The reasons.
const (
	Retry                TimeoutReason = C.SIMPLEX_RETRY
	Inactivity           TimeoutReason = C.SIMPLEX_INACTIVITY
	LeaderNullify        TimeoutReason = C.SIMPLEX_LEADER_NULLIFY
	LeaderTimeout        TimeoutReason = C.SIMPLEX_LEADER_TIMEOUT
	CertificationTimeout TimeoutReason = C.SIMPLEX_CERTIFICATION_TIMEOUT
	StallTimeout         TimeoutReason = C.SIMPLEX_STALL_TIMEOUT
	MissingProposal      TimeoutReason = C.SIMPLEX_MISSING_PROPOSAL
	IgnoredProposal      TimeoutReason = C.SIMPLEX_IGNORED_PROPOSAL
	InvalidProposal      TimeoutReason = C.SIMPLEX_INVALID_PROPOSAL
	FailedCertification  TimeoutReason = C.SIMPLEX_FAILED_CERTIFICATION
)

// Withheld says why a member withholds a vote: the first part of the vote's rule that is false. simplex.h says what each means.
type Withheld uint32

// The reasons; NotWithheld where the vote is not withheld.
const (
	NotWithheld                 Withheld = C.SIMPLEX_NOT_WITHHELD
	WithheldNoKey               Withheld = C.SIMPLEX_WITHHELD_NO_KEY
	WithheldNotAdmitted         Withheld = C.SIMPLEX_WITHHELD_NOT_ADMITTED
	WithheldAlreadyVoted        Withheld = C.SIMPLEX_WITHHELD_ALREADY_VOTED
	WithheldVotedToNullify      Withheld = C.SIMPLEX_WITHHELD_VOTED_TO_NULLIFY
	WithheldVotedToFinalize     Withheld = C.SIMPLEX_WITHHELD_VOTED_TO_FINALIZE
	WithheldNoProposal          Withheld = C.SIMPLEX_WITHHELD_NO_PROPOSAL
	WithheldEquivocated         Withheld = C.SIMPLEX_WITHHELD_EQUIVOCATED
	WithheldNotVerified         Withheld = C.SIMPLEX_WITHHELD_NOT_VERIFIED
	WithheldAncestryNotReady    Withheld = C.SIMPLEX_WITHHELD_ANCESTRY_NOT_READY
	WithheldBindingChanged      Withheld = C.SIMPLEX_WITHHELD_BINDING_CHANGED
	WithheldNotCurrent          Withheld = C.SIMPLEX_WITHHELD_NOT_CURRENT
	WithheldAlreadyFinalized    Withheld = C.SIMPLEX_WITHHELD_ALREADY_FINALIZED
	WithheldConflictingNullify  Withheld = C.SIMPLEX_WITHHELD_CONFLICTING_NULLIFY
	WithheldParentNotCertified  Withheld = C.SIMPLEX_WITHHELD_PARENT_NOT_CERTIFIED
	WithheldNotNotarized        Withheld = C.SIMPLEX_WITHHELD_NOT_NOTARIZED
	WithheldCertificationFailed Withheld = C.SIMPLEX_WITHHELD_CERTIFICATION_FAILED
	WithheldNotCertified        Withheld = C.SIMPLEX_WITHHELD_NOT_CERTIFIED
)

// Round is a view of an epoch.
type Round struct {
	Epoch uint64
	View  View
}

// Proposal is a block that a leader proposes: its round, the view of its parent, and its payload's digest.
type Proposal struct {
	Round   Round
	Parent  View
	Payload Digest
}

// Subject is what a vote or a certificate is on. Of a nullification only the proposal's round is read.
type Subject struct {
	Kind     Kind
	Proposal Proposal
}

// Vote is a member's vote, signed.
type Vote struct {
	Subject   Subject
	Signer    Participant
	Signature []byte
}

// Certificate is a certificate of votes on a subject.
type Certificate struct {
	Subject Subject
	Bytes   []byte
}

// Signature is the signature of one member in a certificate.
type Signature struct {
	Signer Participant
	Bytes  []byte
}

// Context is in what a block is built or verified.
type Context struct {
	Round         Round
	Leader        Participant
	Parent        View
	ParentPayload Digest
}

// Text returns the text that a vote on the subject signs in a network: the namespace, and then the subject's bytes.
func (it Subject) Text(namespace Namespace) ([]byte, error) {
	flat, proposal := namespace.flat(), it.Proposal.flat()
	text := C.simplex_subject(&flat[0], C.uint32_t(it.Kind), &proposal)
	if err := errorOf(text.status); err != nil {
		return nil, err
	}
	return bytesOf(text.bytes[:text.count]), nil
}

// Encoded returns the subject's bytes, with which the encoding of a certificate begins.
func (it Subject) Encoded() ([]byte, error) {
	text, err := it.Text(Namespace{})
	if err != nil {
		return nil, err
	}
	return text[len(Namespace{}):], nil
}

// Signatures returns the signatures by rising index, where the bytes are as an engine makes them of votes; else false.
func (it Certificate) Signatures() ([]Signature, bool) {
	var all []Signature
	for rest := it.Bytes; len(rest) > 0; {
		if len(rest) < 12 {
			return nil, false
		}
		signer, length := binary.BigEndian.Uint32(rest), binary.BigEndian.Uint64(rest[4:])
		rest = rest[12:]
		if length > uint64(len(rest)) || len(all) > 0 && all[len(all)-1].Signer >= signer {
			return nil, false
		}
		all = append(all, Signature{signer, rest[:length]})
		rest = rest[length:]
	}
	return all, true
}

func (it Round) flat() C.struct_simplex_round {
	return C.struct_simplex_round{epoch: C.uint64_t(it.Epoch), view: C.uint64_t(it.View)}
}

func (it Digest) flat() (made [32]C.uint8_t) {
	for place, value := range it {
		made[place] = C.uint8_t(value)
	}
	return made
}

func (it Namespace) flat() [32]C.uint8_t { return Digest(it).flat() }

func (it Proposal) flat() C.struct_simplex_proposal {
	return C.struct_simplex_proposal{round: it.Round.flat(), parent: C.uint64_t(it.Parent), payload: it.Payload.flat()}
}

func (it Subject) flat(member Participant) C.struct_simplex_subject {
	return C.struct_simplex_subject{kind: C.uint32_t(it.Kind), member: C.uint32_t(member), proposal: it.Proposal.flat()}
}

func (it Context) flat() C.struct_simplex_context {
	return C.struct_simplex_context{round: it.Round.flat(), parent: C.uint64_t(it.Parent), payload: it.ParentPayload.flat()}
}

func bytesOf(from []C.uint8_t) []byte {
	made := make([]byte, len(from))
	for place, value := range from {
		made[place] = byte(value)
	}
	return made
}

func digestOf(from [32]C.uint8_t) (made Digest) {
	copy(made[:], bytesOf(from[:]))
	return made
}

func roundOf(it C.struct_simplex_round) Round { return Round{uint64(it.epoch), View(it.view)} }

func proposalOf(it C.struct_simplex_proposal) Proposal {
	return Proposal{roundOf(it.round), View(it.parent), digestOf(it.payload)}
}

func subjectOf(kind C.uint32_t, proposal C.struct_simplex_proposal) Subject {
	return Subject{Kind(kind), proposalOf(proposal)}
}

func contextOf(it C.struct_simplex_context, leader C.uint32_t) Context {
	return Context{roundOf(it.round), Participant(leader), View(it.parent), digestOf(it.payload)}
}

// memberOf returns a member; nil where the library has none.
func memberOf(index C.uint32_t) *Participant {
	if index == C.SIMPLEX_NOBODY {
		return nil
	}
	member := Participant(index)
	return &member
}
