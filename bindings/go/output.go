package simplex

// #include "simplex.h"
import "C"

import "fmt"

// Output is one output of an engine, a type of this file. simplex_output_kind in simplex.h says what to do for each. Carry them out in
// order.
type Output interface{ isOutput() }

// StoreOutput: append the entries to the journal, with what is stored beside it, and sync both before the next output.
type StoreOutput struct{ Entries Entries }

// ReplaceOutput: the same in place of all that is stored, in one step.
type ReplaceOutput struct{ Entries Entries }

// SignOutput: sign the text with the signer's key, send the vote to all, and pass it to this engine too.
type SignOutput struct {
	Subject Subject
	Signer  Participant
	Text    []byte
}

// BroadcastOutput: send the certificate to all others.
type BroadcastOutput struct{ Certificate Certificate }

// VerifyOutput: verify the proposal in the context, and pass a Verified.
type VerifyOutput struct {
	Context  Context
	Proposal Proposal
}

// BuildOutput: build a block in the context, and pass a Built.
type BuildOutput struct{ Context Context }

// StopBuildingOutput: the view's block is not needed any more.
type StopBuildingOutput struct{ View View }

// CertifyOutput: pass a Certified with the verdict on the proposal.
type CertifyOutput struct{ Proposal Proposal }

// FetchOutput: ask a member for a certificate; nobody where Of is nil.
type FetchOutput struct {
	Kind FetchKind
	View View
	Of   *Participant
}

// FinalizedOutput: the proposal and its ancestors are final. The ancestors are not reported.
type FinalizedOutput struct{ Proposal Proposal }

// EquivocatedOutput: two votes of one member that contradict each other.
type EquivocatedOutput struct{ One, Other Vote }

// ProposedTwiceOutput: the view's leader signed two proposals.
type ProposedTwiceOutput struct {
	View   View
	Leader Participant
}

// ForgetOutput: drop what is stored of the views below this one.
type ForgetOutput struct{ View View }

func (StoreOutput) isOutput()         {}
func (ReplaceOutput) isOutput()       {}
func (SignOutput) isOutput()          {}
func (BroadcastOutput) isOutput()     {}
func (VerifyOutput) isOutput()        {}
func (BuildOutput) isOutput()         {}
func (StopBuildingOutput) isOutput()  {}
func (CertifyOutput) isOutput()       {}
func (FetchOutput) isOutput()         {}
func (FinalizedOutput) isOutput()     {}
func (EquivocatedOutput) isOutput()   {}
func (ProposedTwiceOutput) isOutput() {}
func (ForgetOutput) isOutput()        {}

// outputOf returns the output of numbers and of bytes, which read reads; nil where there is none.
func outputOf(it *C.struct_simplex_output, read func(which C.uint32_t) []byte) Output {
	subject, view, member := subjectOf(it.subject.kind, it.subject.proposal), View(it.view), Participant(it.subject.member)
	context := contextOf(it.context, it.subject.member)
	switch it.kind {
	case C.SIMPLEX_NOTHING:
		return nil
	case C.SIMPLEX_STORE:
		return StoreOutput{Entries{read(C.SIMPLEX_OF_OUTPUT), storedOf(it.stored)}}
	case C.SIMPLEX_REPLACE:
		return ReplaceOutput{Entries{read(C.SIMPLEX_OF_OUTPUT), storedOf(it.stored)}}
	case C.SIMPLEX_VOTE:
		return SignOutput{subject, member, read(C.SIMPLEX_OF_OUTPUT)}
	case C.SIMPLEX_BROADCAST:
		return BroadcastOutput{Certificate{subject, read(C.SIMPLEX_OF_OUTPUT)}}
	case C.SIMPLEX_VERIFY:
		return VerifyOutput{context, subject.Proposal}
	case C.SIMPLEX_BUILD:
		return BuildOutput{context}
	case C.SIMPLEX_STOP_BUILDING:
		return StopBuildingOutput{view}
	case C.SIMPLEX_CERTIFY:
		return CertifyOutput{subject.Proposal}
	case C.SIMPLEX_ASK:
		return FetchOutput{FetchKind(it.fetch), view, memberOf(it.member)}
	case C.SIMPLEX_FINAL:
		return FinalizedOutput{subject.Proposal}
	case C.SIMPLEX_EQUIVOCATED:
		other := Vote{subjectOf(it.other.kind, it.other.proposal), Participant(it.other.member), read(C.SIMPLEX_OTHER_OF_OUTPUT)}
		return EquivocatedOutput{Vote{subject, member, read(C.SIMPLEX_OF_OUTPUT)}, other}
	case C.SIMPLEX_PROPOSED_TWICE:
		return ProposedTwiceOutput{view, Participant(it.member)}
	case C.SIMPLEX_FORGET:
		return ForgetOutput{view}
	}
	panic(fmt.Sprintf("simplex: the library has another version than the package: an output of kind %d", it.kind))
}
