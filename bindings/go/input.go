package simplex

// #include "simplex.h"
import "C"

// Input is one input of an engine: a ProposalInput, Vote, Certificate, Verified, Built, Certified or GivenUp. simplex_input_kind in
// simplex.h says when to pass each.
type Input interface {
	flatInput() (C.struct_simplex_input, []byte)
}

// ProposalInput is a proposal and the member that sent it, whose signature the host has verified.
type ProposalInput struct {
	From     Participant
	Proposal Proposal
}

// Verified is the result of a VerifyOutput.
type Verified struct {
	View    View
	IsValid bool
}

// Built is the result of a BuildOutput.
type Built struct {
	Context Context
	Payload Digest
}

// Certified is the application's verdict on the proposal of a CertifyOutput.
type Certified struct {
	View      View
	IsSuccess bool
}

// GivenUp says that the view times out for a reason that the engine can't see: its leader nullifies it, or is silent.
type GivenUp struct {
	View   View
	Reason TimeoutReason
}

func (it ProposalInput) flatInput() (C.struct_simplex_input, []byte) {
	subject := Subject{Proposal: it.Proposal}.flat(it.From)
	return C.struct_simplex_input{kind: C.SIMPLEX_TELL_PROPOSAL, subject: subject}, nil
}

func (it Vote) flatInput() (C.struct_simplex_input, []byte) {
	return C.struct_simplex_input{kind: C.SIMPLEX_TELL_VOTE, subject: it.Subject.flat(it.Signer)}, it.Signature
}

func (it Certificate) flatInput() (C.struct_simplex_input, []byte) {
	return C.struct_simplex_input{kind: C.SIMPLEX_TELL_CERTIFICATE, subject: it.Subject.flat(C.SIMPLEX_NOBODY)}, it.Bytes
}

func (it Verified) flatInput() (C.struct_simplex_input, []byte) {
	return C.struct_simplex_input{kind: C.SIMPLEX_TELL_VERIFIED, view: C.uint64_t(it.View), success: flag(it.IsValid)}, nil
}

func (it Built) flatInput() (C.struct_simplex_input, []byte) {
	subject := Subject{Proposal: Proposal{Payload: it.Payload}}.flat(it.Context.Leader)
	return C.struct_simplex_input{kind: C.SIMPLEX_TELL_BUILT, subject: subject, context: it.Context.flat()}, nil
}

func (it Certified) flatInput() (C.struct_simplex_input, []byte) {
	return C.struct_simplex_input{kind: C.SIMPLEX_TELL_CERTIFIED, view: C.uint64_t(it.View), success: flag(it.IsSuccess)}, nil
}

func (it GivenUp) flatInput() (C.struct_simplex_input, []byte) {
	return C.struct_simplex_input{kind: C.SIMPLEX_TELL_GIVEN_UP, view: C.uint64_t(it.View), reason: C.uint32_t(it.Reason)}, nil
}
