// Package simplex is an engine of the Simplex consensus protocol, over libsimplex.a.
//
// Build it with the archive's folder, for example with -lsimplex found in bindings/:
//
//	CGO_LDFLAGS=-L/path/to/bindings go build
//
// docs/EMBEDDING.md has the loop of a host, and simplex.h says what the host must do.
package simplex

// #cgo CFLAGS: -I${SRCDIR}/../c/include
// #cgo LDFLAGS: -lsimplex
// #include "simplex.h"
import "C"

import (
	"encoding/binary"
	"fmt"
	"runtime"
	"unsafe"
)

// Engine is an engine: a member with its resolver, a batcher of votes and the outstanding fetches. One goroutine calls it at a time. Close
// frees it, and the garbage collector does where nobody closed it. After an error of Handle or Poll the engine has failed, except for
// NoCall and NotMade, which change nothing: resume another engine from what was stored. A closed engine returns NoHandle.
type Engine struct{ at *C.simplex_engine }

// State is what an engine knows of itself.
type State struct {
	IsFailed bool
	Wake     Millis // poll at this moment if no input comes before
	Ignored  uint64
	Fetches  uint64
}

// OpenFetch is an outstanding fetch.
type OpenFetch struct {
	Kind   FetchKind
	View   View
	Count  uint64 // how often it was asked for
	Moment Millis // when it is asked for next
}

// Views is what the member knows, and what it knows of a view.
type Views struct {
	Epoch                                                  uint64
	Current, LastFinalized, MinActive                      View
	IsTracked, AdmitsVote, AdmitsCertificate, VotedNullify bool
	Leader                                                 *Participant
	Forwardable                                            *Proposal
}

// IsThisVersion returns whether the linked library has the version of this package's header. Test it once, before anything else.
func IsThisVersion() bool { return C.simplex_version() == C.SIMPLEX_VERSION }

// BuildInfo returns what the linked library is: whether it is proved, of which commit and kit.
func BuildInfo() string { return C.GoString(C.simplex_build_info()) }

// Start begins an engine whose member never voted. A member that voted must resume, or it could vote twice in a view. It returns a Status
// where the settings, the options or the floor are refused.
func Start(config Config, options Options, now Millis) (*Engine, error) {
	settings, err := config.flat()
	if err != nil {
		return nil, err
	}
	var at *C.simplex_engine
	flat, certificate := options.flat(), config.certificate()
	status := C.simplex_engine_start(&settings, members(config.Leaders), C.size_t(len(config.Leaders)), bytesAt(certificate),
		C.size_t(len(certificate)), &flat, C.uint64_t(now), &at)
	return begun(status, at)
}

// Resume continues an engine from its journal and what was stored beside it last. It returns a Status where these or the settings are
// refused.
func Resume(config Config, options Options, now Millis, stored Stored, journal []byte) (*Engine, error) {
	settings, err := config.flat()
	if err != nil {
		return nil, err
	}
	var at *C.simplex_engine
	flat, beside, certificate := options.flat(), stored.flat(), config.certificate()
	status := C.simplex_engine_resume(&settings, members(config.Leaders), C.size_t(len(config.Leaders)), bytesAt(certificate),
		C.size_t(len(certificate)), &flat, C.uint64_t(now), &beside, bytesAt(journal), C.size_t(len(journal)), &at)
	return begun(status, at)
}

func begun(status C.uint32_t, at *C.simplex_engine) (*Engine, error) {
	if err := errorOf(status); err != nil {
		return nil, err
	}
	engine := &Engine{at}
	runtime.SetFinalizer(engine, (*Engine).Close)
	return engine, nil
}

// bytesAt returns where bytes begin; nil where there are none, which the library does not read.
func bytesAt(bytes []byte) *C.uint8_t {
	if len(bytes) == 0 {
		return nil
	}
	return (*C.uint8_t)(unsafe.Pointer(&bytes[0]))
}

func members(all []Participant) *C.uint32_t {
	if len(all) == 0 {
		return nil
	}
	return (*C.uint32_t)(unsafe.Pointer(&all[0]))
}

// Close frees the engine. It does nothing where the engine is closed.
func (it *Engine) Close() {
	C.simplex_engine_free(it.at)
	it.at = nil
	runtime.SetFinalizer(it, nil)
}

// Handle passes an input. It returns false if the input was ignored, which changes nothing.
func (it *Engine) Handle(input Input, now Millis) (bool, error) {
	flat, bytes := input.flatInput()
	taken := C.simplex_engine_handle(it.at, &flat, bytesAt(bytes), C.size_t(len(bytes)), C.uint64_t(now))
	runtime.KeepAlive(it)
	return taken.is_of_use != 0, errorOf(taken.status)
}

// Poll returns the next output to carry out; nil where there is none until another input or the moment State().Wake.
func (it *Engine) Poll(now Millis) (Output, error) {
	output := C.simplex_engine_poll(it.at, C.uint64_t(now))
	if err := errorOf(output.status); err != nil {
		return nil, err
	}
	made := outputOf(&output, it.bytes)
	runtime.KeepAlive(it)
	return made, nil
}

func (it *Engine) bytes(which C.uint32_t) []byte {
	return allBytes(func(from C.uint64_t) C.struct_simplex_chunk { return C.simplex_engine_bytes(it.at, which, from) })
}

// allBytes returns all bytes that wait; part returns those from a byte on, and none where there are no more.
func allBytes(part func(from C.uint64_t) C.struct_simplex_chunk) []byte {
	var all []byte
	for {
		chunk := part(C.uint64_t(len(all)))
		if chunk.status != C.SIMPLEX_OK || chunk.count == 0 {
			return all
		}
		all = append(all, bytesOf(chunk.bytes[:chunk.count])...)
	}
}

// State returns what the engine knows of itself. A closed one has failed.
func (it *Engine) State() State {
	shown := C.simplex_engine_status(it.at)
	runtime.KeepAlive(it)
	return State{shown.status != C.SIMPLEX_OK, Millis(shown.wake), uint64(shown.ignored), uint64(shown.fetches)}
}

// Fetches returns the outstanding fetches.
func (it *Engine) Fetches() []OpenFetch {
	var all []OpenFetch
	for {
		open := C.simplex_engine_open(it.at, C.uint64_t(len(all)))
		if open.status != C.SIMPLEX_OK || open.fetch == 0 {
			runtime.KeepAlive(it)
			return all
		}
		all = append(all, OpenFetch{FetchKind(open.fetch), View(open.view), uint64(open.count), Millis(open.moment)})
	}
}

// View returns what the member knows, and what it knows of a view; Failed once the engine has failed.
func (it *Engine) View(view View) (Views, error) {
	shown := C.simplex_engine_view(it.at, C.uint64_t(view))
	runtime.KeepAlive(it)
	return viewsOf(shown)
}

func viewsOf(shown C.struct_simplex_view) (Views, error) {
	if err := errorOf(shown.status); err != nil {
		return Views{}, err
	}
	made := Views{
		Epoch: uint64(shown.epoch), Current: View(shown.current), LastFinalized: View(shown.last_finalized), MinActive: View(shown.min_active),
		IsTracked: shown.is_tracked != 0, AdmitsVote: shown.admits_vote != 0, AdmitsCertificate: shown.admits_certificate != 0,
		VotedNullify: shown.voted_nullify != 0, Leader: memberOf(shown.leader),
	}
	if shown.has_forwardable != 0 {
		proposal := proposalOf(shown.forwardable)
		made.Forwardable = &proposal
	}
	return made, nil
}

// Withheld returns why the member withholds its vote of a kind on a view; NotWithheld where it does not.
func (it *Engine) Withheld(kind Kind, view View) (Withheld, error) {
	withheld := C.simplex_engine_withheld(it.at, C.uint32_t(kind), C.uint64_t(view))
	runtime.KeepAlive(it)
	return Withheld(withheld.reason), errorOf(withheld.status)
}

// Certificate returns a view's certificate; nil where the view is not tracked or has none.
func (it *Engine) Certificate(kind Kind, view View) (*Certificate, error) {
	found := C.simplex_engine_certificate(it.at, C.uint32_t(kind), C.uint64_t(view))
	if err := errorOf(found.status); err != nil || found.has == 0 {
		return nil, err
	}
	bytes := it.bytes(C.SIMPLEX_SHOWN_OF_ENGINE)
	runtime.KeepAlive(it)
	return &Certificate{subjectOf(found.has, found.proposal), bytes}, nil
}

// Serve returns the certificate to serve to a peer that asks for the view; nil where there is none.
func (it *Engine) Serve(view View) (*Certificate, error) {
	served := C.simplex_engine_serve(it.at, C.uint64_t(view))
	if err := errorOf(served.status); err != nil || served.has == 0 {
		return nil, err
	}
	all := it.bytes(C.SIMPLEX_SHOWN_OF_ENGINE)
	runtime.KeepAlive(it)
	return servedOf(all)
}

// servedOf reads the text of a certificate's votes and the certificate after it: 17 bytes of a nullification, else 57.
func servedOf(all []byte) (*Certificate, error) {
	kinds := [...]Kind{Notarization, Nullification, Finalization}
	if len(all) < 17 || int(all[0]) >= len(kinds) || kinds[all[0]] != Nullification && len(all) < 57 {
		return nil, fmt.Errorf("simplex: the library has another version than the package: it serves %d bytes", len(all))
	}
	subject := Subject{Kind: kinds[all[0]]}
	subject.Proposal.Round = Round{binary.BigEndian.Uint64(all[1:]), binary.BigEndian.Uint64(all[9:])}
	if subject.Kind == Nullification {
		return &Certificate{subject, all[17:]}, nil
	}
	subject.Proposal.Parent = binary.BigEndian.Uint64(all[17:])
	copy(subject.Proposal.Payload[:], all[25:57])
	return &Certificate{subject, all[57:]}, nil
}
