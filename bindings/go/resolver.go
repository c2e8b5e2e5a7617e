package simplex

// #include "simplex.h"
import "C"

import (
	"encoding/binary"
	"fmt"
	"runtime"
)

// Resolver is a peer resolver, for a host that writes its own engine: it decides which certificates are retained, served and fetched. Pass it
// each certificate that the member newly added and each verdict: its outstanding fetches are then exactly the views whose certificate is
// missing. One goroutine calls it at a time. Close frees it, and the garbage collector does where nobody closed it. After OutOfMemory it has
// failed: start another. After each other status it received nothing. A closed resolver returns NoHandle.
type Resolver struct{ at *C.simplex_resolver }

// Effect is a change to the outstanding fetches: a FetchEffect, SettledEffect, FinalizedEffect or RaisedEffect.
type Effect interface{ isEffect() }

// FetchReason says why a nullification is fetched.
type FetchReason uint32

// The reasons.
const (
	MissingNullification FetchReason = C.SIMPLEX_MISSING_NULLIFICATION
	CertificationFailed  FetchReason = C.SIMPLEX_CERTIFICATION_FAILED
)

// FetchEffect: fetch a nullification that covers the view, for the view of the cause.
type FetchEffect struct {
	View, Cause View
	Reason      FetchReason
}

// SettledEffect: no certificate of the kind, a notarization or a nullification, is left to ask for at the views from Start to End.
type SettledEffect struct {
	Kind       Kind
	Start, End View
}

// FinalizedEffect: each ask at or below the view is settled.
type FinalizedEffect struct{ View View }

// RaisedEffect: each fetch at or below the view ends.
type RaisedEffect struct{ View View }

func (FetchEffect) isEffect()     {}
func (SettledEffect) isEffect()   {}
func (FinalizedEffect) isEffect() {}
func (RaisedEffect) isEffect()    {}

// StartResolver starts a resolver from a member's whole journal, with its first fetches outstanding. The term's length is that of the member's
// settings. It returns a Status where these are refused.
func StartResolver(termLength uint32, journal []byte) (*Resolver, error) {
	var at *C.simplex_resolver
	status := C.simplex_resolver_start(C.uint32_t(termLength), bytesAt(journal), C.size_t(len(journal)), &at)
	if err := errorOf(status); err != nil {
		return nil, err
	}
	resolver := &Resolver{at}
	runtime.SetFinalizer(resolver, (*Resolver).Close)
	return resolver, nil
}

// Close frees the resolver. It does nothing where the resolver is closed.
func (it *Resolver) Close() {
	C.simplex_resolver_free(it.at)
	it.at = nil
	runtime.SetFinalizer(it, nil)
}

// Updated passes a certificate that the member newly added. It returns NotAllowed for one of genesis.
func (it *Resolver) Updated(certificate Certificate) ([]Effect, error) {
	told := C.struct_simplex_told{kind: C.uint32_t(certificate.Subject.Kind), proposal: certificate.Subject.Proposal.flat()}
	return it.tell(told, certificate.Bytes)
}

// Certified passes a verdict on a notarization, as Member.Certified returns it.
func (it *Resolver) Certified(notarization Certificate, isSuccess bool) ([]Effect, error) {
	told := C.struct_simplex_told{kind: C.SIMPLEX_TOLD_VERDICT, success: flag(isSuccess), proposal: notarization.Subject.Proposal.flat()}
	return it.tell(told, notarization.Bytes)
}

func (it *Resolver) tell(told C.struct_simplex_told, certificate []byte) ([]Effect, error) {
	shown := C.simplex_resolver_told(it.at, &told, bytesAt(certificate), C.size_t(len(certificate)))
	if err := errorOf(shown.status); err != nil {
		return nil, err
	}
	var effects []Effect
	for index := C.uint64_t(0); index < shown.count; index++ {
		effects = append(effects, effectOf(C.simplex_resolver_effect(it.at, index)))
	}
	runtime.KeepAlive(it)
	return effects, nil
}

func effectOf(it C.struct_simplex_effect) Effect {
	switch it.kind {
	case C.SIMPLEX_FETCH:
		return FetchEffect{View(it.view), View(it.cause), FetchReason(it.reason)}
	case C.SIMPLEX_SETTLED:
		return SettledEffect{Kind(it.reason), View(it.view), View(it.end)}
	case C.SIMPLEX_FINALIZED:
		return FinalizedEffect{View(it.view)}
	case C.SIMPLEX_RAISED:
		return RaisedEffect{View(it.view)}
	}
	panic(fmt.Sprintf("simplex: the library has another version than the package: an effect of kind %d", it.kind))
}

func (it *Resolver) known(view View) C.struct_simplex_settled {
	known := C.simplex_resolver_settled(it.at, C.uint64_t(view))
	runtime.KeepAlive(it)
	return known
}

// IsFailed returns whether the resolver has failed, out of memory. A closed one has failed.
func (it *Resolver) IsFailed() bool {
	known := it.known(0)
	return known.status != C.SIMPLEX_OK || known.is_failed != 0
}

// IsOpen returns whether the view's fetch is outstanding.
func (it *Resolver) IsOpen(view View) bool { return it.known(view).is_open != 0 }

// IsSettled returns whether no certificate of a kind, a notarization or a nullification, is left to ask for at the view.
func (it *Resolver) IsSettled(view View, kind Kind) bool {
	known := it.known(view)
	if kind == Nullification {
		return known.nullification != 0
	}
	return known.notarization != 0
}

// IsUncertifiable returns whether the view's certification failed.
func (it *Resolver) IsUncertifiable(view View) bool { return it.known(view).uncertifiable != 0 }

// Fetches returns how many fetches are outstanding.
func (it *Resolver) Fetches() uint64 { return uint64(it.known(0).fetches) }

// Outstanding returns the views with an outstanding fetch, rising.
func (it *Resolver) Outstanding() ([]View, error) {
	if err := errorOf(C.simplex_resolver_outstanding(it.at).status); err != nil {
		return nil, err
	}
	var views []View
	for shown := it.bytes(); len(shown) >= 8; shown = shown[8:] {
		views = append(views, binary.BigEndian.Uint64(shown))
	}
	return views, nil
}

// Produce returns the certificate to serve to a peer that asks for the view; nil where there is none.
func (it *Resolver) Produce(view View) (*Certificate, error) {
	served := C.simplex_resolver_produce(it.at, C.uint64_t(view))
	if err := errorOf(served.status); err != nil || served.has == 0 {
		return nil, err
	}
	return servedOf(it.bytes())
}

func (it *Resolver) bytes() []byte {
	all := allBytes(func(from C.uint64_t) C.struct_simplex_chunk { return C.simplex_resolver_bytes(it.at, from) })
	runtime.KeepAlive(it)
	return all
}
