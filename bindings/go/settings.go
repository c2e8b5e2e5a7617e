package simplex

// #include "simplex.h"
import "C"

import "encoding/binary"

// Config is how a member is set up. All members of an epoch have the same, except for the signer and the floor.
type Config struct {
	Namespace       Namespace // the network's: each text to sign begins with it
	Members         uint32
	Signer          *Participant // nil for a member that only follows
	Epoch           uint64
	Leaders         []Participant // each term's leader, round-robin
	Draws           bool          // certificates name leaders: simplex.h, simplex_settings
	TermLength      uint32
	OptimisticViews uint64
	StallTimeout    *Millis
	// What is final at the start: genesis by its payload, or a finalized proposal with its certificate, which the host verified.
	Genesis              Digest
	Floor                *Certificate
	LeaderTimeout        Millis
	CertificationTimeout Millis
	TimeoutRetry         Millis
	ViewRetention        uint64
	SkipTimeout          Millis // 0: no view is skipped
	SkipBudget           uint64 // 0: as many as there are members
}

// NewConfig returns the settings of members that lead round-robin, one view each, from genesis, with the usual times.
func NewConfig(namespace Namespace, members uint32, signer *Participant, epoch uint64, genesis Digest) Config {
	leaders := make([]Participant, members)
	for member := range leaders {
		leaders[member] = Participant(member)
	}
	return Config{
		Namespace: namespace, Members: members, Signer: signer, Epoch: epoch, Leaders: leaders, TermLength: 1, Genesis: genesis,
		LeaderTimeout: 1000, CertificationTimeout: 2000, TimeoutRetry: 500, ViewRetention: 10, SkipTimeout: 3000,
	}
}

// Options are intervals, and the length of a record. They need not be those of the other members.
type Options struct {
	Retry      Millis // after how long a fetch asks again: 1 at least
	OnItsWay   Millis // how long a missing certificate may be on its way
	LongRecord uint64 // a record with more entries is compacted
}

// DefaultOptions returns 250 ms, 25 ms and 2048 entries.
func DefaultOptions() Options { return Options{Retry: 250, OnItsWay: 25, LongRecord: 2048} }

// Stored is what is stored beside a journal.
type Stored struct {
	Entries                         uint64
	closed, retention, leastRetains uint64
	isPruned                        bool
}

// Bytes returns the 33 bytes that it is stored as.
func (it Stored) Bytes() (made [33]byte) {
	for place, number := range []uint64{it.Entries, it.closed, it.retention, it.leastRetains} {
		binary.BigEndian.PutUint64(made[8*place:], number)
	}
	if it.isPruned {
		made[32] = 1
	}
	return made
}

// StoredFrom returns what was stored as these bytes, and whether they are such bytes.
func StoredFrom(bytes [33]byte) (Stored, bool) {
	number := func(place int) uint64 { return binary.BigEndian.Uint64(bytes[8*place:]) }
	return Stored{number(0), number(1), number(2), number(3), bytes[32] == 1}, bytes[32] <= 1
}

// Entries are entries of the record, as bytes of the journal, and what to store beside it.
type Entries struct {
	Bytes  []byte
	Stored Stored
}

func flag(it bool) C.uint32_t {
	if it {
		return 1
	}
	return 0
}

func (it Config) flat() (C.struct_simplex_settings, error) {
	made := C.struct_simplex_settings{
		members: C.uint32_t(it.Members), signer: C.SIMPLEX_NOBODY, term_length: C.uint32_t(it.TermLength), draws: flag(it.Draws),
		stalls: flag(it.StallTimeout != nil), is_finalized: flag(it.Floor != nil), optimistic_views: C.uint64_t(it.OptimisticViews),
		epoch: C.uint64_t(it.Epoch), view_retention: C.uint64_t(it.ViewRetention), leader_timeout: C.uint64_t(it.LeaderTimeout),
		certification_timeout: C.uint64_t(it.CertificationTimeout), timeout_retry: C.uint64_t(it.TimeoutRetry),
		skip_timeout: C.uint64_t(it.SkipTimeout), skip_budget: C.uint64_t(it.SkipBudget),
		floor: Proposal{Payload: it.Genesis}.flat(), namespace_bytes: it.Namespace.flat(),
	}
	if it.Signer != nil {
		if *it.Signer == C.SIMPLEX_NOBODY {
			return made, NoSuchMember
		}
		made.signer = C.uint32_t(*it.Signer)
	}
	if it.StallTimeout != nil {
		made.stall_timeout = C.uint64_t(*it.StallTimeout)
	}
	if it.Floor != nil {
		made.floor = it.Floor.Subject.Proposal.flat()
	}
	return made, nil
}

func (it Config) certificate() []byte {
	if it.Floor == nil {
		return nil
	}
	return it.Floor.Bytes
}

func (it Options) flat() C.struct_simplex_options {
	return C.struct_simplex_options{retry: C.uint64_t(it.Retry), on_its_way: C.uint64_t(it.OnItsWay), long_record: C.uint64_t(it.LongRecord)}
}

func (it Stored) flat() C.struct_simplex_stored {
	return C.struct_simplex_stored{
		entries: C.uint64_t(it.Entries), closed: C.uint64_t(it.closed), retention: C.uint64_t(it.retention),
		least_retention: C.uint64_t(it.leastRetains), is_pruned: flag(it.isPruned),
	}
}

func storedOf(it C.struct_simplex_stored) Stored {
	return Stored{uint64(it.entries), uint64(it.closed), uint64(it.retention), uint64(it.least_retention), it.is_pruned != 0}
}
