package main

import (
	"bytes"
	"encoding/binary"
	"errors"
	"hash/fnv"
	"simplex"
)

const (
	epoch = 1
	// How many outputs an engine carries out before messages and time get a turn: a member alone is never out of outputs.
	mostOutputs          = 1000
	messagesAMillisecond = 64
	// After how many steps a network without its views has no progress: a right one takes 1,320.
	mostSteps = 5000
)

var genesis simplex.Digest

// What each text to sign begins with: a digest of a real network's name, epoch and members.
var namespace = simplex.Namespace{1}

// A block is what a proposal's payload is the digest of. It names its parent by digest, and travels with its proposal.
type block struct {
	view   simplex.View
	parent simplex.Digest
}

type askBlock struct{ digest simplex.Digest }

// What members send each other: a block, an askBlock, a simplex.Vote, a simplex.Certificate or a simplex.FetchOutput.
type message any

type sent struct {
	from, to simplex.Participant
	message  message
}

// What a member has stored.
type disk struct {
	journal []byte
	stored  *[33]byte
}

// A member: its engine while its process runs, its disk, its blocks, and the chain that it delivered.
type node struct {
	me        simplex.Participant
	members   uint32
	engine    *simplex.Engine
	disk      disk
	chain     []block
	blocks    map[simplex.Digest]block
	finalized *simplex.Proposal
}

// All members, the messages that are on their way, and the clock.
type network struct {
	nodes   []*node
	now     simplex.Millis
	arrived int
	sent    []sent
}

func hashOf(parts ...[]byte) []byte {
	hash := fnv.New64a()
	for _, part := range parts {
		hash.Write(part)
	}
	return hash.Sum(nil)
}

// signature returns a member's signature on a text: a toy that anyone can make.
func signature(signer simplex.Participant, text []byte) []byte {
	var index [4]byte
	binary.BigEndian.PutUint32(index[:], signer)
	return hashOf(index[:], text)
}

func (it block) digest() (made simplex.Digest) {
	var view [8]byte
	binary.BigEndian.PutUint64(view[:], it.view)
	for place := 0; place < 4; place++ {
		copy(made[8*place:], hashOf([]byte{byte(place)}, view[:], it.parent[:]))
	}
	return made
}

func blockOn(it simplex.Context) block { return block{it.Round.View, it.ParentPayload} }

func start(members uint32) (*network, error) {
	it := &network{}
	for member := simplex.Participant(0); member < members; member++ {
		it.nodes = append(it.nodes, &node{me: member, members: members, blocks: map[simplex.Digest]block{}})
		if err := it.nodes[member].begin(it.now, &it.sent); err != nil {
			return nil, err
		}
	}
	return it, nil
}

// step delivers a message; where none is on its way, it advances the clock to the next moment at which an engine polls.
func (it *network) step() error {
	for _, node := range it.nodes {
		if err := node.settle(it.now, &it.sent); err != nil {
			return err
		}
	}
	if it.arrived++; it.arrived%messagesAMillisecond == 0 {
		it.now++
	}
	if len(it.sent) > 0 {
		next := it.sent[0]
		it.sent = it.sent[1:]
		return it.nodes[next.to].receive(next.from, next.message, it.now, &it.sent)
	}
	wake := ^simplex.Millis(0)
	for _, node := range it.nodes {
		if node.engine != nil && node.engine.State().Wake < wake {
			wake = node.engine.State().Wake
		}
	}
	if wake > it.now {
		it.now = wake
	}
	return nil
}

// begin begins a lifetime. The last finalization is read from the record: a lifetime that ended may have stored it without reporting it.
func (it *node) begin(now simplex.Millis, out *[]sent) (err error) {
	me := it.me
	config := simplex.NewConfig(namespace, it.members, &me, epoch, genesis)
	if it.disk.stored == nil {
		it.engine, err = simplex.Start(config, simplex.DefaultOptions(), now)
	} else if stored, isStored := simplex.StoredFrom(*it.disk.stored); isStored {
		it.engine, err = simplex.Resume(config, simplex.DefaultOptions(), now, stored, it.disk.journal)
	} else {
		err = errors.New("what is stored beside the journal is damaged")
	}
	if err != nil {
		return err
	}
	views, err := it.engine.View(0)
	if err != nil {
		return err
	}
	last, err := it.engine.Certificate(simplex.Finalization, views.LastFinalized)
	if it.finalized = nil; last != nil {
		it.finalized = &last.Subject.Proposal
	}
	it.deliver(out)
	return err
}

func (it *node) settle(now simplex.Millis, out *[]sent) error {
	for count := 0; it.engine != nil && count < mostOutputs; count++ {
		output, err := it.engine.Poll(now)
		if err != nil || output == nil {
			return err
		}
		if err := it.carryOut(output, now, out); err != nil {
			return err
		}
	}
	return nil
}

// receive verifies signatures and certificates before the engine receives them.
func (it *node) receive(from simplex.Participant, message message, now simplex.Millis, out *[]sent) error {
	if it.engine == nil {
		return nil
	}
	switch message := message.(type) {
	case block:
		it.blocks[message.digest()] = message
		it.deliver(out)
	case askBlock:
		if found, isHere := it.blocks[message.digest]; isHere {
			*out = append(*out, sent{it.me, from, found})
		}
	case simplex.Vote:
		return it.receiveVote(from, message, now)
	case simplex.Certificate:
		if it.isGood(message) {
			_, err := it.engine.Handle(message, now)
			return err
		}
	case simplex.FetchOutput:
		found, err := it.served(message)
		if found != nil {
			*out = append(*out, sent{it.me, from, *found})
		}
		return err
	}
	return nil
}

func (it *node) receiveVote(from simplex.Participant, vote simplex.Vote, now simplex.Millis) error {
	text, err := vote.Subject.Text(namespace)
	if err != nil || !bytes.Equal(vote.Signature, signature(vote.Signer, text)) || vote.Subject.Proposal.Round.Epoch != epoch {
		return err
	}
	if vote.Subject.Kind == simplex.Notarization {
		if _, err := it.engine.Handle(simplex.ProposalInput{From: from, Proposal: vote.Subject.Proposal}, now); err != nil {
			return err
		}
	}
	_, err = it.engine.Handle(vote, now)
	return err
}

func (it *node) isGood(certificate simplex.Certificate) bool {
	signatures, isRead := certificate.Signatures()
	text, err := certificate.Subject.Text(namespace)
	if err != nil || !isRead || uint32(len(signatures)) < it.members-(it.members-1)/3 {
		return false
	}
	for _, one := range signatures {
		if one.Signer >= it.members || !bytes.Equal(one.Bytes, signature(one.Signer, text)) {
			return false
		}
	}
	return true
}

// served returns what a member that asks receives: the notarization of just that view, or a certificate that leads past it.
func (it *node) served(fetch simplex.FetchOutput) (*simplex.Certificate, error) {
	if fetch.Kind == simplex.FetchNotarization {
		if found, err := it.engine.Certificate(simplex.Notarization, fetch.View); found != nil || err != nil {
			return found, err
		}
	}
	return it.engine.Serve(fetch.View)
}

func (it *node) carryOut(output simplex.Output, now simplex.Millis, out *[]sent) (err error) {
	switch output := output.(type) {
	case simplex.StoreOutput:
		stored := output.Entries.Stored.Bytes()
		it.disk = disk{append(it.disk.journal, output.Entries.Bytes...), &stored}
	case simplex.ReplaceOutput:
		stored := output.Entries.Stored.Bytes()
		it.disk = disk{output.Entries.Bytes, &stored}
	case simplex.SignOutput:
		return it.sign(output, out)
	case simplex.BroadcastOutput:
		it.sendToOthers(output.Certificate, out)
	case simplex.VerifyOutput:
		isValid := output.Proposal.Payload == blockOn(output.Context).digest()
		_, err = it.engine.Handle(simplex.Verified{View: output.Proposal.Round.View, IsValid: isValid}, now)
	case simplex.BuildOutput:
		built := blockOn(output.Context)
		it.blocks[built.digest()] = built
		_, err = it.engine.Handle(simplex.Built{Context: output.Context, Payload: built.digest()}, now)
	case simplex.CertifyOutput:
		_, err = it.engine.Handle(simplex.Certified{View: output.Proposal.Round.View, IsSuccess: true}, now)
	case simplex.FetchOutput:
		if output.Of != nil {
			*out = append(*out, sent{it.me, *output.Of, output})
		}
	case simplex.FinalizedOutput:
		it.finalized = &output.Proposal
		it.deliver(out)
	case simplex.EquivocatedOutput, simplex.ProposedTwiceOutput:
		err = errors.New("an honest member contradicted itself")
	}
	return err
}

// sign signs a vote, which is stored by now, and sends it to all others and to the engine.
func (it *node) sign(order simplex.SignOutput, out *[]sent) error {
	if !bytes.Contains(it.disk.journal, order.Text) {
		return errors.New("a vote is ordered before it is stored")
	}
	vote := simplex.Vote{Subject: order.Subject, Signer: order.Signer, Signature: signature(order.Signer, order.Text)}
	views, err := it.engine.View(vote.Subject.Proposal.Round.View)
	if err != nil {
		return err
	}
	isLeader := views.Leader != nil && *views.Leader == it.me
	if found, isHere := it.blocks[vote.Subject.Proposal.Payload]; isHere && isLeader && vote.Subject.Kind == simplex.Notarization {
		it.sendToOthers(found, out)
	}
	it.sendToOthers(vote, out)
	*out = append(*out, sent{it.me, it.me, vote})
	return nil
}

// deliver delivers the finalized block after its ancestors. Where a block is missing, it asks all others for it.
func (it *node) deliver(out *[]sent) {
	lastView, last := simplex.View(0), genesis
	if len(it.chain) > 0 {
		lastView, last = it.chain[len(it.chain)-1].view, it.chain[len(it.chain)-1].digest()
	}
	if it.finalized == nil || it.finalized.Round.View <= lastView {
		return
	}
	var fresh []block
	for digest := it.finalized.Payload; digest != last; digest = fresh[len(fresh)-1].parent {
		found, isHere := it.blocks[digest]
		if !isHere {
			it.sendToOthers(askBlock{digest}, out)
			return
		}
		fresh = append(fresh, found)
	}
	for place := len(fresh) - 1; place >= 0; place-- {
		it.chain = append(it.chain, fresh[place])
	}
}

func (it *node) sendToOthers(message message, out *[]sent) {
	for to := simplex.Participant(0); to < it.members; to++ {
		if to != it.me {
			*out = append(*out, sent{it.me, to, message})
		}
	}
}
