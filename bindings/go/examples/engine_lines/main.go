// Engine_lines serves lines as bindings/rust/examples/engine_lines.rs does, and writes the same replies.
//
//	engine_lines N ME T OPTIMISTIC < LINES
package main

import (
	"bufio"
	"encoding/binary"
	"fmt"
	"hash/fnv"
	"os"
	"simplex"
	"strconv"
	"strings"
)

const epoch = 1

var namespace = simplex.Namespace{1}

var (
	options      = simplex.Options{Retry: 250, OnItsWay: 25, LongRecord: 40}
	votes        = []string{"", "notarize", "nullify", "finalize"}
	certificates = []string{"", "notarization", "nullification", "finalization"}
)

func main() {
	numbers, err := numbersOf(os.Args[1:])
	if err != nil || len(numbers) != 4 {
		fmt.Fprintln(os.Stderr, "usage: engine_lines N ME T OPTIMISTIC")
		os.Exit(2)
	}
	if err := serve(configOf(numbers)); err != nil {
		fmt.Fprintln(os.Stderr, "engine_lines:", err)
		os.Exit(1)
	}
}

func configOf(numbers []uint64) simplex.Config {
	me := simplex.Participant(numbers[1])
	signer := &me
	if numbers[1] >= numbers[0] {
		signer = nil
	}
	config := simplex.NewConfig(namespace, uint32(numbers[0]), signer, epoch, simplex.Digest{})
	config.TermLength, config.OptimisticViews = uint32(numbers[2]), numbers[3]
	return config
}

func serve(config simplex.Config) error {
	engine, err := simplex.Start(config, options, 0)
	if err != nil {
		return err
	}
	lifetime := &lifetime{config: config, engine: engine}
	in, out := bufio.NewScanner(os.Stdin), bufio.NewWriter(os.Stdout)
	for in.Scan() {
		words := strings.Fields(in.Text())
		numbers, err := numbersOf(words[1:])
		if err != nil {
			return err
		}
		reply, err := lifetime.reply(words[0], numbers)
		if err != nil {
			return err
		}
		fmt.Fprintln(out, reply)
	}
	if err := out.Flush(); err != nil {
		return err
	}
	return in.Err()
}

func numbersOf(words []string) (numbers []uint64, err error) {
	for _, word := range words {
		number, err := strconv.ParseUint(word, 10, 64)
		if err != nil {
			return nil, err
		}
		numbers = append(numbers, number)
	}
	return numbers, nil
}

// An engine, and what it stored.
type lifetime struct {
	config simplex.Config
	engine *simplex.Engine
	stored *simplex.Entries
}

func (it *lifetime) reply(word string, numbers []uint64) (string, error) {
	switch word {
	case "poll":
		return it.poll(numbers[0]), nil
	case "resume":
		return it.resume(numbers[0]), nil
	case "status":
		state := it.engine.State()
		return fmt.Sprintf("status %t %d %d %d", state.IsFailed, state.Wake, state.Ignored, state.Fetches), nil
	case "open":
		all := it.engine.Fetches()
		if numbers[0] >= uint64(len(all)) {
			return "none", nil
		}
		open := all[numbers[0]]
		return fmt.Sprintf("open %s %d %d %d", kindWord(open.Kind), open.View, open.Count, open.Moment), nil
	case "view":
		views, err := it.engine.View(numbers[0])
		return fmt.Sprintf("view %d %d %s %t %t", views.Current, views.LastFinalized, memberWord(views.Leader), views.AdmitsVote,
			views.AdmitsCertificate), err
	case "withheld":
		withheld, err := it.engine.Withheld(simplex.Kind(numbers[0]), numbers[1])
		return fmt.Sprintf("withheld %d", withheld), err
	case "shown":
		found, err := it.engine.Certificate(simplex.Kind(numbers[0]), numbers[1])
		if found == nil {
			return "none", err
		}
		return "shown " + sumOf(found.Bytes), nil
	case "served":
		return it.served(numbers[0])
	}
	return it.handle(word, numbers)
}

func (it *lifetime) handle(word string, numbers []uint64) (string, error) {
	input, err := inputOf(word, numbers)
	if err != nil {
		return "", err
	}
	isOfUse, err := it.engine.Handle(input, numbers[len(numbers)-1])
	if err != nil {
		return "failed", nil
	}
	return strconv.FormatBool(isOfUse), nil
}

func (it *lifetime) poll(now simplex.Millis) string {
	output, err := it.engine.Poll(now)
	if err != nil {
		return "failed"
	}
	switch output := output.(type) {
	case simplex.StoreOutput:
		it.stored = &simplex.Entries{Bytes: append(it.stored.Bytes, output.Entries.Bytes...), Stored: output.Entries.Stored}
	case simplex.ReplaceOutput:
		it.stored = &output.Entries
	}
	return textOf(output)
}

func (it *lifetime) resume(now simplex.Millis) string {
	if it.stored == nil {
		return "nothing is stored"
	}
	engine, err := simplex.Resume(it.config, options, now, it.stored.Stored, it.stored.Bytes)
	if err != nil {
		return "refused"
	}
	it.engine.Close()
	it.engine = engine
	return "resumed"
}

func (it *lifetime) served(view simplex.View) (string, error) {
	found, err := it.engine.Serve(view)
	if found == nil {
		return "none", err
	}
	text, err := found.Subject.Encoded()
	return "served " + sumOf(append(text, found.Bytes...)), err
}

func inputOf(word string, it []uint64) (simplex.Input, error) {
	member := func(place int) simplex.Participant { return simplex.Participant(it[place]) }
	switch word {
	case "proposal":
		return simplex.ProposalInput{From: member(0), Proposal: proposalOf(it[1:])}, nil
	case "vote":
		return simplex.Vote{Subject: simplex.Subject{Kind: simplex.Kind(it[0]), Proposal: proposalOf(it[2:])}, Signer: member(1), Signature: bytesOf(it[5])}, nil
	case "certificate":
		return simplex.Certificate{Subject: simplex.Subject{Kind: simplex.Kind(it[0]), Proposal: proposalOf(it[1:])}, Bytes: bytesOf(it[4])}, nil
	case "built":
		context := simplex.Context{Round: roundOf(it[0]), Leader: member(3), Parent: it[1], ParentPayload: payload(it[2])}
		return simplex.Built{Context: context, Payload: payload(it[4])}, nil
	case "verified":
		return simplex.Verified{View: it[0], IsValid: it[1] == 1}, nil
	case "certified":
		return simplex.Certified{View: it[0], IsSuccess: it[1] == 1}, nil
	case "given-up":
		return simplex.GivenUp{View: it[0], Reason: simplex.TimeoutReason(it[1])}, nil
	}
	return nil, fmt.Errorf("not a line: %s", word)
}

func roundOf(view uint64) simplex.Round { return simplex.Round{Epoch: epoch, View: view} }

func proposalOf(it []uint64) simplex.Proposal {
	return simplex.Proposal{Round: roundOf(it[0]), Parent: it[1], Payload: payload(it[2])}
}

// payload returns the payload that stands for a number: its bytes at the end.
func payload(number uint64) (made simplex.Digest) {
	binary.BigEndian.PutUint64(made[24:], number)
	return made
}

// bytesOf returns as many bytes of a number as it says, eight times.
func bytesOf(number uint64) []byte {
	made := make([]byte, number*8)
	for place := range made {
		made[place] = byte(number)
	}
	return made
}

func textOf(output simplex.Output) string {
	switch it := output.(type) {
	case simplex.StoreOutput:
		return "store " + entriesText(it.Entries)
	case simplex.ReplaceOutput:
		return "replace " + entriesText(it.Entries)
	case simplex.SignOutput:
		return "vote" + voteText(simplex.Vote{Subject: it.Subject, Signer: it.Signer, Signature: it.Text})
	case simplex.BroadcastOutput:
		return "broadcast" + subjectText(certificates, it.Certificate.Subject) + " " + sumOf(it.Certificate.Bytes)
	case simplex.VerifyOutput:
		return "verify" + contextText(it.Context) + proposalText(it.Proposal)
	case simplex.BuildOutput:
		return "build" + contextText(it.Context)
	case simplex.StopBuildingOutput:
		return fmt.Sprint("stop ", it.View)
	case simplex.CertifyOutput:
		return "certify" + proposalText(it.Proposal)
	case simplex.FetchOutput:
		return fmt.Sprintf("fetch %s %d %s", kindWord(it.Kind), it.View, memberWord(it.Of))
	case simplex.FinalizedOutput:
		return "finalized" + proposalText(it.Proposal)
	case simplex.EquivocatedOutput:
		return "equivocated" + voteText(it.One) + voteText(it.Other)
	case simplex.ProposedTwiceOutput:
		return fmt.Sprintf("twice %d %d", it.View, it.Leader)
	case simplex.ForgetOutput:
		return fmt.Sprint("forget ", it.View)
	}
	return "nothing"
}

func entriesText(it simplex.Entries) string {
	text, beside := sumOf(it.Bytes), it.Stored.Bytes()
	for place := 0; place < 32; place += 8 {
		text += fmt.Sprint(" ", binary.BigEndian.Uint64(beside[place:]))
	}
	return fmt.Sprint(text, " ", beside[32] == 1)
}

func voteText(it simplex.Vote) string {
	return fmt.Sprintf("%s %d %s", subjectText(votes, it.Subject), it.Signer, sumOf(it.Signature))
}

func subjectText(words []string, it simplex.Subject) string {
	if it.Kind == simplex.Nullification {
		return fmt.Sprintf(" %s %d.%d", words[it.Kind], it.Proposal.Round.Epoch, it.Proposal.Round.View)
	}
	return " " + words[it.Kind] + proposalText(it.Proposal)
}

func proposalText(it simplex.Proposal) string {
	return fmt.Sprintf(" %d.%d %d %s", it.Round.Epoch, it.Round.View, it.Parent, sumOf(it.Payload[:]))
}

func contextText(it simplex.Context) string {
	return fmt.Sprintf(" %d.%d %d %d %s", it.Round.Epoch, it.Round.View, it.Leader, it.Parent, sumOf(it.ParentPayload[:]))
}

func kindWord(kind simplex.FetchKind) string {
	switch kind {
	case simplex.FetchNotarization:
		return "notarization"
	case simplex.FetchNullification:
		return "nullification"
	}
	return "decision"
}

func memberWord(member *simplex.Participant) string {
	if member == nil {
		return "-"
	}
	return fmt.Sprint(*member)
}

// sumOf returns how many bytes there are, and their FNV-1a hash.
func sumOf(bytes []byte) string {
	hash := fnv.New64a()
	hash.Write(bytes)
	return fmt.Sprintf("%d:%d", len(bytes), hash.Sum64())
}
