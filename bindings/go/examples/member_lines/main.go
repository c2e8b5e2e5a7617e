// Member_lines serves the lines of the repository's program viewstate (docs/PROGRAM.md) through this package, and writes the replies of the
// examples first_script and resolver of the Rust package.
//
//	member_lines voter N ME T OPTIMISTIC [resume|compact] < LINES
//	member_lines resolver T < LINES
package main

import (
	"bufio"
	"encoding/binary"
	"errors"
	"fmt"
	"hash/fnv"
	"os"
	"simplex"
	"strconv"
	"strings"
)

const epoch = 1

var namespace = simplex.Namespace{1}

var (
	timeouts = []string{"Retry", "Inactivity", "LeaderNullify", "LeaderTimeout", "CertificationTimeout", "StallTimeout", "MissingProposal",
		"IgnoredProposal", "InvalidProposal", "FailedCertification"}
	abandoned = []string{"ViewExit", "AncestrySuperseded", "AncestryInvalidated", "ParentNullify", "ViewNullify", "ResponseClosed",
		"IneligibleAtRecording"}
	certificates = []string{"", "notarization", "nullification", "finalization"}
	votes        = []string{"", "notarize", "nullify", "finalize"}
	faults       = map[simplex.Status]string{
		simplex.Failed: "fault 2 Failed", simplex.ViewTooLarge: "fault 3 ViewTooLarge", simplex.TimeOverflow: "fault 4 TimeOverflow",
		simplex.NotAllowed: "not-allowed",
	}
)

func main() {
	if err := run(os.Args[1:]); err != nil {
		fmt.Fprintln(os.Stderr, "member_lines:", err)
		os.Exit(1)
	}
}

func run(words []string) error {
	switch {
	case len(words) == 2 && words[0] == "resolver":
		resolver, err := simplex.StartResolver(uint32(number(words[1])), nil)
		if err != nil {
			return err
		}
		return serve((&asked{resolver}).reply)
	case (len(words) == 5 || len(words) == 6) && words[0] == "voter":
		return serveVoter(words)
	}
	return errors.New("usage: member_lines voter N ME T OPTIMISTIC [resume|compact], or member_lines resolver T")
}

func serveVoter(words []string) error {
	config := configOf(words)
	member, err := simplex.StartMember(config, 0)
	if err != nil {
		return err
	}
	it := &voter{config: config, member: member, resumes: len(words) == 6 && words[5] == "resume"}
	if len(words) == 6 && words[5] == "compact" {
		stored, err := member.EntriesSince(0)
		if err != nil {
			return err
		}
		it.stored = &stored
	}
	if err := serve(it.reply); err != nil {
		return err
	}
	if it.stored != nil {
		fmt.Fprintf(os.Stderr, "%d entries taken away\n", it.taken)
	}
	return nil
}

func configOf(words []string) simplex.Config {
	var signer *simplex.Participant
	if words[2] != "-" {
		me := simplex.Participant(number(words[2]))
		signer = &me
	}
	config := simplex.NewConfig(namespace, uint32(number(words[1])), signer, epoch, simplex.Digest{})
	config.TermLength, config.OptimisticViews = uint32(number(words[3])), number(words[4])
	return config
}

func serve(reply func(words []string) (string, error)) error {
	in, out := bufio.NewScanner(os.Stdin), bufio.NewWriter(os.Stdout)
	for in.Scan() {
		made, err := reply(strings.Fields(in.Text()))
		if err != nil {
			out.Flush()
			return err
		}
		fmt.Fprintln(out, made)
	}
	if err := out.Flush(); err != nil {
		return err
	}
	return in.Err()
}

// number returns the number of a word; lines of the program have no other words in their places.
func number(word string) uint64 {
	made, err := strconv.ParseUint(word, 10, 64)
	if err != nil {
		panic(err)
	}
	return made
}

// payload returns the payload that stands for a number: its bytes at the end.
func payload(number uint64) (made simplex.Digest) {
	binary.BigEndian.PutUint64(made[24:], number)
	return made
}

func numberOf(it simplex.Digest) uint64 { return binary.BigEndian.Uint64(it[24:]) }

func proposal(view, parent, of uint64) simplex.Proposal {
	return simplex.Proposal{Round: simplex.Round{Epoch: epoch, View: view}, Parent: parent, Payload: payload(of)}
}

// certificate returns one of this example: one byte that no one reads.
func certificate(kind simplex.Kind, it simplex.Proposal) simplex.Certificate {
	return simplex.Certificate{Subject: simplex.Subject{Kind: kind, Proposal: it}, Bytes: []byte{1}}
}

func placeOf(words []string, word string) int {
	for place, it := range words {
		if it == word {
			return place
		}
	}
	return -1
}

func kindOf(word string) simplex.Kind {
	if place := placeOf(certificates, word); place > 0 {
		return simplex.Kind(place)
	}
	return simplex.Kind(number(word))
}

func participantText(it *simplex.Participant) string {
	if it == nil {
		return "-"
	}
	return fmt.Sprint(*it)
}

func proposalText(word string, it simplex.Proposal) string {
	return fmt.Sprint(word, " ", it.Round.View, " ", it.Parent, " ", numberOf(it.Payload))
}

func contextText(word string, it simplex.Context) string {
	return fmt.Sprint(word, " ", it.Round.View, " ", it.Leader, " ", it.Parent, " ", numberOf(it.ParentPayload))
}

func certificateText(it *simplex.Certificate) string {
	if it == nil {
		return "none"
	}
	return fmt.Sprint(certificates[it.Subject.Kind], " ", it.Subject.Proposal.Round.View)
}

func entriesText(it simplex.Entries) string {
	text, beside := sumOf(it.Bytes), it.Stored.Bytes()
	for place := 0; place < 32; place += 8 {
		text += fmt.Sprint(" ", binary.BigEndian.Uint64(beside[place:]))
	}
	return fmt.Sprint(text, " ", beside[32] == 1)
}

// sumOf returns how many bytes there are, and their FNV-1a hash.
func sumOf(bytes []byte) string {
	hash := fnv.New64a()
	hash.Write(bytes)
	return fmt.Sprintf("%d:%d", len(bytes), hash.Sum64())
}

// faultText returns the program's text of a refusal; each other error ends the program.
func faultText(err error) (string, error) {
	var status simplex.Status
	if text := ""; errors.As(err, &status) {
		if text = faults[status]; text != "" {
			return text, nil
		}
	}
	return "", err
}
