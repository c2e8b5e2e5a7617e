package main

import (
	"bytes"
	"errors"
	"fmt"
	"simplex"
)

// A member of which lines are asked, with the journal of a host that compacts it.
type voter struct {
	config  simplex.Config
	member  *simplex.Member
	resumes bool
	stored  *simplex.Entries
	taken   uint64
}

var (
	errNoCall = errors.New("not a call")
	refused   = []string{"1 OutOfOrder", "2 OtherEpoch", "3 ZeroView", "4 ViewTooLarge", "5 ForeignSigner", "6 ParentNotBelow",
		"7 VerdictWithoutNotarization", "8 ContradictingVerdicts", "9 NullifyBesideFinalize", "10 ContradictingVotes",
		"11 FinalizeWithoutVerdict", "12 TimeOverflow", "14 RetentionGrown"}
)

// The first status of a record that is refused, as simplex.h numbers them.
const outOfOrder simplex.Status = 40

func (it *voter) reply(words []string) (string, error) {
	made, err := it.replyTo(words)
	if err != nil {
		if made, err = faultText(err); err != nil {
			return "", fmt.Errorf("%s: %w", words[0], err)
		}
	}
	if it.stored != nil {
		err = it.grow(words[0] == "prune")
	}
	return made, err
}

func (it *voter) replyTo(words []string) (string, error) {
	numbers := make([]uint64, 0, 4)
	for _, word := range words[1:] {
		if word[0] >= '0' && word[0] <= '9' {
			numbers = append(numbers, number(word))
		}
	}
	if word := words[0]; word == "restart" || word == "restart-pruned" {
		return it.restart(simplex.Cut{Last: numbers[0], Prune: word == "restart-pruned"}, numbers[1])
	}
	for _, asked := range []func([]string, []uint64) (string, error){it.added, it.proposing, it.voting, it.others, it.known} {
		if made, err := asked(words, numbers); err != errNoCall {
			return made, err
		}
	}
	return "", errNoCall
}

func (it *voter) added(words []string, n []uint64) (string, error) {
	switch words[0] {
	case "nullification":
		added, err := it.member.Add(certificate(simplex.Nullification, proposal(n[0], 0, 0)), n[1])
		return fmt.Sprint("added ", added.IsNew), err
	case "notarization", "finalization":
		added, err := it.member.Add(certificate(kindOf(words[0]), proposal(n[0], n[1], n[2])), append(n, 0)[3])
		return fmt.Sprint("added ", added.IsNew, " ", participantText(added.Equivocator)), err
	}
	return "", errNoCall
}

func (it *voter) proposing(words []string, n []uint64) (string, error) {
	flag, err := false, error(nil)
	switch words[0] {
	case "proposal":
		flag, err = it.member.SetProposal(proposal(n[0], n[1], n[2]))
	case "proposed":
		flag, err = it.member.Proposed(n[0], payload(n[1]), n[2])
	case "supersede":
		flag, err = it.member.SupersedeProposalRequest(n[0])
	case "verified":
		flag, err = it.member.Verified(n[0])
	case "release":
		_, err = it.member.ReleaseProposalRequest(n[0])
		return "ok", err
	case "rejected":
		return "ok", it.member.VerificationFailed(n[0], simplex.InvalidProposal, n[1])
	case "verify":
		return it.verify()
	case "propose":
		request, err := it.member.TryPropose()
		switch {
		case request == nil:
			return "none", err
		case request.IsHandoff:
			return contextText("prepare", request.Context), nil
		}
		return contextText("propose", request.Context), nil
	case "abandon":
		reason, err := it.member.PendingHandoffAbandonment(n[0])
		if reason == nil {
			return "none", err
		}
		return abandoned[*reason], nil
	default:
		return "", errNoCall
	}
	return fmt.Sprint(flag), err
}

func (it *voter) verify() (string, error) {
	work, err := it.member.TryVerify()
	switch work := work.(type) {
	case simplex.VerifyOutput:
		return fmt.Sprint(contextText("ready", work.Context), " ", numberOf(work.Proposal.Payload)), nil
	case simplex.Missing:
		return fmt.Sprint("resolve ", work.Proposal, " ", work.View, " ", certificates[work.Kind], " ", work.Target), nil
	}
	return "wait", err
}

func (it *voter) voting(words []string, n []uint64) (string, error) {
	switch words[0] {
	case "broadcast":
		found, err := it.member.Broadcast(kindOf(words[1]), n[0])
		return certificateText(found), err
	case "best":
		found, err := it.member.BestCertificate()
		return certificateText(found), err
	}
	kind := simplex.Kind(placeOf(votes, words[0]))
	if placeOf(votes, words[0]) < 0 {
		return "", errNoCall
	}
	vote, err := it.member.Construct(kind, n[0])
	if vote == nil {
		return "none", err
	}
	text, err := vote.Subject.Text(namespace)
	if err != nil || !bytes.Equal(text, vote.Text) {
		return "", fmt.Errorf("a vote does not sign its subject's text: %w", err)
	}
	if kind == simplex.Nullification {
		return fmt.Sprint("nullify ", vote.Subject.Proposal.Round.View, " ", vote.IsRepeat), nil
	}
	return proposalText(words[0], vote.Subject.Proposal), nil
}

func (it *voter) others(words []string, n []uint64) (string, error) {
	switch words[0] {
	case "candidates":
		return it.candidates()
	case "token":
		return "ok", it.member.SetCertifyHandle(n[0], n[1])
	case "verdict":
		judged, err := it.member.Certified(n[0], words[2] == "true", n[1])
		if judged == nil {
			return "none", err
		}
		return fmt.Sprint("certified ", judged.Subject.Proposal.Round.View), nil
	case "trigger":
		_, err := it.member.TriggerTimeout(n[0], simplex.TimeoutReason(placeOf(timeouts, words[2])), n[1])
		return "ok", err
	case "timeout":
		next, err := it.member.NextTimeout(n[0])
		return fmt.Sprint("timeout ", next.Moment, " ", timeouts[next.Reason]), err
	case "prune":
		text := "pruned"
		dropped, err := it.member.Prune()
		for _, view := range dropped {
			text += fmt.Sprint(" ", view)
		}
		return text, err
	}
	return "", errNoCall
}

func (it *voter) candidates() (string, error) {
	found, err := it.member.CertifyCandidates()
	text := "candidates"
	for _, it := range found.Proposals {
		text += fmt.Sprint(" ", it.Round.View)
	}
	text += " fetch"
	for _, it := range found.Fetches {
		text += fmt.Sprint(" ", it.Proposal, ":", it.View)
	}
	return text, err
}

func (it *voter) known(words []string, n []uint64) (string, error) {
	switch words[0] {
	case "record":
		stored, err := it.member.Stored()
		return fmt.Sprint("record ", stored.Entries), err
	case "view":
		views, err := it.member.View(0)
		return fmt.Sprint("view ", views.Current, " ", views.LastFinalized, " ", views.MinActive), err
	case "known":
		views, err := it.member.View(n[0])
		forwardable := "-"
		if views.Forwardable != nil {
			forwardable = fmt.Sprint(numberOf(views.Forwardable.Payload))
		}
		return fmt.Sprint("known ", participantText(views.Leader), " ", views.IsTracked, " ", views.AdmitsVote, " ", views.AdmitsCertificate,
			" ", views.VotedNullify, " ", forwardable), err
	case "withheld":
		withheld, err := it.member.Withheld(simplex.Kind(n[0]), n[1])
		return fmt.Sprint("withheld ", uint32(withheld)), err
	case "shown":
		found, err := it.member.Certificate(simplex.Kind(n[0]), n[1])
		if found == nil {
			return "none", err
		}
		return "shown " + sumOf(found.Bytes), nil
	case "entries":
		entries, err := it.member.EntriesSince(n[0])
		if err != nil {
			return "", err
		}
		return "entries " + entriesText(entries), nil
	case "scan":
		return it.scan(n[0])
	}
	return "", errNoCall
}

// scan returns where the journal of all entries ends, once its last bytes are cut off.
func (it *voter) scan(cut uint64) (string, error) {
	all, err := it.member.EntriesSince(0)
	if cut > uint64(len(all.Bytes)) {
		cut = uint64(len(all.Bytes))
	}
	found := simplex.Scan(all.Bytes[:uint64(len(all.Bytes))-cut])
	return fmt.Sprint("scan ", found.Entries, " ", found.Bytes, " ", []string{"whole", "cut", "broken"}[found.Ending]), err
}

// restart begins another lifetime from the record: in place, or as another process would, from the bytes that were stored.
func (it *voter) restart(cut simplex.Cut, now simplex.Millis) (string, error) {
	if it.resumes && cut == (simplex.Cut{}) {
		all, err := it.member.EntriesSince(0)
		if err != nil {
			return "", err
		}
		if it.resume(all, now) == nil {
			return "ok", nil
		}
	}
	var resumed error
	if it.stored != nil {
		resumed = it.resume(*it.stored, now)
	}
	// Where a resume is refused, a restart in place is refused alike, and leaves the member failed.
	restarted := it.member.Restart(it.config, now, cut)
	if resumed != nil && resumed != restarted {
		return "", fmt.Errorf("a resume is refused where a restart is not: %w", resumed)
	}
	if it.stored != nil {
		all, err := it.member.EntriesSince(0)
		if err != nil {
			return "", err
		}
		it.stored = &all
	}
	var status simplex.Status
	switch {
	case restarted == nil:
		return "ok", nil
	case errors.As(restarted, &status) && status >= outOfOrder:
		return "refused " + refused[status-outOfOrder], nil
	}
	return "", restarted
}

func (it *voter) resume(from simplex.Entries, now simplex.Millis) error {
	member, err := simplex.ResumeMember(it.config, now, from.Stored, from.Bytes)
	if err != nil {
		return err
	}
	it.member.Close()
	it.member = member
	return nil
}

// grow appends what the record has grown by; with a pruning, puts all that is left in place of the journal.
func (it *voter) grow(isPruned bool) error {
	grown, err := it.member.EntriesSince(it.stored.Stored.Entries)
	if err != nil {
		return err
	}
	it.stored = &simplex.Entries{Bytes: append(it.stored.Bytes, grown.Bytes...), Stored: grown.Stored}
	if !isPruned {
		return nil
	}
	left, err := it.member.PruneRecord()
	it.taken += it.stored.Stored.Entries - left.Stored.Entries
	it.stored = &left
	return err
}
