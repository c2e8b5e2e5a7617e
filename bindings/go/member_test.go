package simplex

import (
	"bytes"
	"reflect"
	"testing"
)

func memberSettings(me Participant) Config { return NewConfig(Namespace{7, 1}, 4, &me, 1, Digest{}) }

func block(view View) Proposal {
	return Proposal{Round: Round{1, view}, Parent: view - 1, Payload: Digest{7}}
}

func must[T any](t *testing.T) func(T, error) T {
	return func(made T, err error) T {
		t.Helper()
		if err != nil {
			t.Fatal(err)
		}
		return made
	}
}

// withAnOwnVote returns a member that leads view 1 and voted for its own proposal.
func withAnOwnVote(t *testing.T) *Member {
	t.Helper()
	member := must[*Member](t)(StartMember(memberSettings(0), 0))
	t.Cleanup(member.Close)
	request := must[*ProposalRequest](t)(member.TryPropose())
	if request == nil || request.IsHandoff || request.Context.Round.View != 1 {
		t.Fatal(request)
	}
	if !must[bool](t)(member.Proposed(1, block(1).Payload, 5)) {
		t.Fatal("the block is not accepted")
	}
	vote := must[*VoteOrder](t)(member.Construct(Notarization, 1))
	if vote == nil || vote.Signer != 0 || vote.IsRepeat || !bytes.Equal(vote.Text, must[[]byte](t)(vote.Subject.Text(Namespace{7, 1}))) {
		t.Fatal(vote)
	}
	return member
}

func TestMembersAreRefusedByTheirStatus(t *testing.T) {
	_, err := StartMember(memberSettings(4), 0)
	expect(t, err, NoSuchMember)
	stored := must[Entries](t)(withAnOwnVote(t).EntriesSince(0))
	_, err = ResumeMember(memberSettings(0), 0, stored.Stored, nil)
	expect(t, err, EntriesLost)
	_, err = ResumeMember(memberSettings(1), 0, stored.Stored, stored.Bytes)
	expect(t, err, ForeignSigner)
	other := append([]byte{}, stored.Bytes...)
	other[len(other)-1] ^= 1
	_, err = ResumeMember(memberSettings(0), 0, stored.Stored, other)
	expect(t, err, Damaged)
}

func TestAResumedMemberDoesNotVoteAgain(t *testing.T) {
	stored := must[Entries](t)(withAnOwnVote(t).EntriesSince(0))
	member := must[*Member](t)(ResumeMember(memberSettings(0), 9, stored.Stored, stored.Bytes))
	defer member.Close()
	if vote := must[*VoteOrder](t)(member.Construct(Notarization, 1)); vote != nil {
		t.Fatal("a second vote", vote)
	}
	if withheld := must[Withheld](t)(member.Withheld(Notarization, 1)); withheld != WithheldAlreadyVoted {
		t.Fatal(withheld)
	}
	if beside := must[Stored](t)(member.Stored()); beside != stored.Stored {
		t.Fatal(beside, stored.Stored)
	}
	_, err := member.Construct(Kind(9), 1)
	expect(t, err, NoCall)
}

func TestARefusedRestartLeavesTheRecord(t *testing.T) {
	member := withAnOwnVote(t)
	stored := must[Entries](t)(member.EntriesSince(0))
	expect(t, member.Restart(memberSettings(1), 9, Cut{}), ForeignSigner)
	if !member.IsFailed() {
		t.Fatal("the member has not failed")
	}
	_, err := member.TryVerify()
	expect(t, err, Failed)
	if left := must[Entries](t)(member.EntriesSince(0)); !bytes.Equal(left.Bytes, stored.Bytes) {
		t.Fatal("the record is not left")
	}
	if err := member.Restart(memberSettings(0), 9, Cut{}); err != nil || member.IsFailed() {
		t.Fatal(err)
	}
}

func TestAClosedMemberHasNoHandle(t *testing.T) {
	member := withAnOwnVote(t)
	member.Close()
	member.Close()
	_, err := member.TryPropose()
	expect(t, err, NoHandle)
	_, err = member.EntriesSince(0)
	expect(t, err, NoHandle)
	_, err = member.Stored()
	expect(t, err, NoHandle)
	if !member.IsFailed() {
		t.Fatal("a closed member has not failed")
	}
}

func TestAPrunedRecordIsShorter(t *testing.T) {
	member := must[*Member](t)(StartMember(memberSettings(0), 0))
	defer member.Close()
	for view := View(1); view < 50; view++ {
		added := must[Added](t)(member.Add(Certificate{Subject{Finalization, block(view)}, []byte{7}}, view))
		if !added.IsNew || added.Equivocator != nil {
			t.Fatal(added)
		}
	}
	whole := must[Stored](t)(member.Stored())
	if dropped := must[[]View](t)(member.Prune()); len(dropped) == 0 {
		t.Fatal("no view is dropped")
	}
	left := must[Entries](t)(member.PruneRecord())
	if left.Stored.Entries >= whole.Entries {
		t.Fatal(left.Stored, whole)
	}
	resumed := must[*Member](t)(ResumeMember(memberSettings(0), 60, left.Stored, left.Bytes))
	defer resumed.Close()
	if views, others := must[Views](t)(member.View(0)), must[Views](t)(resumed.View(0)); views.Current != others.Current {
		t.Fatal(views, others)
	}
	if best := must[*Certificate](t)(member.BestCertificate()); best == nil || best.Subject.Proposal != block(49) {
		t.Fatal(best)
	}
}

func TestAJournalIsScanned(t *testing.T) {
	journal := must[Entries](t)(withAnOwnVote(t).EntriesSince(0)).Bytes
	if whole := Scan(journal); whole != (Scanned{1, uint64(len(journal)), Whole}) {
		t.Fatal(whole)
	}
	if cut := Scan(journal[:len(journal)-1]); cut != (Scanned{0, 0, Torn}) {
		t.Fatal(cut)
	}
	journal[len(journal)-1] ^= 1
	if broken := Scan(journal); broken.Ending != Broken {
		t.Fatal(broken)
	}
}

func TestAResolverFetchesWhatIsMissing(t *testing.T) {
	resolver := must[*Resolver](t)(StartResolver(1, nil))
	nullification := func(view View) Certificate {
		return Certificate{Subject{Nullification, Proposal{Round: Round{1, view}}}, []byte{7}}
	}
	effects := must[[]Effect](t)(resolver.Updated(nullification(3)))
	expected := []Effect{SettledEffect{Nullification, 3, 3}, FetchEffect{1, 3, MissingNullification}, FetchEffect{2, 3, MissingNullification}}
	if !reflect.DeepEqual(effects, expected) {
		t.Fatal(effects)
	}
	views := must[[]View](t)(resolver.Outstanding())
	if len(views) != 2 || views[0] != 1 || views[1] != 2 || resolver.Fetches() != 2 {
		t.Fatal(views, resolver.Fetches())
	}
	if !resolver.IsOpen(1) || resolver.IsOpen(3) || !resolver.IsSettled(3, Nullification) || resolver.IsFailed() {
		t.Fatal("view 3 is there, and view 1 is not")
	}
	if served := must[*Certificate](t)(resolver.Produce(3)); served == nil || served.Subject != nullification(3).Subject {
		t.Fatal(served)
	}
	_, err := resolver.Updated(nullification(0))
	expect(t, err, NotAllowed)
	resolver.Close()
	_, err = resolver.Outstanding()
	expect(t, err, NoHandle)
	_, err = StartResolver(1, make([]byte, 40))
	expect(t, err, Damaged)
}
