package simplex

import (
	"bytes"
	"errors"
	"strings"
	"testing"
)

func settings() Config {
	me := Participant(1)
	return NewConfig(Namespace{7, 1}, 4, &me, 1, Digest{})
}

func started(t *testing.T, config Config) *Engine {
	t.Helper()
	engine, err := Start(config, DefaultOptions(), 0)
	if err != nil {
		t.Fatal(err)
	}
	t.Cleanup(engine.Close)
	return engine
}

func expect(t *testing.T, err error, status Status) {
	t.Helper()
	if !errors.Is(err, status) {
		t.Fatalf("%v, and not %v", err, status)
	}
}

// withAVote runs an engine until its first vote, and returns what it stored.
func withAVote(t *testing.T, engine *Engine) (all Entries) {
	t.Helper()
	for now := Millis(0); now < 60000; now += 500 {
		for {
			output, err := engine.Poll(now)
			if err != nil {
				t.Fatal(err)
			}
			if output == nil {
				break
			}
			switch output := output.(type) {
			case ReplaceOutput:
				all = output.Entries
			case StoreOutput:
				all = Entries{append(all.Bytes, output.Entries.Bytes...), output.Entries.Stored}
			case SignOutput:
				return all
			}
		}
	}
	t.Fatal("no vote in a minute")
	return all
}

func TestSettingsAreRefusedByTheirStatus(t *testing.T) {
	other := settings()
	other.Leaders = other.Leaders[:3]
	_, err := Start(other, DefaultOptions(), 0)
	expect(t, err, OtherTable)
	me := Participant(4)
	_, err = Start(NewConfig(Namespace{7, 1}, 4, &me, 1, Digest{}), DefaultOptions(), 0)
	expect(t, err, NoSuchMember)
	me = ^Participant(0)
	_, err = Start(NewConfig(Namespace{7, 1}, 4, &me, 1, Digest{}), DefaultOptions(), 0)
	expect(t, err, NoSuchMember)
	if !strings.Contains(OtherTable.Error(), "table of leaders") {
		t.Fatal(OtherTable.Error())
	}
}

func TestAJournalIsRefusedByItsStatus(t *testing.T) {
	stored := withAVote(t, started(t, settings()))
	resumed, err := Resume(settings(), DefaultOptions(), 0, stored.Stored, stored.Bytes)
	if err != nil {
		t.Fatal(err)
	}
	resumed.Close()
	_, err = Resume(settings(), DefaultOptions(), 0, stored.Stored, nil)
	expect(t, err, EntriesLost)
	other := append([]byte{}, stored.Bytes...)
	other[len(other)-1] ^= 1
	_, err = Resume(settings(), DefaultOptions(), 0, stored.Stored, other)
	expect(t, err, Damaged)
	me := Participant(2)
	_, err = Resume(NewConfig(Namespace{7, 1}, 4, &me, 1, Digest{}), DefaultOptions(), 0, stored.Stored, stored.Bytes)
	expect(t, err, ForeignSigner)
}

func TestWhatIsStoredHas33Bytes(t *testing.T) {
	stored := withAVote(t, started(t, settings())).Stored
	read, isRead := StoredFrom(stored.Bytes())
	if !isRead || read != stored || stored.Entries == 0 {
		t.Fatal(read, isRead, stored)
	}
	other := stored.Bytes()
	other[32] = 2
	if _, isRead := StoredFrom(other); isRead {
		t.Fatal("a flag that is neither 0 nor 1 is read")
	}
}

func TestAClosedEngineHasNoHandle(t *testing.T) {
	engine := started(t, settings())
	engine.Close()
	engine.Close()
	_, err := engine.Poll(0)
	expect(t, err, NoHandle)
	_, err = engine.Handle(Verified{View: 1, IsValid: true}, 0)
	expect(t, err, NoHandle)
	if !engine.State().IsFailed {
		t.Fatal("a closed engine has not failed")
	}
}

func TestRefusedInputsChangeNothing(t *testing.T) {
	config := settings()
	config.Draws = true
	engine := started(t, config)
	vote := Vote{Subject{Notarization, Proposal{Round: Round{1, 1}}}, 2, []byte{1}}
	_, err := engine.Handle(vote, 0)
	expect(t, err, NoCall)
	isOfUse, err := engine.Handle(Certified{View: 3, IsSuccess: true}, 0)
	if state := engine.State(); err != nil || isOfUse || state.IsFailed || state.Ignored != 1 {
		t.Fatal(isOfUse, err, state)
	}
}

func TestSignaturesAreRead(t *testing.T) {
	good := Certificate{Subject{Nullification, Proposal{Round: Round{1, 7}}}, []byte{0, 0, 0, 2, 0, 0, 0, 0, 0, 0, 0, 1, 99}}
	read, isRead := good.Signatures()
	if !isRead || len(read) != 1 || read[0].Signer != 2 || !bytes.Equal(read[0].Bytes, []byte{99}) {
		t.Fatal(read, isRead)
	}
	for _, other := range [][]byte{good.Bytes[:12], good.Bytes[:5], append(append([]byte{}, good.Bytes...), good.Bytes...)} {
		if _, isRead := (Certificate{good.Subject, other}).Signatures(); isRead {
			t.Fatal(other)
		}
	}
	if encoded, err := good.Subject.Encoded(); err != nil || len(encoded) != 17 || encoded[0] != 1 {
		t.Fatal(encoded, err)
	}
}

func TestATextBeginsWithItsNamespace(t *testing.T) {
	subject := Subject{Nullification, Proposal{Round: Round{1, 2}}}
	encoded, err := subject.Encoded()
	if err != nil {
		t.Fatal(err)
	}
	for _, namespace := range []Namespace{{7, 1}, {7, 2}} {
		text, err := subject.Text(namespace)
		if err != nil || !bytes.Equal(text, append(namespace[:], encoded...)) {
			t.Fatal(text, err)
		}
		config := settings()
		config.Namespace = namespace
		if order := orderAfterTimeout(t, started(t, config)); !bytes.HasPrefix(order.Text, namespace[:]) {
			t.Fatal(order.Text)
		}
	}
}

// orderAfterTimeout returns the vote that an engine orders once view 1 has timed out.
func orderAfterTimeout(t *testing.T, engine *Engine) *SignOutput {
	t.Helper()
	if _, err := engine.Handle(GivenUp{View: 1, Reason: Inactivity}, 0); err != nil {
		t.Fatal(err)
	}
	for {
		output, err := engine.Poll(0)
		if err != nil || output == nil {
			t.Fatal(output, err)
		}
		if order, isOrder := output.(SignOutput); isOrder {
			return &order
		}
	}
}

func TestTheLibraryIsOfThisVersion(t *testing.T) {
	if !IsThisVersion() || !strings.Contains(BuildInfo(), "proved; commit ") {
		t.Fatal(IsThisVersion(), BuildInfo())
	}
}
