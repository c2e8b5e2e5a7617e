package simplex

// #include "simplex_status.h"
import "C"

// Status is why a call failed: a simplex_status of simplex.h. It is an error.
type Status uint32

// The statuses that a host distinguishes. Status.Error has the text of each other one.
const (
	OutOfMemory   Status = C.SIMPLEX_OUT_OF_MEMORY
	Failed        Status = C.SIMPLEX_FAILED
	ViewTooLarge  Status = C.SIMPLEX_VIEW_TOO_LARGE
	TimeOverflow  Status = C.SIMPLEX_TIME_OVERFLOW
	NotAllowed    Status = C.SIMPLEX_NOT_ALLOWED
	NoCall        Status = C.SIMPLEX_NO_CALL
	NotMade       Status = C.SIMPLEX_NOT_MADE
	NoSuchMember  Status = C.SIMPLEX_NO_SUCH_MEMBER
	EntriesLost   Status = C.SIMPLEX_ENTRIES_LOST
	Damaged       Status = C.SIMPLEX_DAMAGED
	NoEntry       Status = C.SIMPLEX_NO_ENTRY
	EntryTooLong  Status = C.SIMPLEX_ENTRY_TOO_LONG
	NoHandle      Status = C.SIMPLEX_NO_HANDLE
	OtherTable    Status = C.SIMPLEX_OTHER_TABLE
	ForeignSigner Status = C.SIMPLEX_FOREIGN_SIGNER
)

// Error returns the status' text.
func (it Status) Error() string { return C.GoString(C.simplex_status_text(C.uint32_t(it))) }

func errorOf(status C.uint32_t) error {
	if status == C.SIMPLEX_OK {
		return nil
	}
	return Status(status)
}
