package simplex

// #include "simplex.h"
import "C"

// Ending says how a journal ends after its whole entries. simplex_ending in simplex.h says what each means.
type Ending uint32

// The endings.
const (
	Whole  Ending = C.SIMPLEX_WHOLE
	Torn   Ending = C.SIMPLEX_CUT
	Broken Ending = C.SIMPLEX_BROKEN
)

// Scanned is where a journal's entries end.
type Scanned struct {
	Entries uint64 // how many whole entries the journal begins with
	Bytes   uint64 // how many bytes these are: an append that was cut off is truncated to here
	Ending  Ending
}

// Scan reads the entries of a journal, and returns where they end.
func Scan(journal []byte) Scanned {
	scan := C.simplex_scan(bytesAt(journal), C.size_t(len(journal)))
	return Scanned{uint64(scan.entries), uint64(scan.bytes), Ending(scan.ending)}
}
