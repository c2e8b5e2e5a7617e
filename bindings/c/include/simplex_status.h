/**
 * @file
 * What each status of simplex.h says, as text: for logs and for errors of other languages. */
#ifndef SIMPLEX_STATUS_H
#define SIMPLEX_STATUS_H

#include "simplex.h"

/** Returns what a status says, as text that ends with a zero byte and is never freed; "an unknown status" where simplex_status has no such
 * number. */
static inline const char *simplex_status_text(uint32_t status) {
    switch (status) {
    case SIMPLEX_OK: return "success";
    case SIMPLEX_OUT_OF_MEMORY: return "out of memory";
    case SIMPLEX_FAILED: return "the member or the engine has failed: resume another from what was stored";
    case SIMPLEX_VIEW_TOO_LARGE: return "a view is above 2^63 - 1";
    case SIMPLEX_TIME_OVERFLOW: return "a deadline is above 2^64 - 1 milliseconds";
    case SIMPLEX_NOT_ALLOWED: return "the call is not allowed in this state; nothing has changed";
    case SIMPLEX_NO_CALL: return "the numbers are none of a call or an input; nothing has changed";
    case SIMPLEX_NOT_MADE: return "out of memory for the bytes that were passed; nothing has changed";
    case SIMPLEX_NO_SUCH_MEMBER: return "there is no member, or the signer is none of them";
    case SIMPLEX_NOTHING_LEADS: return "a term has no view, or the table of leaders no entry";
    case SIMPLEX_NO_FLAG: return "a flag is neither 0 nor 1";
    case SIMPLEX_ENTRIES_LOST: return "the journal has fewer entries than were stored";
    case SIMPLEX_DAMAGED: return "the journal is damaged or cut";
    case SIMPLEX_NO_ENTRY: return "a frame of the journal holds no entry";
    case SIMPLEX_ENTRY_TOO_LONG: return "an entry has 2^32 bytes or more";
    case SIMPLEX_NO_HANDLE: return "the handle is null";
    case SIMPLEX_NO_PARTICIPANTS: return "there are no participants";
    case SIMPLEX_LEADER_TIMEOUT_ZERO: return "the leader timeout is 0";
    case SIMPLEX_CERTIFICATION_NOT_ABOVE_LEADER: return "the certification timeout is not above the leader timeout";
    case SIMPLEX_SKIP_NOT_ABOVE_CERTIFICATION: return "the skip timeout is not above the certification timeout";
    case SIMPLEX_SKIP_NOT_ABOVE_RETRY: return "the skip timeout is not above the timeout retry";
    case SIMPLEX_RETRY_ZERO: return "the timeout retry is 0";
    case SIMPLEX_RETENTION_ZERO: return "the view retention is 0";
    case SIMPLEX_FLOOR_EPOCH: return "the floor's finalization is of another epoch";
    case SIMPLEX_FLOOR_AT_GENESIS: return "the floor's finalization is of genesis";
    case SIMPLEX_FLOOR_UNVERIFIED: return "the floor's finalization is not accepted";
    case SIMPLEX_OTHER_MEMBERS: return "the elector has other members";
    case SIMPLEX_NO_SUCH_LEADER: return "an entry of the table of leaders is no member's index";
    case SIMPLEX_OTHER_TABLE: return "the table of leaders has another number of entries than there are members";
    case SIMPLEX_FETCH_RETRY_ZERO: return "the retry of fetches is 0";
    case SIMPLEX_OUT_OF_ORDER: return "an entry's view is below that of the entry before it";
    case SIMPLEX_OTHER_EPOCH: return "the floor or an entry is of another epoch";
    case SIMPLEX_ZERO_VIEW: return "the floor or an entry is of genesis";
    case SIMPLEX_RECORD_VIEW_TOO_LARGE: return "a view or a parent of the record is above 2^63 - 1";
    case SIMPLEX_FOREIGN_SIGNER: return "a vote of the record is not of the member that signs here";
    case SIMPLEX_PARENT_NOT_BELOW: return "a vote of the record names a parent that is not below its view";
    case SIMPLEX_VERDICT_WITHOUT_NOTARIZATION: return "a verdict of the record has no notarization of its view before it";
    case SIMPLEX_CONTRADICTING_VERDICTS: return "a verdict of the record contradicts one before it";
    case SIMPLEX_NULLIFY_BESIDE_FINALIZE: return "a view of the record was voted both to nullify and to finalize";
    case SIMPLEX_CONTRADICTING_VOTES: return "two votes of one kind in a view of the record are for two proposals";
    case SIMPLEX_FINALIZE_WITHOUT_VERDICT: return "a vote to finalize has no true verdict before it in the record";
    case SIMPLEX_RECORD_TIME_OVERFLOW: return "a deadline of the record is above 2^64 - 1 milliseconds";
    case SIMPLEX_RETENTION_GROWN: return "the record was pruned, and the settings retain more views than an earlier lifetime did";
    default: return "an unknown status";
    }
}

#endif
