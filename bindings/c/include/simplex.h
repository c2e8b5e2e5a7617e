/**
 * @file
 * The Simplex consensus protocol, proved in Rattle: an engine (simplex_engine), and for hosts that write their own the member that decides
 * in it (simplex_member) and its peer resolver (simplex_resolver).
 *
 * Link libsimplex.a, which bindings/build makes (x86-64 Linux; it takes memory from malloc). docs/EMBEDDING.md has both loops and the
 * journal; bindings/rust is a Rust package over this header.
 *
 * WHAT IS PROVED, AND WHAT THE HOST MUST DO
 *
 *   Proved of the functions below                          | The host must
 *   -------------------------------------------------------+--------------------------------------------------------------------
 *   a text to sign begins with the settings' namespace     | choose a namespace that no other network of its keys has
 *   a call asks the core exactly what its numbers say, and | verify a certificate before it passes one, and pass proposals
 *   the reply is exactly the core's                        | of their view's leader only
 *   a member's call orders a vote exactly where its rule   | sign an ordered text with the key of the member in the reply, and
 *   allows, for the vote's own bytes, once it is recorded  | nothing else
 *   a vote is withheld for the first part of its rule that |
 *   is false, and for none where it is ordered             |
 *   a resume continues from exactly the entries in the     | store the new entries of the record before it sends a vote, and
 *   bytes; damaged or missing ones are refused             | read back the bytes and numbers that it stored last
 *   an engine receives exactly the input of its numbers,   | verify a vote before it passes one, pass the engine's own votes
 *   and an output is exactly the engine's; a vote comes    | back, and carry out every output, in order
 *   after an output that stores its entry; a certificate   |
 *   made of votes is of n - f members on just its subject  |
 *   numbers that are none of a call change nothing         | pass moments that do not go back within a lifetime
 *   (no proof covers how C calls what is declared here)    | use a handle until it frees it, one call at a time
 *
 * THREADS. There are no locks and no threads inside. A handle may move between threads; make one call of it at a time. Calls of two
 * handles, and functions without a handle, may run at once.
 *
 * MEMORY. The library reads or copies all arguments before a call returns, and copies all results out: no pointer into its memory leaves
 * it but the handle. It stores a reply until the next simplex_member_call, and an output until the next simplex_engine_poll, so that the
 * host can read their bytes and items whenever it has memory for them; none is lost where memory runs out.
 *
 * POINTERS. None may be null, but for two: a slice of length 0, whose pointer is not read, and a handle. Given a null handle each function
 * returns the status SIMPLEX_NO_HANDLE and does nothing. A freed handle is undefined, as freed memory is. A handle is an address, so that
 * a call needs no lock and no table of handles. Set a handle to null where you free it; the Rust package takes it from you.
 */
#ifndef SIMPLEX_H
#define SIMPLEX_H

#include <stddef.h>
#include <stdint.h>

#ifdef __cplusplus
#define SIMPLEX_SIZE(type, size) static_assert(sizeof(type) == size, #type)
extern "C" {
#else
#define SIMPLEX_SIZE(type, size) _Static_assert(sizeof(type) == size, #type)
#endif

/** What simplex_version returns for this header: test it once, before anything else. */
#define SIMPLEX_VERSION 5u

/** No member. */
#define SIMPLEX_NOBODY UINT32_MAX

/** The handle of an engine: a member with its resolver, a batcher of votes, the outstanding fetches and the queued outputs.
 * simplex_engine_start and simplex_engine_resume make one, simplex_engine_free frees it. */
typedef struct simplex_engine simplex_engine;

/** The handle of a member. simplex_member_start and simplex_member_resume make one, simplex_member_free frees it. */
typedef struct simplex_member simplex_member;

/** The handle of a peer resolver, which decides which certificates are retained, served and fetched. simplex_resolver_start makes one,
 * simplex_resolver_free frees it. */
typedef struct simplex_resolver simplex_resolver;

/** What a call, a start, a resume or a restart ends in. Numbers are only ever added. */
enum simplex_status {
    SIMPLEX_OK = 0,
    /** Out of memory. After a call nothing has changed, or the member has failed and returns SIMPLEX_FAILED until a restart. */
    SIMPLEX_OUT_OF_MEMORY = 1,
    /** The member has failed: its record is left, to be restarted or resumed. */
    SIMPLEX_FAILED = 2,
    /** A view is above 2^63 - 1, or a deadline above 2^64 - 1 milliseconds: nothing has changed. */
    SIMPLEX_VIEW_TOO_LARGE = 3,
    SIMPLEX_TIME_OVERFLOW = 4,
    /** The host broke a condition of the call: nothing has changed. */
    SIMPLEX_NOT_ALLOWED = 5,
    /** A number of the call is none of a kind, a reason or a flag: no call was made. */
    SIMPLEX_NO_CALL = 6,
    /** There was no memory for the certificate that is passed: no call was made. */
    SIMPLEX_NOT_MADE = 7,
    /** Settings: no member, or a signer that is none; no view in a term, or no table of leaders; a flag that is neither 0 nor 1. */
    SIMPLEX_NO_SUCH_MEMBER = 8,
    SIMPLEX_NOTHING_LEADS = 9,
    SIMPLEX_NO_FLAG = 10,
    /** A journal: fewer entries than were stored or closed; bytes that are no frame; a frame that holds no entry. */
    SIMPLEX_ENTRIES_LOST = 11,
    SIMPLEX_DAMAGED = 12,
    SIMPLEX_NO_ENTRY = 13,
    /** An entry is too long for a frame. */
    SIMPLEX_ENTRY_TOO_LONG = 14,
    /** The handle is null: nothing was done, and nothing else in the result has a meaning. */
    SIMPLEX_NO_HANDLE = 15,
    /** The first rule of an engine's settings that is broken. */
    SIMPLEX_NO_PARTICIPANTS = 20,
    SIMPLEX_LEADER_TIMEOUT_ZERO = 21,
    SIMPLEX_CERTIFICATION_NOT_ABOVE_LEADER = 22,
    SIMPLEX_SKIP_NOT_ABOVE_CERTIFICATION = 23,
    SIMPLEX_SKIP_NOT_ABOVE_RETRY = 24,
    SIMPLEX_RETRY_ZERO = 25,
    SIMPLEX_RETENTION_ZERO = 26,
    SIMPLEX_FLOOR_EPOCH = 27,
    SIMPLEX_FLOOR_AT_GENESIS = 28,
    SIMPLEX_FLOOR_UNVERIFIED = 29,
    SIMPLEX_OTHER_MEMBERS = 30,
    /** The table of leaders: an entry is no member's index; or it has another number of entries than there are members, and draws is 0. */
    SIMPLEX_NO_SUCH_LEADER = 31,
    SIMPLEX_OTHER_TABLE = 32,
    /** The options' retry is 0: a fetch would be asked again at once. */
    SIMPLEX_FETCH_RETRY_ZERO = 33,
    /** Why a record or a floor is refused. */
    SIMPLEX_OUT_OF_ORDER = 40,
    SIMPLEX_OTHER_EPOCH = 41,
    SIMPLEX_ZERO_VIEW = 42,
    SIMPLEX_RECORD_VIEW_TOO_LARGE = 43,
    SIMPLEX_FOREIGN_SIGNER = 44,
    SIMPLEX_PARENT_NOT_BELOW = 45,
    SIMPLEX_VERDICT_WITHOUT_NOTARIZATION = 46,
    SIMPLEX_CONTRADICTING_VERDICTS = 47,
    SIMPLEX_NULLIFY_BESIDE_FINALIZE = 48,
    SIMPLEX_CONTRADICTING_VOTES = 49,
    SIMPLEX_FINALIZE_WITHOUT_VERDICT = 50,
    SIMPLEX_RECORD_TIME_OVERFLOW = 51,
    SIMPLEX_RETENTION_GROWN = 52
};

/** Which call is made. After each, the fields of simplex_call that it reads; C is the certificate's bytes. */
enum simplex_call_kind {
    SIMPLEX_ADD_NOTARIZATION = 0,             /**< proposal, C */
    SIMPLEX_ADD_NULLIFICATION = 1,            /**< round, moment, C */
    SIMPLEX_ADD_FINALIZATION = 2,             /**< proposal, moment, C */
    SIMPLEX_SET_PROPOSAL = 3,                 /**< view, proposal: that of the view's leader */
    SIMPLEX_TRY_PROPOSE = 4,                  /**< returns the next block to build */
    SIMPLEX_PROPOSED = 5,                     /**< view, proposal.payload, moment: what was built on request */
    SIMPLEX_SUPERSEDE_PROPOSAL_REQUEST = 6,   /**< view */
    SIMPLEX_PENDING_HANDOFF_ABANDONMENT = 7,  /**< view */
    SIMPLEX_RELEASE_PROPOSAL_REQUEST = 8,     /**< view */
    SIMPLEX_TRY_VERIFY = 9,                   /**< returns the next proposal to verify */
    SIMPLEX_VERIFIED = 10,                    /**< view: its proposal was found valid */
    SIMPLEX_VERIFICATION_FAILED = 11,         /**< view, reason, moment */
    SIMPLEX_CERTIFY_CANDIDATES = 12,          /**< returns the proposals to certify */
    SIMPLEX_SET_CERTIFY_HANDLE = 13,          /**< view, token: its certification is under way, under the token */
    SIMPLEX_CERTIFIED = 14,                   /**< view, success, moment: the verdict */
    SIMPLEX_CONSTRUCT_NOTARIZE = 15,          /**< view */
    SIMPLEX_CONSTRUCT_NULLIFY = 16,           /**< view, reason */
    SIMPLEX_CONSTRUCT_FINALIZE = 17,          /**< view */
    SIMPLEX_BROADCAST_NOTARIZATION = 18,      /**< view */
    SIMPLEX_BROADCAST_NULLIFICATION = 19,     /**< view */
    SIMPLEX_BROADCAST_FINALIZATION = 20,      /**< view */
    SIMPLEX_GET_BEST_CERTIFICATE = 21,
    SIMPLEX_TRIGGER_TIMEOUT = 22,             /**< view, reason, moment */
    SIMPLEX_NEXT_TIMEOUT = 23,                /**< moment */
    SIMPLEX_PRUNE = 24
};

/** The replies. After each, the fields of simplex_reply that it has; its bytes and items stay until the next call. */
enum simplex_reply_kind {
    SIMPLEX_REPLY_UNIT = 0,
    SIMPLEX_REPLY_FLAG = 1,                   /**< flag: it is taken */
    SIMPLEX_REPLY_ADDED = 2,                  /**< flag: it is new; member: a leader that equivocated, or SIMPLEX_NOBODY */
    SIMPLEX_REPLY_ADDED_NULLIFICATION = 3,    /**< flag: it is new */
    SIMPLEX_REPLY_REQUEST = 4,                /**< has 1: build; 2: build as a handoff; context, member: the leader */
    SIMPLEX_REPLY_WORK = 5,                   /**< has 1: verify proposal in context, member: the leader; 2: ask member for the
                                                 certificate of view lacking, for the proposal of view waiting; reason: its
                                                 simplex_certificate_kind, a notarization or a nullification */
    SIMPLEX_REPLY_CANDIDATES = 6,             /**< count: items of SIMPLEX_PROPOSALS; fetches: items of SIMPLEX_FETCHES */
    SIMPLEX_REPLY_CERTIFIED = 7,              /**< flag: the verdict; has 1: the notarization of proposal, bytes */
    SIMPLEX_REPLY_NOTARIZE = 8,               /**< has 1: a vote for proposal; member signs the bytes */
    SIMPLEX_REPLY_NULLIFY = 9,                /**< has 1: a vote against proposal.round; flag: a repeat; member signs the bytes */
    SIMPLEX_REPLY_FINALIZE = 10,              /**< has 1: a vote for proposal; member signs the bytes */
    SIMPLEX_REPLY_CERTIFICATE = 11,           /**< has: a simplex_certificate_kind; proposal, of a nullification its round; bytes */
    SIMPLEX_REPLY_TIMEOUT = 12,               /**< moment, reason */
    SIMPLEX_REPLY_VIEWS = 13,                 /**< count: items of SIMPLEX_DROPPED */
    SIMPLEX_REPLY_RELEASED = 14,              /**< flag: a request was open */
    SIMPLEX_REPLY_TRIGGERED = 15,             /**< flag: the timeout counts from now on */
    SIMPLEX_REPLY_ABANDONED = 16              /**< has 1: the handoff must be abandoned; reason: a simplex_abandoned_reason */
};

/** Why a view times out. */
enum simplex_timeout_reason {
    SIMPLEX_RETRY = 0,
    SIMPLEX_INACTIVITY = 1,
    SIMPLEX_LEADER_NULLIFY = 2,
    SIMPLEX_LEADER_TIMEOUT = 3,
    SIMPLEX_CERTIFICATION_TIMEOUT = 4,
    SIMPLEX_STALL_TIMEOUT = 5,
    SIMPLEX_MISSING_PROPOSAL = 6,
    SIMPLEX_IGNORED_PROPOSAL = 7,
    SIMPLEX_INVALID_PROPOSAL = 8,
    SIMPLEX_FAILED_CERTIFICATION = 9
};

/** Why a handoff must be abandoned. */
enum simplex_abandoned_reason {
    SIMPLEX_VIEW_EXIT = 0,
    SIMPLEX_ANCESTRY_SUPERSEDED = 1,
    SIMPLEX_ANCESTRY_INVALIDATED = 2,
    SIMPLEX_PARENT_NULLIFY = 3,
    SIMPLEX_VIEW_NULLIFY = 4,
    SIMPLEX_RESPONSE_CLOSED = 5,
    SIMPLEX_INELIGIBLE_AT_RECORDING = 6
};

/** Which certificate it is, and which vote. Votes of a kind make the certificate of the same number, and 0 is none of either. */
enum simplex_certificate_kind { SIMPLEX_NOTARIZATION = 1, SIMPLEX_NULLIFICATION = 2, SIMPLEX_FINALIZATION = 3 };
enum simplex_vote_kind { SIMPLEX_NOTARIZE = 1, SIMPLEX_NULLIFY = 2, SIMPLEX_FINALIZE = 3 };

/** Why a member withholds a vote: the first part of the vote's rule that is false. Numbers are only ever added. After each, the votes
 * (N to notarize, U to nullify, F to finalize) that it withholds. */
enum simplex_withheld_reason {
    SIMPLEX_NOT_WITHHELD = 0,                   /**< the vote is returned where it is asked for */
    SIMPLEX_WITHHELD_NO_KEY = 1,                /**< N, U, F: the member has no key */
    SIMPLEX_WITHHELD_NOT_ADMITTED = 2,          /**< N, F: the view is genesis, or too far ahead of the current one */
    SIMPLEX_WITHHELD_ALREADY_VOTED = 3,         /**< N, F: this vote was cast before */
    SIMPLEX_WITHHELD_VOTED_TO_NULLIFY = 4,      /**< N, F: the member voted to nullify the view */
    SIMPLEX_WITHHELD_VOTED_TO_FINALIZE = 5,     /**< U: the member voted to finalize the view */
    SIMPLEX_WITHHELD_NO_PROPOSAL = 6,           /**< N, F: no proposal of the view was received */
    SIMPLEX_WITHHELD_EQUIVOCATED = 7,           /**< N, F: the view's leader signed two proposals */
    SIMPLEX_WITHHELD_NOT_VERIFIED = 8,          /**< N: the application has not found the proposal valid */
    SIMPLEX_WITHHELD_ANCESTRY_NOT_READY = 9,    /**< N: the view before offers no payload to build on before it is certified */
    SIMPLEX_WITHHELD_BINDING_CHANGED = 10,      /**< N: the proposal was verified on a parent, with its payload, that the view may no longer build on */
    SIMPLEX_WITHHELD_NOT_CURRENT = 11,          /**< U: the view is not the current one */
    SIMPLEX_WITHHELD_ALREADY_FINALIZED = 12,    /**< F: the view, or one above it, is finalized */
    SIMPLEX_WITHHELD_CONFLICTING_NULLIFY = 13,  /**< F: the member voted to nullify a view below in the term, and nothing from there on is finalized */
    SIMPLEX_WITHHELD_PARENT_NOT_CERTIFIED = 14, /**< F: the proposal's parent is not certified */
    SIMPLEX_WITHHELD_NOT_NOTARIZED = 15,        /**< F: the view has no notarization */
    SIMPLEX_WITHHELD_CERTIFICATION_FAILED = 16, /**< F: the application refused to certify the proposal */
    SIMPLEX_WITHHELD_NOT_CERTIFIED = 17         /**< F: the application has not certified the proposal */
};

/** Which items of the last reply are read. */
enum simplex_items { SIMPLEX_PROPOSALS = 1, SIMPLEX_FETCHES = 2, SIMPLEX_DROPPED = 3 };

/** Which bytes are read: those of the last reply, or those that simplex_member_entries or simplex_member_certificate showed last. */
enum simplex_bytes { SIMPLEX_OF_REPLY = 0, SIMPLEX_SHOWN = 1 };

/** How a journal ends after its whole entries. */
enum simplex_ending {
    SIMPLEX_WHOLE = 0,
    SIMPLEX_CUT = 1,   /**< the bytes after the whole entries end within one, as an append ends that was cut off. An entry that has all its
                          bytes is never reported so, whatever was changed in it, unless its length and its complement changed alike */
    SIMPLEX_BROKEN = 2 /**< bytes were changed */
};

struct simplex_round {
    uint64_t epoch, view;
};
SIMPLEX_SIZE(struct simplex_round, 16);

/** A proposal, with a round of its own. parent is a view. */
struct simplex_proposal {
    struct simplex_round round;
    uint64_t parent;
    uint8_t payload[32];
};
SIMPLEX_SIZE(struct simplex_proposal, 56);

/** A call. The fields that its kind does not read may be anything, but reason and success: leave these 0. */
struct simplex_call {
    uint32_t kind;     /**< a simplex_call_kind */
    uint32_t reason;   /**< a simplex_timeout_reason */
    uint32_t success;  /**< 1: the view's proposal is certified */
    uint32_t reserved;
    uint64_t view;
    uint64_t moment;   /**< milliseconds */
    uint64_t token;
    struct simplex_round round;
    struct simplex_proposal proposal;
};
SIMPLEX_SIZE(struct simplex_call, 112);

/** What a proposal is built on or verified against: its round, the parent's view and the parent's payload. */
struct simplex_context {
    struct simplex_round round;
    uint64_t parent;
    uint8_t payload[32];
};
SIMPLEX_SIZE(struct simplex_context, 56);

/** A reply. Where status is not SIMPLEX_OK no other field has a meaning. */
struct simplex_reply {
    uint32_t status; /**< SIMPLEX_OK to SIMPLEX_NOT_MADE, or SIMPLEX_NO_HANDLE, as each status below */
    uint32_t kind;   /**< a simplex_reply_kind */
    uint32_t has;
    uint32_t flag;
    uint32_t member;
    uint32_t reason; /**< a simplex_timeout_reason or a simplex_abandoned_reason */
    uint64_t moment; /**< milliseconds */
    uint64_t waiting, lacking, count, fetches;
    struct simplex_proposal proposal;
    struct simplex_context context;
};
SIMPLEX_SIZE(struct simplex_reply, 176);

/** A certificate that is to be fetched: the view of the proposal that waits for it, and its own. */
struct simplex_fetch {
    uint64_t proposal, view;
};
SIMPLEX_SIZE(struct simplex_fetch, 16);

/** The settings of a member. Times are milliseconds. */
struct simplex_settings {
    uint32_t members;           /**< how many there are */
    uint32_t signer;            /**< the member that signs here, or SIMPLEX_NOBODY */
    uint32_t term_length;       /**< how many views one leader leads */
    uint32_t draws;             /**< 1: certificates name leaders, by their first four bytes, big-endian: a number of no member stands for its
                                   rest by members; 0: the table alone does, and has members entries. Each entry is a member's index */
    uint32_t stalls;            /**< 1: terms stall after stall_timeout */
    uint32_t is_finalized;      /**< 1: the floor is a finalized proposal; 0: it is genesis */
    uint64_t stall_timeout;
    uint64_t optimistic_views;
    uint64_t epoch;
    uint64_t view_retention;    /**< how many views below the last finalized one are retained */
    uint64_t leader_timeout;
    uint64_t certification_timeout;
    uint64_t timeout_retry;
    uint64_t skip_timeout;      /**< after how long a leader counts as inactive; 0: no view is skipped for it */
    uint64_t skip_budget;       /**< how many unfinalized terms may be skipped; 0: as many as there are members */
    struct simplex_proposal floor; /**< what is finalized; of genesis the payload alone */
    /** The bytes that each text to sign begins with, the same for all members: a digest of the network's name, its epoch and its members'
     * keys, say. In two networks with one namespace the signatures of one count in the other. */
    uint8_t namespace_bytes[32];
};
SIMPLEX_SIZE(struct simplex_settings, 184);

/** What is stored beside a journal. */
struct simplex_stored {
    uint64_t entries;         /**< how many the record had: a journal of fewer is refused */
    uint64_t closed;          /**< no drop takes one of this number of first entries */
    uint64_t retention;       /**< the view_retention of the last lifetime */
    uint64_t least_retention; /**< the least of all lifetimes */
    uint32_t is_pruned;       /**< 1: the record was ever pruned */
    uint32_t reserved;
};
SIMPLEX_SIZE(struct simplex_stored, 40);

struct simplex_restart {
    uint64_t drop;   /**< at most this number of the last entries is dropped, but never a vote or an entry before one */
    uint64_t moment; /**< milliseconds */
    uint32_t prune;  /**< 1: the record is pruned then: entries far below the last finalized view are taken away */
    uint32_t reserved;
    struct simplex_settings settings;
};
SIMPLEX_SIZE(struct simplex_restart, 208);

struct simplex_entries {
    uint32_t status; /**< SIMPLEX_OK, SIMPLEX_OUT_OF_MEMORY or SIMPLEX_ENTRY_TOO_LONG */
    uint32_t reserved;
    uint64_t bytes;  /**< how many are shown */
    struct simplex_stored stored;
};
SIMPLEX_SIZE(struct simplex_entries, 56);

struct simplex_view {
    uint32_t status;             /**< SIMPLEX_OK or SIMPLEX_FAILED */
    uint32_t leader;             /**< of the view, where it is tracked and its leader known; else SIMPLEX_NOBODY */
    uint32_t is_tracked;
    uint32_t admits_vote;        /**< 1: a vote of the view may be taken into account */
    uint32_t admits_certificate; /**< 1: a certificate of the view may be passed */
    uint32_t voted_nullify;      /**< 1: this member voted to nullify the view */
    uint32_t has_notarization;
    uint32_t has_nullification;
    uint32_t has_finalization;
    uint32_t has_forwardable;    /**< 1: forwardable is a proposal of the view that may be forwarded to peers */
    uint64_t epoch;
    uint64_t current;            /**< the current view */
    uint64_t last_finalized;
    uint64_t min_active;         /**< the lowest view that is retained */
    struct simplex_proposal forwardable;
};
SIMPLEX_SIZE(struct simplex_view, 128);

struct simplex_withheld {
    uint32_t status; /**< SIMPLEX_OK, SIMPLEX_FAILED, or SIMPLEX_NO_CALL where no vote has the kind */
    uint32_t reason; /**< a simplex_withheld_reason */
};
SIMPLEX_SIZE(struct simplex_withheld, 8);

struct simplex_found {
    uint32_t status; /**< SIMPLEX_OK, SIMPLEX_OUT_OF_MEMORY, SIMPLEX_FAILED, or SIMPLEX_NO_CALL where no certificate has the kind */
    uint32_t has;    /**< a simplex_certificate_kind; 0: the view has none of the kind */
    uint64_t bytes;  /**< how many are shown */
    struct simplex_proposal proposal; /**< what it is of; of a nullification the round alone */
};
SIMPLEX_SIZE(struct simplex_found, 72);

struct simplex_item {
    uint32_t status; /**< SIMPLEX_OK */
    uint32_t has;    /**< 1: there is such an item */
    uint64_t view;                    /**< of SIMPLEX_DROPPED */
    struct simplex_fetch fetch;       /**< of SIMPLEX_FETCHES */
    struct simplex_proposal proposal; /**< of SIMPLEX_PROPOSALS */
};
SIMPLEX_SIZE(struct simplex_item, 88);

/** A part of bytes: the first count count. */
struct simplex_chunk {
    uint32_t status; /**< SIMPLEX_OK */
    uint32_t reserved;
    uint64_t count;
    uint8_t bytes[1024];
};
SIMPLEX_SIZE(struct simplex_chunk, 1040);

/** A text to sign, which begins with a namespace: the first count bytes count. */
struct simplex_text {
    uint32_t status; /**< SIMPLEX_OK, SIMPLEX_OUT_OF_MEMORY, or SIMPLEX_NO_CALL where no vote has the kind */
    uint32_t count;
    uint8_t bytes[96];
};
SIMPLEX_SIZE(struct simplex_text, 104);

struct simplex_scan {
    uint64_t entries; /**< how many whole frames the bytes begin with */
    uint64_t bytes;   /**< how many bytes these are */
    uint32_t ending;  /**< a simplex_ending */
    uint32_t reserved;
};
SIMPLEX_SIZE(struct simplex_scan, 24);

/** What a resolver receives. */
enum simplex_told_kind {
    SIMPLEX_TOLD_NOTARIZATION = SIMPLEX_NOTARIZATION, /**< a certificate that the member newly added */
    SIMPLEX_TOLD_NULLIFICATION = SIMPLEX_NULLIFICATION,
    SIMPLEX_TOLD_FINALIZATION = SIMPLEX_FINALIZATION,
    SIMPLEX_TOLD_VERDICT = 4       /**< on the notarization of proposal, as simplex_member_call returns for SIMPLEX_CERTIFIED */
};

struct simplex_told {
    uint32_t kind;    /**< a simplex_told_kind */
    uint32_t success; /**< of a verdict 1: it is certified; else 0 */
    struct simplex_proposal proposal; /**< what it is of; of a nullification the round alone */
};
SIMPLEX_SIZE(struct simplex_told, 64);

struct simplex_effects {
    uint32_t status; /**< SIMPLEX_OK, SIMPLEX_OUT_OF_MEMORY: it has failed, start another; SIMPLEX_FAILED, SIMPLEX_VIEW_TOO_LARGE;
                        SIMPLEX_NOT_ALLOWED for view 0, SIMPLEX_NO_CALL, SIMPLEX_NOT_MADE: it received nothing */
    uint32_t reserved;
    uint64_t count;  /**< how many effects there are */
    uint64_t fetches; /**< how many fetches are open then */
};
SIMPLEX_SIZE(struct simplex_effects, 24);

/** The changes to the outstanding fetches. */
enum simplex_effect_kind {
    SIMPLEX_FETCH = 1,     /**< fetch a nullification that covers view; cause: the view that called for it; reason: a simplex_fetch_reason */
    SIMPLEX_SETTLED = 2,   /**< nothing is left to ask for at the views view to end; reason: a simplex_certificate_kind,
                              a notarization or a nullification */
    SIMPLEX_FINALIZED = 3, /**< each ask at or below view is settled */
    SIMPLEX_RAISED = 4     /**< each fetch at or below view ends */
};
enum simplex_fetch_reason { SIMPLEX_MISSING_NULLIFICATION = 0, SIMPLEX_CERTIFICATION_FAILED = 1 };

struct simplex_effect {
    uint32_t status; /**< SIMPLEX_OK */
    uint32_t kind;   /**< a simplex_effect_kind; 0: there is no such effect */
    uint32_t reason;
    uint32_t reserved;
    uint64_t view, cause, end;
};
SIMPLEX_SIZE(struct simplex_effect, 40);

struct simplex_settled {
    uint32_t status;        /**< SIMPLEX_OK */
    uint32_t is_failed;
    uint32_t is_open;       /**< 1: the view's fetch is open */
    uint32_t nullification; /**< 1: no nullification of the view is left to ask for */
    uint32_t notarization;  /**< 1: no notarization of the view is left to ask for */
    uint32_t uncertifiable; /**< 1: the view's certification failed */
    uint64_t fetches;       /**< how many fetches are open */
};
SIMPLEX_SIZE(struct simplex_settled, 32);

struct simplex_outstanding {
    uint32_t status; /**< SIMPLEX_OK or SIMPLEX_OUT_OF_MEMORY */
    uint32_t reserved;
    uint64_t count;  /**< how many fetches are open */
    uint64_t bytes;  /**< how many bytes are shown: eight each */
};
SIMPLEX_SIZE(struct simplex_outstanding, 24);

struct simplex_served {
    uint32_t status; /**< SIMPLEX_OK, SIMPLEX_OUT_OF_MEMORY or SIMPLEX_FAILED */
    uint32_t has;    /**< 1: there is something to serve */
    uint64_t bytes;  /**< how many */
    uint64_t view;
};
SIMPLEX_SIZE(struct simplex_served, 24);

/** The inputs of an engine. After each, the fields of simplex_input that it reads; B is the bytes beside it. */
enum simplex_input_kind {
    SIMPLEX_TELL_PROPOSAL = 1,    /**< subject: proposal, member who sent it */
    SIMPLEX_TELL_VOTE = 2,        /**< subject: kind, proposal, member who signed; B its signature. One of another epoch is ignored.
                                     Pass the engine's own votes too, once they were sent */
    SIMPLEX_TELL_CERTIFICATE = 3, /**< subject: kind, proposal; B */
    SIMPLEX_TELL_VERIFIED = 4,    /**< view, success: the proposal of a SIMPLEX_VERIFY is valid */
    SIMPLEX_TELL_BUILT = 5,       /**< context and subject.member of a SIMPLEX_BUILD; subject.proposal.payload: the block's digest */
    SIMPLEX_TELL_CERTIFIED = 6,   /**< view, success: the proposal of a SIMPLEX_CERTIFY may be built on. A verdict on a view that
                                     no SIMPLEX_CERTIFY named, or that has its verdict, is ignored */
    SIMPLEX_TELL_GIVEN_UP = 7     /**< view, reason: its leader nullified it, or is silent */
};

/** The outputs of an engine: carry them out in order. After each, the fields of simplex_output that it has; B is the first bytes. */
enum simplex_output_kind {
    SIMPLEX_NOTHING = 0,        /**< until another input, or the moment wake of simplex_engine_status */
    SIMPLEX_STORE = 1,          /**< append B to the journal, with stored beside it, and sync both before the next output */
    SIMPLEX_REPLACE = 2,        /**< the same in place of all that is stored, in one step. The first output of each lifetime */
    SIMPLEX_VOTE = 3,           /**< subject: sign B with the key of its member, send the vote to all, and pass it to this engine too */
    SIMPLEX_BROADCAST = 4,      /**< subject: send the certificate B to all others */
    SIMPLEX_VERIFY = 5,         /**< context, subject.proposal; subject.member leads */
    SIMPLEX_BUILD = 6,          /**< context; subject.member leads */
    SIMPLEX_STOP_BUILDING = 7,  /**< view: stop building there, the block is not needed any more */
    SIMPLEX_CERTIFY = 8,        /**< subject.proposal: give a verdict on it */
    SIMPLEX_ASK = 9,            /**< fetch, view: ask member for it, or nobody where it is SIMPLEX_NOBODY */
    SIMPLEX_FINAL = 10,         /**< subject.proposal is final: this lifetime accepted its finalization, of a view above all that it
                                   reported. Its ancestors are final too and are not reported, and a process that ends may lose its
                                   last report. So deliver a block after its ancestors, back to the last delivered one; after
                                   simplex_engine_resume begin with the last finalization of the record: read view 0 with
                                   simplex_engine_view, and of its last_finalized the finalization with simplex_engine_certificate */
    SIMPLEX_EQUIVOCATED = 11,   /**< subject and B, other and the other bytes: two votes of one member that contradict each other.
                                   One pair is returned of a member, kind and view, until the view is forgotten */
    SIMPLEX_PROPOSED_TWICE = 12, /**< view, member: its leader signed two proposals, which certificates show */
    SIMPLEX_FORGET = 13         /**< view: drop what you store of the views below it */
};

/** What is fetched: the view's notarization, a nullification that covers it, or whatever certificate decides it. */
enum simplex_fetch_kind {
    SIMPLEX_FETCH_NOTARIZATION = SIMPLEX_NOTARIZATION,
    SIMPLEX_FETCH_NULLIFICATION = SIMPLEX_NULLIFICATION,
    SIMPLEX_FETCH_DECISION = 4
};

/** Which bytes of an engine to read: the first or the second of the last output, or those that were shown last. */
enum simplex_engine_bytes { SIMPLEX_OF_OUTPUT = 0, SIMPLEX_OTHER_OF_OUTPUT = 1, SIMPLEX_SHOWN_OF_ENGINE = 2 };

/** What a vote or a certificate is on. */
struct simplex_subject {
    uint32_t kind;   /**< of a vote its simplex_vote_kind, of a certificate its simplex_certificate_kind */
    uint32_t member; /**< who signed, sent or leads; SIMPLEX_NOBODY where there is none */
    struct simplex_proposal proposal; /**< of a nullification the round alone */
};
SIMPLEX_SIZE(struct simplex_subject, 64);

/** An engine's options beside its member's settings. Times are milliseconds. Usual ones are 250, 25 and 2048. */
struct simplex_options {
    uint64_t retry;       /**< after how long a fetch asks again, the next member: 1 at least */
    uint64_t on_its_way;  /**< how long a missing certificate may be on its way before the engine asks for it */
    uint64_t long_record; /**< a record with more entries than this is compacted, once that drops more views than it leaves */
};
SIMPLEX_SIZE(struct simplex_options, 24);

/** An input. The fields that its kind does not read may be anything, but reason and success: leave these 0. */
struct simplex_input {
    uint32_t kind;    /**< a simplex_input_kind */
    uint32_t reason;  /**< a simplex_timeout_reason */
    uint32_t success; /**< 1 or 0 */
    uint32_t reserved;
    uint64_t view;
    struct simplex_subject subject;
    struct simplex_context context;
};
SIMPLEX_SIZE(struct simplex_input, 144);

struct simplex_taken {
    uint32_t status; /**< SIMPLEX_OK; SIMPLEX_NO_CALL where a number is none of an input, or a vote is passed where certificates name leaders,
                        and SIMPLEX_NOT_MADE where there is no memory for the bytes: the engine received nothing. SIMPLEX_OUT_OF_MEMORY to
                        SIMPLEX_TIME_OVERFLOW: the engine has failed */
    uint32_t is_of_use; /**< 0: it was ignored, and changed nothing */
};
SIMPLEX_SIZE(struct simplex_taken, 8);

struct simplex_output {
    uint32_t status;      /**< SIMPLEX_OK; SIMPLEX_OUT_OF_MEMORY to SIMPLEX_TIME_OVERFLOW, or SIMPLEX_ENTRY_TOO_LONG: the engine has failed */
    uint32_t kind;        /**< a simplex_output_kind */
    uint32_t fetch;       /**< a simplex_fetch_kind */
    uint32_t member;
    uint64_t view;
    uint64_t bytes;       /**< how many the first bytes are: read them with simplex_engine_bytes */
    uint64_t other_bytes; /**< how many the second are */
    struct simplex_stored stored; /**< what is stored beside the journal */
    struct simplex_subject subject;
    struct simplex_subject other;
    struct simplex_context context;
};
SIMPLEX_SIZE(struct simplex_output, 264);

struct simplex_engine_status {
    uint32_t status;  /**< SIMPLEX_OK or SIMPLEX_FAILED */
    uint32_t reserved;
    uint64_t wake;    /**< poll at this moment where nothing comes before, in milliseconds */
    uint64_t ignored; /**< how many inputs were ignored */
    uint64_t fetches; /**< how many fetches are open */
};
SIMPLEX_SIZE(struct simplex_engine_status, 32);

/** An outstanding fetch: the engine asks again, the next member round-robin, until it ends. */
struct simplex_open {
    uint32_t status;  /**< SIMPLEX_OK */
    uint32_t fetch;   /**< a simplex_fetch_kind; 0: there is no such fetch */
    uint64_t view;
    uint64_t count;   /**< how often it was asked for */
    uint64_t moment;  /**< when it is to be asked for next, in milliseconds */
};
SIMPLEX_SIZE(struct simplex_open, 32);

/** SIMPLEX_VERSION of the library. It rises when a struct, a number or a function changes its meaning. */
uint32_t simplex_version(void);

/** What this archive is, as text that ends with a zero byte: whether its code is proved, of which commit, and by which kit.
 *
 *     proved; commit 62e73a10e2c0f3b4a5968778695a4b3c2d1e0f00; kit rattle-kit-13b logic dac8208d650f15bf
 *
 * The first word is "proved" or "unproved": no other archive than a proved one is for production. The commit has 40 hexadecimal digits,
 * and " with changes" after them where sources were changed since; it is "unknown" where the archive was built outside a repository.
 * bindings/build adds this function to the archive, so it is not among those that are proved. */
const char *simplex_build_info(void);

/**
 * Begins an engine whose member never voted, by settings, a table of leaders (each term's leader, round-robin), the bytes of the floor's
 * certificate (none for genesis) and options, at a moment. A member that voted must resume by simplex_engine_resume, or it could vote
 * twice in a view.
 *
 * Returns SIMPLEX_OK and writes the handle to *out; else the status says why there is none, and *out is as it was.
 */
uint32_t simplex_engine_start(const struct simplex_settings *settings, const uint32_t *leaders, size_t leaders_len,
                              const uint8_t *certificate, size_t certificate_len, const struct simplex_options *options, uint64_t now,
                              simplex_engine **out);

/** Resumes an engine from its journal, as simplex_member_resume does, and is refused by the same statuses. Each takes the journal of the
 * other. */
uint32_t simplex_engine_resume(const struct simplex_settings *settings, const uint32_t *leaders, size_t leaders_len,
                               const uint8_t *certificate, size_t certificate_len, const struct simplex_options *options, uint64_t now,
                               const struct simplex_stored *stored, const uint8_t *journal, size_t journal_len, simplex_engine **out);

/**
 * Passes an input, at a moment in milliseconds that does not go back. The bytes are a vote's signature, or a certificate: of one that the
 * engine made of votes, each signer by rising index, its index in four bytes, its signature's length in eight, big-endian, and the signature.
 *
 * An engine that has failed returns SIMPLEX_FAILED from then on: free it, and resume another from what was stored.
 */
struct simplex_taken simplex_engine_handle(simplex_engine *at, const struct simplex_input *input, const uint8_t *bytes, size_t bytes_len,
                                           uint64_t now);

/** Returns the next output to carry out; poll until it is SIMPLEX_NOTHING. Its bytes stay until the next poll. */
struct simplex_output simplex_engine_poll(simplex_engine *at, uint64_t now);

/** A part of bytes, a simplex_engine_bytes, from the byte from on: at most 1024, and none where there are no more. */
struct simplex_chunk simplex_engine_bytes(simplex_engine *at, uint32_t which, uint64_t from);

/** Returns what an engine knows of itself. */
struct simplex_engine_status simplex_engine_status(simplex_engine *at);

/** Returns an outstanding fetch, by its place among them. */
struct simplex_open simplex_engine_open(simplex_engine *at, uint64_t index);

/** What its member knows, and what it knows of a view. */
struct simplex_view simplex_engine_view(simplex_engine *at, uint64_t view);

/** Why its member withholds a vote on a view, of a simplex_vote_kind. It changes nothing. */
struct simplex_withheld simplex_engine_withheld(simplex_engine *at, uint32_t kind, uint64_t view);

/** Shows a view's certificate, as simplex_member_certificate does. */
struct simplex_found simplex_engine_certificate(simplex_engine *at, uint32_t kind, uint64_t view);

/** Shows what to serve to a peer that asks for a view, as simplex_resolver_produce does. */
struct simplex_served simplex_engine_serve(simplex_engine *at, uint64_t view);

/** Frees an engine; does nothing where the handle is null. The handle must not be used again. */
void simplex_engine_free(simplex_engine *at);

/**
 * Begins a member that never voted, by settings, a table of leaders (each term's leader, round-robin) and the bytes of the floor's certificate
 * (none for genesis), at a moment. A member that voted must resume by simplex_member_resume, or it could vote twice in a view.
 *
 * Returns SIMPLEX_OK and writes the handle to *out; else the status says why there is none, and *out is as it was. Store
 * simplex_member_entries(.., 0) and its stored at once: with a finalized floor the record is not empty.
 */
uint32_t simplex_member_start(const struct simplex_settings *settings, const uint32_t *leaders, size_t leaders_len,
                              const uint8_t *certificate, size_t certificate_len, uint64_t now, simplex_member **out);

/**
 * Resumes a member from its journal: the bytes that simplex_member_entries showed, one after another, with what was stored beside them
 * last. The settings are those of the lifetime that begins, with the floor that was passed last.
 *
 * Returns SIMPLEX_OK and writes the handle to *out; else the status says why there is none, and *out is as it was: SIMPLEX_DAMAGED or SIMPLEX_NO_ENTRY if the
 * bytes are no journal (simplex_scan says where), SIMPLEX_ENTRIES_LOST where there are fewer entries than stored.entries or
 * stored.closed, and the errors of settings and records.
 */
uint32_t simplex_member_resume(const struct simplex_settings *settings, const uint32_t *leaders, size_t leaders_len,
                               const uint8_t *certificate, size_t certificate_len, uint64_t now, const struct simplex_stored *stored,
                               const uint8_t *journal, size_t journal_len, simplex_member **out);

/** Makes a call. The reply stays until the next one. Only the first three kinds read certificate. */
struct simplex_reply simplex_member_call(simplex_member *at, const struct simplex_call *call, const uint8_t *certificate,
                                         size_t certificate_len);

/** A part of the bytes of the last reply (SIMPLEX_OF_REPLY) or of those that were shown last (SIMPLEX_SHOWN), from the byte from on: at most
 * 1024, and none where there are no more. */
struct simplex_chunk simplex_member_bytes(simplex_member *at, uint32_t which, uint64_t from);

/** An item of the last reply's lists, a simplex_items; none where the reply has no such list, or no such item. */
struct simplex_item simplex_member_item(simplex_member *at, uint32_t which, uint64_t index);

/** Shows a view's certificate, a simplex_certificate_kind, where the view is tracked. Its bytes are SIMPLEX_SHOWN. */
struct simplex_found simplex_member_certificate(simplex_member *at, uint32_t kind, uint64_t view);

/** Shows the entries of the record after the first count, as bytes to append to the journal, with what to store beside it. Also of a
 * member that has failed. The bytes are SIMPLEX_SHOWN. */
struct simplex_entries simplex_member_entries(simplex_member *at, uint64_t count);

/** Prunes the record within the lifetime, after SIMPLEX_PRUNE: drops what lies far below the last finalized view, as a restart that prunes
 * would, but for views that are still tracked. Shows all that is left, to be stored in place of the journal with its stored, in one step;
 * from then on simplex_member_entries counts from the shorter record. The lifetime continues. Also of a member that has failed. The bytes
 * are SIMPLEX_SHOWN. After SIMPLEX_OUT_OF_MEMORY and SIMPLEX_ENTRY_TOO_LONG the record is pruned and not shown: ask for
 * simplex_member_entries(.., 0). */
struct simplex_entries simplex_member_prune_record(simplex_member *at);

/** What the member knows, and what it knows of a view. */
struct simplex_view simplex_member_view(simplex_member *at, uint64_t view);

/** Why it withholds a vote on a view, of a simplex_vote_kind: the call that constructs the vote returns none exactly where the reason is not
 * SIMPLEX_NOT_WITHHELD. It changes nothing. */
struct simplex_withheld simplex_member_withheld(simplex_member *at, uint32_t kind, uint64_t view);

/** Ends the member's lifetime, also one that has failed, and begins another from its record. Returns SIMPLEX_OK; else why not: where settings or
 * SIMPLEX_RETENTION_GROWN are refused nothing has changed, and after each other error the record is cut as asked and the member has
 * failed. Store simplex_member_entries(.., 0) in place of the journal then, with its stored, in one step. */
uint32_t simplex_member_restart(simplex_member *at, const struct simplex_restart *restart, const uint32_t *leaders, size_t leaders_len,
                                const uint8_t *certificate, size_t certificate_len);

/** Frees a member; does nothing where the handle is null. The handle must not be used again. */
void simplex_member_free(simplex_member *at);

/** Returns the text that a vote of a simplex_vote_kind signs: verify other members' votes on it. It is the namespace of the settings, and after
 * it the subject's bytes: 17 of a nullify, which reads the round alone, and else 57. */
struct simplex_text simplex_subject(const uint8_t namespace_bytes[32], uint32_t kind, const struct simplex_proposal *proposal);

/** Returns how many bytes of a journal are whole frames, and how it ends after them. */
struct simplex_scan simplex_scan(const uint8_t *journal, size_t journal_len);

/** Starts a resolver from a member's journal, the bytes that simplex_member_entries(.., 0) shows, with its first fetches open. term_length is
 * that of the member's settings. Returns SIMPLEX_OK and writes the handle to *out; else why there is none, and *out is as it was. From then
 * on its outstanding fetches are exactly those of what it received. */
uint32_t simplex_resolver_start(uint32_t term_length, const uint8_t *journal, size_t journal_len, simplex_resolver **out);

/** Passes a certificate that the member newly added, or a verdict. The effects stay until the next one. */
struct simplex_effects simplex_resolver_told(simplex_resolver *at, const struct simplex_told *told, const uint8_t *certificate,
                                             size_t certificate_len);

/** Returns an effect of what it received last. */
struct simplex_effect simplex_resolver_effect(simplex_resolver *at, uint64_t index);

/** What it knows of a view. */
struct simplex_settled simplex_resolver_settled(simplex_resolver *at, uint64_t view);

/** Shows what to serve to a peer for a view: the encoding of a certificate, its subject's bytes (those of simplex_subject after the
 * namespace) and after them the certificate's bytes. */
struct simplex_served simplex_resolver_produce(simplex_resolver *at, uint64_t view);

/** Shows the views with an outstanding fetch, rising, in eight bytes each, big-endian. simplex_outstanding_views reads them. */
struct simplex_outstanding simplex_resolver_outstanding(simplex_resolver *at);

/** A part of what was served or shown last, from the byte from on: at most 1024, and none where there are no more. */
struct simplex_chunk simplex_resolver_bytes(simplex_resolver *at, uint64_t from);

/** Writes the views with an outstanding fetch, rising, to views, at most room of them; count in the result is how many there are. */
static inline struct simplex_outstanding simplex_outstanding_views(simplex_resolver *at, uint64_t *views, size_t room) {
    struct simplex_outstanding shown = simplex_resolver_outstanding(at);
    size_t most = shown.status ? 0 : shown.count < room ? (size_t)shown.count : room;
    for (size_t place = 0; place < most;) {
        struct simplex_chunk chunk = simplex_resolver_bytes(at, 8 * (uint64_t)place);
        for (size_t at_byte = 0; at_byte + 8 <= chunk.count && place < most; at_byte += 8, place++) {
            views[place] = 0;
            for (size_t i = 0; i < 8; i++) views[place] = views[place] << 8 | chunk.bytes[at_byte + i];
        }
        if (!chunk.count) break;
    }
    return shown;
}

/** Frees a resolver; does nothing where the handle is null. The handle must not be used again. */
void simplex_resolver_free(simplex_resolver *at);

#ifdef __cplusplus
}
#endif
#endif
