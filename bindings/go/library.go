package fonnalich

// #include "fonnalich.h"
// #include <stdlib.h>
import "C"

import (
	"errors"
	"fmt"
	"sync/atomic"
	"unsafe"
)

// room is how many bytes an answer has room for at first.
const room = 4096

// ErrMemory says that memory was refused, and ErrClosed that the jar or the list is closed.
var (
	ErrMemory = errors.New("fonnalich: memory was refused")
	ErrClosed = errors.New("fonnalich: the jar or the list is closed: begin another by New, Load or NewList")
)

var errProcessor = errors.New("fonnalich: this processor lacks SSE 4.2, which the library needs")

// Refused is the number of a refusal, as the header file has it. The jar is as it was. By errors.Is it is one of the
// names below.
type Refused int

// What a call is refused as.
const (
	ErrList   Refused = C.FONNALICH_LIST
	ErrMoment Refused = C.FONNALICH_MOMENT
	ErrURL    Refused = C.FONNALICH_URL
	ErrSaved  Refused = C.FONNALICH_SAVED
	ErrYear   Refused = C.FONNALICH_YEAR
	ErrText   Refused = C.FONNALICH_TEXT
	ErrRules  Refused = C.FONNALICH_RULES
	ErrLine   Refused = C.FONNALICH_LINE
	ErrNoRule Refused = C.FONNALICH_NO_RULE
)

var refusals = map[Refused]string{
	ErrList:   "the text is no public suffix list: hand in what the file holds, as by os.ReadFile",
	ErrMoment: "the moment is outside the years -9999 to 9999",
	ErrURL:    "the text is no URL",
	ErrSaved:  "the text is no saved jar",
	ErrYear:   "a cookie ends in a year below 0",
	ErrText:   "a text isn't UTF-8",
	ErrRules:  "the number is none of rules",
	ErrLine:   "the header has a control character",
	ErrNoRule: "the suffix list has no rule: hand in what the file holds, as by os.ReadFile",
}

func (refused Refused) Error() string {
	if text, ok := refusals[refused]; ok {
		return "fonnalich: " + text
	}
	return fmt.Sprintf("fonnalich: refused by %d", int(refused))
}

// LineEnd is what became of a line, as the header file numbers it.
type LineEnd byte

// Those up to UpdatedExisting, and Expired, took the line; the others refused it, those from ByControl on by a rule,
// and the last two by its SameSite.
const (
	Inserted          LineEnd = 0
	ExpiredExisting   LineEnd = 1
	UpdatedExisting   LineEnd = 2
	NotText           LineEnd = 3
	HostPrefixed      LineEnd = 4
	NonHTTPScheme     LineEnd = 10
	NonRelativeScheme LineEnd = 11
	DomainMismatch    LineEnd = 12
	Expired           LineEnd = 13
	NoCookie          LineEnd = 14
	PublicSuffix      LineEnd = 15
	ByControl         LineEnd = 20
	ByTooLong         LineEnd = 21
	BySecurePrefix    LineEnd = 22
	ByHostPrefix      LineEnd = 23
	BySecureFromHTTP  LineEnd = 24
	BySecureOverlay   LineEnd = 25
	ByLacksSecure     LineEnd = 26
	ByCrossSite       LineEnd = 27
	ByNoneLacksSecure LineEnd = 28
)

var ends = map[LineEnd]string{
	Inserted: "inserted", ExpiredExisting: "an expiry", UpdatedExisting: "an update", NotText: "no UTF-8",
	HostPrefixed: "against the prefix __Host-", NonHTTPScheme: "HttpOnly, and not from HTTP",
	NonRelativeScheme: "from a URL without a host", DomainMismatch: "of a domain that the host isn't in",
	Expired: "expired", NoCookie: "no cookie", PublicSuffix: "of a domain that is a public suffix",
	ByControl: "with a control character", ByTooLong: "too long", BySecurePrefix: "against the prefix __Secure-",
	ByHostPrefix: "against the prefix __Host-", BySecureFromHTTP: "Secure, and not from a secure URL",
	BySecureOverlay: "not Secure, over a Secure cookie", ByLacksSecure: "for all sites or partitioned, and not Secure",
	ByCrossSite:       "of one site, and a page of another one started the request",
	ByNoneLacksSecure: "for all sites, and not Secure",
}

func (end LineEnd) String() string {
	return ends[end]
}

// IsTaken says whether the line was taken.
func (end LineEnd) IsTaken() bool {
	return end <= UpdatedExisting || end == Expired
}

// A LineError says that a line was refused, and why. The jar is as it was.
type LineError struct {
	Line string
	End  LineEnd
}

func (it *LineError) Error() string {
	return "fonnalich: a line is " + it.End.String()
}

// Rules is a sum of rules of browsers (the draft that follows RFC 6265, sections 5.5 to 5.7), or NoRules.
//
// With Control a header leaves out a cookie in whose name or value a control character stands. Without it such a header
// is refused, and a neighbour's line can bring that about.
type Rules int64

// SecureWins is no browser's: a header leaves out what has the name of a Secure cookie in it and isn't Secure. Some
// browsers have LaxByDefault: where a page of another site starts a request, a cookie without SameSite is one with
// SameSite=Lax. Some have NoneNeedsSecure: one with SameSite=None that isn't Secure is refused.
const (
	NoRules         Rules = -1
	Control         Rules = 1
	TooLong         Rules = 2
	SecurePrefix    Rules = 4
	HostPrefix      Rules = 8
	SecureFromHTTP  Rules = 16
	SecureOverlay   Rules = 32
	LongAttributes  Rules = 64
	Dates           Rules = 128
	LongLives       Rules = 256
	Browser         Rules = 511
	SecureWins      Rules = 512
	LaxByDefault    Rules = 1024
	NoneNeedsSecure Rules = 2048
)

// Version is the version of the library.
func Version() string {
	out := make([]byte, 64)
	return string(out[:C.fonnalich_version(start(out), C.size_t(len(out)))])
}

// IsPlainURL says whether each program reads a text as the same web address. Ask it of a URL before you hand it to
// another program, as curl, a browser or a proxy.
func IsPlainURL(text string) (bool, error) {
	if C.fonnalich_processor() < 0 {
		return false, errProcessor
	}
	given := []byte(text)
	number := C.fonnalich_is_plain_url(start(given), C.size_t(len(given)))
	return number == 1, refusal(number)
}

// handle is a handle of the library, in memory that doesn't move.
type handle = *C.fonnalich

// living is how many handles haven't ended.
var living int64

func newHandle() (handle, error) {
	if C.fonnalich_processor() < 0 {
		return nil, errProcessor
	}
	at := handle(C.malloc(C.size_t(unsafe.Sizeof(C.fonnalich{}))))
	if at == nil {
		return nil, ErrMemory
	}
	if number := C.fonnalich_begin(at); number < 0 {
		C.free(unsafe.Pointer(at))
		return nil, refusal(number)
	}
	atomic.AddInt64(&living, 1)
	return at, nil
}

func freeHandle(at handle) {
	C.fonnalich_free(at)
	C.free(unsafe.Pointer(at))
	atomic.AddInt64(&living, -1)
}

// act does what a word of the header file says, and answers the bytes or the refusal.
func act(at handle, word C.uint32_t, number int64, subject, text []byte) ([]byte, error) {
	out := make([]byte, room)
	length := C.fonnalich_act(at, word, C.int64_t(number), start(subject), C.size_t(len(subject)), start(text),
		C.size_t(len(text)), start(out), C.size_t(len(out)))
	return answered(at, out, length)
}

// one does what a word says with the cookie of a domain, a path and a name.
func one(at handle, word C.uint32_t, second int64, domain, path, name string) ([]byte, error) {
	out := make([]byte, room)
	length := C.fonnalich_one(at, word, C.int64_t(second), start([]byte(domain)), C.size_t(len(domain)),
		start([]byte(path)), C.size_t(len(path)), start([]byte(name)), C.size_t(len(name)), start(out),
		C.size_t(len(out)))
	return answered(at, out, length)
}

// answered is the answer of a call that was this long, which is kept where the room was too small.
func answered(at handle, out []byte, length C.ptrdiff_t) ([]byte, error) {
	if length > C.ptrdiff_t(len(out)) {
		out = make([]byte, length)
		length = C.fonnalich_answer(at, start(out), C.size_t(len(out)))
	}
	if length < 0 {
		return nil, refusal(length)
	}
	return out[:length], nil
}

var nothing [1]byte

// start is where bytes begin, which for none is no null pointer.
func start(bytes []byte) *C.char {
	if len(bytes) == 0 {
		bytes = nothing[:]
	}
	return (*C.char)(unsafe.Pointer(&bytes[0]))
}

func refusal(number C.ptrdiff_t) error {
	switch {
	case number >= 0:
		return nil
	case number == C.FONNALICH_MEMORY, number <= C.FONNALICH_STOPPED:
		return ErrMemory
	}
	return Refused(number)
}
