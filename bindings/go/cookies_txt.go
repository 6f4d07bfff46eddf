package fonnalich

// #include "fonnalich.h"
import "C"

import "encoding/binary"

// Reader is who reads a cookies.txt.
type Reader int

// ForWget marks no cookie as HttpOnly, since wget takes such a line for a comment. ForPython is for MozillaCookieJar:
// it leaves an expiry that there isn't empty, since 0 is a second of 1970 to it.
const (
	ForCurl   Reader = C.FONNALICH_FOR_CURL
	ForWget   Reader = C.FONNALICH_FOR_WGET
	ForPython Reader = C.FONNALICH_FOR_PYTHON
)

// A RefusedLine is a line of a cookies.txt that wasn't taken: its number, counted from 1, and why, as the number that
// FONNALICH_ROW_.. of the header file names.
type RefusedLine struct {
	Line   int
	Number int
}

func (it RefusedLine) Error() string {
	out := make([]byte, 128)
	return "fonnalich: " + string(out[:C.fonnalich_text(C.int64_t(it.Number), start(out), C.size_t(len(out)))])
}

// Imported is what became of the lines of a cookies.txt that are neither blank nor comments: how many were taken, how
// many were passed over since their cookies are expired, and which were refused.
type Imported struct {
	Taken   int
	Expired int
	Refused []RefusedLine
}

// ImportCookiesTxt puts the cookies of a cookies.txt, which curl, wget and Python share, into the jar, and says what
// became of its lines. Each is read by itself; of two of one domain, path and name the later takes the place of the
// earlier. Neither the suffix list nor rules judge a line, so trust the file.
func (jar *Jar) ImportCookiesTxt(text []byte) (Imported, error) {
	answer, err := jar.act(C.FONNALICH_DO_IMPORT, jar.second(), nil, text)
	if err != nil {
		return Imported{}, err
	}
	lines, done := numberOf(answer), Imported{Taken: numberOf(answer[8:])}
	for told := answer[16:]; len(told) >= 9; told = told[9:] {
		done.Refused = append(done.Refused, RefusedLine{numberOf(told), -int(told[8])})
	}
	done.Expired = lines - done.Taken - len(done.Refused)
	return done, nil
}

// ExportCookiesTxt answers the cookies that the jar holds and that aren't expired as a cookies.txt for a reader: with
// those that end with the session, or without. Those that no line can hold are left out, as one with a tab in its
// value.
func (jar *Jar) ExportCookiesTxt(reader Reader, sessions bool) ([]byte, error) {
	if reader < ForCurl || reader > ForPython {
		return nil, Refused(C.FONNALICH_WORD)
	}
	word := C.uint32_t(C.FONNALICH_DO_EXPORT)
	if !sessions {
		word = C.FONNALICH_DO_EXPORT_LASTING
	}
	return jar.act(word+C.uint32_t(reader), jar.second(), nil, nil)
}

func numberOf(bytes []byte) int {
	return int(binary.LittleEndian.Uint64(bytes))
}
