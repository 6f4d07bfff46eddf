package fonnalich

import (
	"encoding/binary"
	"net/http"
	"time"
)

// A HeldCookie is one that a jar holds. Its name and value are as they were received. No two of a jar have the same
// domain, path and name.
type HeldCookie struct {
	// Domain is the host that it is for, without a leading dot.
	Domain, Path, Name, Value string
	// Expires is its end; the zero value where that is the session's.
	Expires time.Time
	// HostOnly says that it is for its domain alone, and else for the hosts below it too.
	HostOnly, Secure, HttpOnly, Partitioned bool
	// SameSite is 0 where it says nothing.
	SameSite http.SameSite
}

var sites = [...]http.SameSite{0, http.SameSiteStrictMode, http.SameSiteLaxMode, http.SameSiteNoneMode}

// heldOf are the cookies of an answer: six items each behind their lengths, the last two the second of its end and its
// flags.
func heldOf(answer []byte) []HeldCookie {
	cookies := []HeldCookie{}
	for len(answer) > 0 {
		var items [6][]byte
		for i := range items {
			length := binary.LittleEndian.Uint64(answer)
			items[i], answer = answer[8:8+length], answer[8+length:]
		}
		cookie, flags := HeldCookie{}, items[5]
		cookie.Domain, cookie.Path = string(items[0]), string(items[1])
		cookie.Name, cookie.Value = string(items[2]), string(items[3])
		if flags[0] == 1 {
			cookie.Expires = time.Unix(int64(binary.LittleEndian.Uint64(items[4])), 0)
		}
		cookie.HostOnly, cookie.Secure = flags[1] == 1, flags[2] == 1
		cookie.HttpOnly, cookie.Partitioned = flags[3] == 1, flags[4] == 1
		cookie.SameSite = sites[flags[5]]
		cookies = append(cookies, cookie)
	}
	return cookies
}
