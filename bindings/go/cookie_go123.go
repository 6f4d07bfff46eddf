//go:build go1.23

package fonnalich

import "net/http"

// cookieOf is a cookie of a header: net/http writes the quotes round its value again.
func cookieOf(name, value string) *http.Cookie {
	bare, isQuoted := withoutQuotes(value)
	return &http.Cookie{Name: name, Value: bare, Quoted: isQuoted}
}
