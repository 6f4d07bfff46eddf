//go:build !go1.23

package fonnalich

import "net/http"

// cookieOf is a cookie of a header: net/http has no word for the quotes round its value.
func cookieOf(name, value string) *http.Cookie {
	bare, _ := withoutQuotes(value)
	return &http.Cookie{Name: name, Value: bare}
}
