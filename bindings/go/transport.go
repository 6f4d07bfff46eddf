package fonnalich

import (
	"errors"
	"net/http"
)

var errNoJar = errors.New("fonnalich: a Transport has no Jar")

// A Transport gives each request the jar's header byte for byte, and has the jar take the lines of the answer as they
// came. Put it into a client that has no Jar:
//
//	client := &http.Client{Transport: &fonnalich.Transport{Jar: jar}}
//
// As an http.CookieJar the jar loses what net/http leaves out: lines whose name or value has bytes that it doesn't
// like, and of a header's value each byte that isn't ASCII and each '"', ';' and '\'. But from Go 1.23 on quotes round
// a value stay, unless it is empty. One with a blank or a comma it puts into quotes. A request that has a Cookie header
// keeps its own. One whose header is refused isn't sent, and so is none without a Jar.
type Transport struct {
	Jar *Jar
	// Base sends the requests; nil is http.DefaultTransport.
	Base http.RoundTripper
}

// RoundTrip sends a request.
func (it *Transport) RoundTrip(request *http.Request) (*http.Response, error) {
	if request.URL == nil || request.Header == nil {
		// (which says so)
		return it.base().RoundTrip(request)
	}
	header, err := "", errNoJar
	if it.Jar != nil {
		header, err = it.Jar.Header(request.URL)
	}
	if err != nil {
		if request.Body != nil {
			request.Body.Close()
		}
		return nil, err
	}
	if _, ok := request.Header["Cookie"]; !ok && header != "" {
		request = request.Clone(request.Context())
		request.Header.Set("Cookie", header)
	}
	answer, err := it.base().RoundTrip(request)
	if err == nil {
		it.Jar.take(request.URL, answer.Header["Set-Cookie"])
	}
	return answer, err
}

// CloseIdleConnections closes those of Base, where that can.
func (it *Transport) CloseIdleConnections() {
	if base, ok := it.base().(interface{ CloseIdleConnections() }); ok {
		base.CloseIdleConnections()
	}
}

func (it *Transport) base() http.RoundTripper {
	if it.Base == nil {
		return http.DefaultTransport
	}
	return it.Base
}
