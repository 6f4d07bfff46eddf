// Package fonnalich is a jar of cookies for net/http (RFC 6265), by the library fonnalich, whose sources are proved.
//
// The library is that of out/, which bindings/build makes, or of the folder that CGO_CFLAGS=-I.. and CGO_LDFLAGS=-L..
// name. With the tag pkgconfig it is the one that pkg-config finds.
package fonnalich

// #include "fonnalich.h"
import "C"

import (
	"context"
	"errors"
	"net"
	"net/http"
	"net/url"
	"runtime"
	"strings"
	"sync"
	"time"
	"unicode"
)

// Options are what a jar goes by. None given is the zero value.
type Options struct {
	// Rules are those that lines come behind; 0 is Browser.
	Rules Rules
	// Now tells the moment; nil is time.Now.
	Now func() time.Time
	// Refused hears of each line that SetCookies or a Transport hands in and that is refused, as a *LineError, and of
	// each other refusal, with no line.
	Refused func(u *url.URL, why error)
}

// A Jar keeps what sites set, and gives each request what it holds for it. It is an http.CookieJar, which goroutines
// may share: one call waits for another. The zero Jar is closed, so an http.Client with it sends no cookie: make one by
// New, NewWith, Load or LoadWith, and don't copy it.
//
// The host of a URL is the one that net/http connects to. A URL whose host isn't plain then, as of http://127.1/, is
// refused as ErrURL: the library may read another one in it. A request with a Host of its own goes by its URL, and a
// proxy is asked for that Host.
//
// Its memory is C's. It goes with the jar, by a finalizer; Close gives it back at once.
type Jar struct {
	lock    sync.Mutex
	at      handle
	options Options
}

var _ http.CookieJar = (*Jar)(nil)

// New begins a jar without a cookie, by the text of a public suffix list.
func New(list []byte, options *Options) (*Jar, error) {
	jar, err := begin(options)
	if err != nil {
		return nil, err
	}
	_, err = jar.act(C.FONNALICH_DO_LIST, 0, nil, list)
	return jar.orNone(noFile(list, err))
}

// NewWith is New with a list that was read before, which the jar shares.
func NewWith(list *List, options *Options) (*Jar, error) {
	jar, err := begin(options)
	if err == nil {
		err = list.share(jar.at)
	}
	if err == nil {
		_, err = jar.act(C.FONNALICH_DO_CLIENT, 0, nil, nil)
	}
	return jar.orNone(err)
}

// LoadWith is Load with such a list.
func LoadWith(list *List, saved []byte, options *Options) (*Jar, error) {
	jar, err := begin(options)
	if err == nil {
		err = list.share(jar.at)
	}
	if err == nil {
		_, err = jar.act(C.FONNALICH_DO_LOAD_BY, jar.second(), saved, nil)
	}
	return jar.orNone(err)
}

// Load begins a jar with the cookies of a saved text that aren't expired.
func Load(list, saved []byte, options *Options) (*Jar, error) {
	jar, err := begin(options)
	if err != nil {
		return nil, err
	}
	_, err = jar.act(C.FONNALICH_DO_LOAD, jar.second(), saved, list)
	return jar.orNone(noFile(list, err))
}

func begin(options *Options) (*Jar, error) {
	at, err := newHandle()
	if err != nil {
		return nil, err
	}
	jar := &Jar{at: at}
	runtime.SetFinalizer(jar, (*Jar).Close)
	if options != nil {
		jar.options = *options
	}
	rules := jar.options.Rules
	if rules == 0 {
		// (a handle begins behind Browser)
		return jar, nil
	}
	if rules == NoRules {
		rules = 0
	}
	_, err = jar.act(C.FONNALICH_DO_RULES, int64(rules), nil, nil)
	return jar.orNone(err)
}

func (jar *Jar) orNone(err error) (*Jar, error) {
	if err != nil {
		if jar != nil {
			jar.Close()
		}
		return nil, err
	}
	return jar, nil
}

// Close gives all memory back. Each later call is refused as ErrClosed.
func (jar *Jar) Close() {
	jar.lock.Lock()
	defer jar.lock.Unlock()
	if jar.at != nil {
		freeHandle(jar.at)
		jar.at = nil
		runtime.SetFinalizer(jar, nil)
	}
}

// SetCookies takes the lines of an answer from a URL: of each cookie the line that it was read of, which is its Raw, or
// its String where it has none. What is refused is told to the options' Refused alone.
func (jar *Jar) SetCookies(u *url.URL, cookies []*http.Cookie) {
	lines := make([]string, len(cookies))
	for i, cookie := range cookies {
		lines[i] = cookie.Raw
		if lines[i] == "" {
			lines[i] = cookie.String()
		}
	}
	jar.take(u, lines)
}

// Cookies are those of the header of a request to a URL: names and values alone. Quotes round a value are told by
// Quoted, from Go 1.23 on, as net/http tells them of what it reads; before they are lost. None where the header is
// refused, which the options' Refused hears.
func (jar *Jar) Cookies(u *url.URL) []*http.Cookie {
	header, err := jar.Header(u)
	if err != nil {
		jar.tell(u, err)
	}
	if header == "" {
		return nil
	}
	pairs := strings.Split(header, "; ")
	cookies := make([]*http.Cookie, len(pairs))
	for i, pair := range pairs {
		name, value, _ := strings.Cut(pair, "=")
		cookies[i] = cookieOf(name, value)
	}
	return cookies
}

func withoutQuotes(value string) (bare string, isQuoted bool) {
	if len(value) > 1 && strings.HasPrefix(value, `"`) && strings.HasSuffix(value, `"`) {
		return value[1 : len(value)-1], true
	}
	return value, false
}

// Receive takes the Set-Cookie lines of an answer from a URL, byte for byte, and says what became of each. At an error
// no later one is taken, and the ends are those of the lines before it.
func (jar *Jar) Receive(u *url.URL, lines []string) ([]LineEnd, error) {
	return jar.ReceiveFor(u, Initiator{}, lines)
}

// ReceiveFor is Receive of an answer whose request was started so. Where a page of another site started it, the answer
// sets no cookie whose SameSite is Strict or Lax, unless the request navigates (the draft that follows RFC 6265,
// section 5.7).
func (jar *Jar) ReceiveFor(u *url.URL, by Initiator, lines []string) ([]LineEnd, error) {
	ends := []LineEnd{}
	for _, line := range lines {
		end, err := jar.receive(u, by, line)
		if err != nil {
			return ends, err
		}
		ends = append(ends, end)
	}
	return ends, nil
}

// receive takes a line. The library takes lines that line feeds join, and of an empty text none.
func (jar *Jar) receive(u *url.URL, by Initiator, line string) (LineEnd, error) {
	isMany := strings.Contains(line, "\n")
	text := []byte(line)
	if isMany {
		text = nil
	}
	asked, err := askedOf(u)
	if err != nil {
		return NoCookie, err
	}
	started, page, err := by.started()
	if err != nil {
		return NoCookie, err
	}
	jar.lock.Lock()
	defer jar.lock.Unlock()
	if jar.at == nil {
		return NoCookie, ErrClosed
	}
	told, err := receiveFor(jar.at, started, jar.second(), asked, page, text)
	switch {
	case err != nil:
		return NoCookie, err
	case isMany:
		return ByControl, nil
	case line == "":
		return NoCookie, nil
	}
	return LineEnd(told[0]), nil
}

// Header is the Cookie header of a request to a URL, byte for byte; empty where it has none.
func (jar *Jar) Header(u *url.URL) (string, error) {
	return jar.HeaderFor(u, Initiator{})
}

// HeaderFor is Header of a request that is started so. Where a page of another site starts it, it leaves out the
// cookies whose SameSite is Strict, and unless the request navigates those whose is Lax (the draft that follows RFC
// 6265, section 5.8.3).
func (jar *Jar) HeaderFor(u *url.URL, by Initiator) (string, error) {
	if u != nil && !isWeb(u) {
		return "", nil
	}
	asked, err := askedOf(u)
	if err != nil {
		return "", err
	}
	started, page, err := by.started()
	if err != nil {
		return "", err
	}
	header, err := jar.act(headers[started], jar.second(), asked, page)
	return string(header), err
}

// Save answers the saved text of the cookies that have an expiry and aren't expired.
func (jar *Jar) Save() ([]byte, error) {
	return jar.act(C.FONNALICH_DO_SAVE, jar.second(), nil, nil)
}

// Restart ends the session cookies, as saving and loading does.
func (jar *Jar) Restart() error {
	_, err := jar.act(C.FONNALICH_DO_RESTART, jar.second(), nil, nil)
	return err
}

// Held are the cookies that the jar holds and that aren't expired.
func (jar *Jar) Held() ([]HeldCookie, error) {
	answer, err := jar.act(C.FONNALICH_DO_COOKIES, jar.second(), nil, nil)
	return heldOf(answer), err
}

// Get is the cookie of a domain, a path and a name, or nil where the jar holds none that isn't expired.
func (jar *Jar) Get(domain, path, name string) (*HeldCookie, error) {
	return jar.one(C.FONNALICH_DO_GET, jar.second(), domain, path, name)
}

// Remove takes the cookie of a domain, a path and a name out, and answers it, or nil where the jar holds none. An
// expired one that it still keeps counts too.
func (jar *Jar) Remove(domain, path, name string) (*HeldCookie, error) {
	return jar.one(C.FONNALICH_DO_REMOVE, 0, domain, path, name)
}

// Clear takes all cookies out.
func (jar *Jar) Clear() error {
	_, err := jar.act(C.FONNALICH_DO_CLEAR, 0, nil, nil)
	return err
}

func (jar *Jar) one(word C.uint32_t, second int64, domain, path, name string) (*HeldCookie, error) {
	jar.lock.Lock()
	defer jar.lock.Unlock()
	if jar.at == nil {
		return nil, ErrClosed
	}
	answer, err := one(jar.at, word, second, domain, path, name)
	if held := heldOf(answer); len(held) > 0 {
		return &held[0], err
	}
	return nil, err
}

// take has a line after the other taken, and tells what is refused.
func (jar *Jar) take(u *url.URL, lines []string) {
	if u != nil && !isWeb(u) {
		return
	}
	for _, line := range lines {
		end, err := jar.receive(u, Initiator{}, line)
		if err == nil && !end.IsTaken() {
			err = &LineError{line, end}
		}
		if err != nil {
			jar.tell(u, err)
		}
	}
}

func (jar *Jar) tell(u *url.URL, why error) {
	if jar.options.Refused != nil {
		jar.options.Refused(u, why)
	}
}

func (jar *Jar) act(word C.uint32_t, number int64, subject, text []byte) ([]byte, error) {
	jar.lock.Lock()
	defer jar.lock.Unlock()
	if jar.at == nil {
		return nil, ErrClosed
	}
	return act(jar.at, word, number, subject, text)
}

func (jar *Jar) second() int64 {
	if jar.options.Now == nil {
		return time.Now().Unix()
	}
	return jar.options.Now().Unix()
}

func isWeb(u *url.URL) bool {
	return u.Scheme == "http" || u.Scheme == "https"
}

// askedOf is the URL of the host that net/http connects to, and of the path that it asks for there. It is ErrURL where
// the library could read another host.
func askedOf(u *url.URL) ([]byte, error) {
	if u == nil {
		return nil, ErrURL
	}
	// (the String of one that has an Opaque may have another host)
	its := url.URL{Scheme: u.Scheme, Host: u.Host, Path: u.Path, RawPath: u.RawPath}
	if !isWeb(u) {
		return []byte(its.String()), nil
	}
	// (an Opaque that is no path is what it asks a proxy for)
	if u.Opaque != "" && (u.Opaque[0] != '/' || strings.HasPrefix(u.Opaque, "//")) {
		return nil, ErrURL
	}
	its.Host = u.Hostname()
	isAddress := strings.Contains(its.Host, ":")
	if isAddress {
		if net.ParseIP(its.Host) == nil {
			return nil, ErrURL
		}
		its.Host = "[" + its.Host + "]"
	} else if strings.IndexFunc(its.Host, func(it rune) bool { return it > unicode.MaxASCII }) >= 0 {
		its.Host = connected(its.Host)
	}
	port := strings.TrimLeft(u.Port(), "0")
	if port != "" && port != ports[u.Scheme] {
		its.Host += ":" + port
	}
	// (one of these would end the host, and an address in brackets is read alike in each of its forms)
	isPlain, err := IsPlainURL(u.Scheme + "://" + its.Host + "/")
	if err == nil && (!isPlain && !isAddress || strings.ContainsAny(its.Host, "/?#")) {
		err = ErrURL
	}
	if u.Opaque != "" {
		its.Path, its.RawPath = "", ""
		return []byte(its.String() + u.Opaque), err
	}
	return []byte(its.String()), err
}

// connected is the host that net/http connects to for one that isn't ASCII, which it tells to nothing else: of
// fa\u1E9E.de it makes fass.de, and the library xn--fa-hia.de.
func connected(host string) string {
	var address string
	probe := &http.Transport{DialContext: func(_ context.Context, _, to string) (net.Conn, error) {
		address = to
		return nil, errProbe
	}}
	asked := &http.Request{URL: &url.URL{Scheme: "http", Host: host, Path: "/"}, Header: http.Header{}}
	if answer, err := probe.RoundTrip(asked); err == nil {
		answer.Body.Close()
	}
	name, _, _ := net.SplitHostPort(address)
	return name
}

var errProbe = errors.New("fonnalich: nothing is connected to")

// ports are those of a URL that names none.
var ports = map[string]string{"http": "80", "https": "443"}
