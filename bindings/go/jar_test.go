package fonnalich

import (
	"context"
	"errors"
	"fmt"
	"io"
	"net"
	"net/http"
	"net/http/httptest"
	"net/url"
	"os"
	"reflect"
	"runtime"
	"strings"
	"sync"
	"sync/atomic"
	"testing"
	"time"
)

const list = "com\norg\nco.uk\n"

var shop = parsed("https://shop.com/")

func headerOf(t *testing.T, jar *Jar, u *url.URL) string {
	t.Helper()
	header, err := jar.Header(u)
	if err != nil {
		t.Fatal(err)
	}
	return header
}

func receive(t *testing.T, jar *Jar, u *url.URL, lines ...string) []LineEnd {
	t.Helper()
	ends, err := jar.Receive(u, lines)
	if err != nil || len(ends) != len(lines) {
		t.Fatal(ends, err)
	}
	return ends
}

func at(second int64) *Options {
	return &Options{Now: func() time.Time { return time.Unix(second, 999) }}
}

// Rows of RFC 6265 and of the draft that follows it, by section: a line, what becomes of it, and the header.
func TestEnds(t *testing.T) {
	for _, it := range []struct {
		section, from, line string
		end                 LineEnd
		header              string
	}{
		{"5.2", "https://shop.com/", "a=1", Inserted, "a=1"},
		{"5.2, step 5", "https://shop.com/", "=1", NoCookie, ""},
		{"5.2, step 2", "https://shop.com/", "a", NoCookie, ""},
		{"5.2", "https://shop.com/", "", NoCookie, ""},
		{"5.2", "https://shop.com/", "a=\xff", NotText, ""},
		{"5.2.2", "https://shop.com/", "a=1; Max-Age=0", Expired, ""},
		{"5.3, step 5", "https://shop.com/", "a=1; Domain=com", PublicSuffix, ""},
		{"5.3, step 6", "https://shop.com/", "a=1; Domain=evil.com", DomainMismatch, ""},
		{"6265bis, 5.6, step 1", "https://shop.com/", "a=1\nb=2", ByControl, ""},
		{"6265bis, 5.6, step 1", "https://shop.com/", "a=\x01", ByControl, ""},
		{"6265bis, 5.6, step 5", "https://shop.com/", "a=" + strings.Repeat("x", 4096), ByTooLong, ""},
		{"6265bis, 4.1.3.1", "https://shop.com/", "__Secure-a=1", BySecurePrefix, ""},
		{"6265bis, 4.1.3.2", "https://shop.com/", "__Host-a=1; Secure; Path=/x", ByHostPrefix, ""},
		{"6265bis, 5.7", "http://shop.com/", "a=1; Secure", BySecureFromHTTP, ""},
	} {
		jar := made(t, list, nil)
		ends := receive(t, jar, parsed(it.from), it.line)
		if header := headerOf(t, jar, shop); ends[0] != it.end || header != it.header {
			t.Errorf("%s: %q: %q, %q", it.section, it.line, ends[0], header)
		}
	}
}

// The rows of section 5.8.3, step 1, of the draft that follows RFC 6265, and of its section 5.2 on sites.
func TestAHeaderIsToldWhatStartsItsRequest(t *testing.T) {
	evil, sub, plain, none := parsed("https://evil.org/"), parsed("https://a.shop.com/"), parsed("http://shop.com/"),
		parsed("data:,")
	lines := []string{"s=1; SameSite=Strict", "l=2; SameSite=Lax", "n=3; SameSite=None; Secure", "d=4"}
	for _, it := range []struct {
		rules  Rules
		by     Initiator
		header string
	}{
		{Browser, Initiator{}, "s=1; l=2; n=3; d=4"},
		{Browser, Initiator{Navigates: true}, "s=1; l=2; n=3; d=4"},
		{Browser, Initiator{Page: sub}, "s=1; l=2; n=3; d=4"},
		{Browser, Initiator{Page: plain}, "n=3; d=4"},
		{Browser, Initiator{Page: none}, "n=3; d=4"},
		{NoRules, Initiator{Page: evil}, "n=3; d=4"},
		{Browser, Initiator{Page: evil, Navigates: true}, "l=2; n=3; d=4"},
		{LaxByDefault, Initiator{Page: evil}, "n=3"},
		{LaxByDefault, Initiator{Page: evil, Navigates: true}, "l=2; n=3; d=4"},
	} {
		jar := made(t, list, &Options{Rules: it.rules})
		receive(t, jar, shop, lines...)
		if header, err := jar.HeaderFor(shop, it.by); err != nil || header != it.header {
			t.Errorf("%v: %q, %v", it, header, err)
		}
		if header := headerOf(t, jar, shop); header != "s=1; l=2; n=3; d=4" {
			t.Error(header)
		}
	}
	if _, err := made(t, list, nil).HeaderFor(shop, Initiator{Page: &url.URL{}}); !errors.Is(err, Refused(-6)) {
		t.Error(err)
	}
}

// The rows of section 5.7 of that draft.
func TestAnAnswerIsToldWhatStartedItsRequest(t *testing.T) {
	evil, sub, plain := parsed("https://evil.org/"), parsed("https://a.shop.com/"), parsed("http://shop.com/")
	lines := []string{"s=1; SameSite=Strict", "l=2; SameSite=Lax", "n=3; SameSite=None", "d=4"}
	const put, site, none = Inserted, ByCrossSite, ByNoneLacksSecure
	for _, it := range []struct {
		rules Rules
		by    Initiator
		ends  []LineEnd
	}{
		{Browser, Initiator{}, []LineEnd{put, put, put, put}},
		{Browser, Initiator{Page: sub}, []LineEnd{put, put, put, put}},
		{Browser, Initiator{Page: plain}, []LineEnd{site, site, put, put}},
		{NoRules, Initiator{Page: evil}, []LineEnd{site, site, put, put}},
		{Browser, Initiator{Page: evil, Navigates: true}, []LineEnd{put, put, put, put}},
		{LaxByDefault, Initiator{Page: evil}, []LineEnd{site, site, put, site}},
		{NoneNeedsSecure, Initiator{Page: evil}, []LineEnd{site, site, none, put}},
		{NoneNeedsSecure, Initiator{Page: evil, Navigates: true}, []LineEnd{put, put, none, put}},
		{NoneNeedsSecure, Initiator{}, []LineEnd{put, put, none, put}},
	} {
		jar := made(t, list, &Options{Rules: it.rules})
		if ends, err := jar.ReceiveFor(shop, it.by, lines); err != nil || !reflect.DeepEqual(ends, it.ends) {
			t.Errorf("%v: %v, %v", it, ends, err)
		}
	}
	jar := made(t, list, nil)
	receive(t, jar, shop, "s=0")
	ends, err := jar.ReceiveFor(shop, Initiator{Page: evil}, []string{"s=9; SameSite=Lax"})
	if err != nil || ends[0].IsTaken() || ends[0].String() == "" || headerOf(t, jar, shop) != "s=0" {
		t.Error(ends, err)
	}
	if _, err := jar.ReceiveFor(shop, Initiator{Page: &url.URL{}}, lines); !errors.Is(err, Refused(-6)) {
		t.Error(err)
	}
	jar.Close()
	for _, line := range []string{"", "a=1\nb=2"} {
		if _, err := jar.Receive(shop, []string{line}); !errors.Is(err, ErrClosed) {
			t.Errorf("%q: %v", line, err)
		}
	}
	if _, err := jar.ReceiveFor(shop, Initiator{}, lines); !errors.Is(err, ErrClosed) {
		t.Error(err)
	}
}

func TestRulesAreThoseOfBrowsersUnlessOthersAreNamed(t *testing.T) {
	plain := parsed("http://shop.com/")
	for rules, wanted := range map[Rules]LineEnd{
		0: BySecureFromHTTP, Browser: BySecureFromHTTP, NoRules: Inserted, Browser &^ SecureFromHTTP: Inserted,
	} {
		jar := made(t, list, &Options{Rules: rules})
		if ends := receive(t, jar, plain, "a=1; Secure"); ends[0] != wanted {
			t.Errorf("%d: %s", rules, ends[0])
		}
	}
}

// A saved text of another hand: the cookie's value has a line break and a further field of the request.
func TestAHeaderIsOneLine(t *testing.T) {
	jar := made(t, list, at(1000))
	receive(t, jar, shop, "a=1; Max-Age=60", "b=2; Max-Age=60")
	saved, err := jar.Save()
	if err != nil {
		t.Fatal(err)
	}
	saved = []byte(strings.Replace(string(saved), "a=1", `a=1\r\nX-Evil: 1`, 1))
	line := Refused(-21)
	for rules, wanted := range map[Rules]error{0: nil, Control: nil, NoRules: line, Browser &^ Control: line} {
		loaded, err := Load([]byte(list), saved, &Options{Rules: rules, Now: at(1001).Now})
		if err != nil {
			t.Fatal(err)
		}
		header, err := loaded.Header(shop)
		if err != wanted || err == nil && header != "b=2" {
			t.Errorf("%d: %q, %v", rules, header, err)
		}
	}
}

func TestASavedTextHasWhatLivesOn(t *testing.T) {
	jar := made(t, list, at(1000))
	receive(t, jar, shop, "a=1; Max-Age=60", "b=2")
	saved, err := jar.Save()
	if err != nil {
		t.Fatal(err)
	}
	for second, wanted := range map[int64]string{1059: "a=1", 1061: ""} {
		loaded, err := Load([]byte(list), saved, at(second))
		if err != nil {
			t.Fatal(err)
		}
		if header := headerOf(t, loaded, shop); header != wanted {
			t.Errorf("at %d: %q", second, header)
		}
	}
	if err := jar.Restart(); err != nil || headerOf(t, jar, shop) != "a=1" {
		t.Error(err, headerOf(t, jar, shop))
	}
}

func TestRefusals(t *testing.T) {
	_, noList := New([]byte("a..com"), nil)
	_, noJar := Load([]byte(list), []byte("no"), nil)
	_, noRules := New([]byte(list), &Options{Rules: 1 << 20})
	_, noMoment := made(t, list, at(1<<50)).Header(shop)
	_, noURL := made(t, list, nil).Header(&url.URL{Scheme: "http", Host: "a b"})
	closed := made(t, list, nil)
	closed.Close()
	closed.Close()
	_, isClosed := closed.Header(shop)
	_, noRule := New([]byte("// com\n"), nil)
	_, isNoList := NewList([]byte("lists/suffixes.dat"))
	_, hasNoRule := NewList(nil)
	_, isName := NewList([]byte(" SUFFIXES.dat\r\n"))
	_, isThere := New([]byte("go.mod"), nil)
	_, isNamed := Load([]byte("suffixes.dat"), []byte("[]"), nil)
	_, noText := made(t, list, nil).Get("shop.com", "/", "\xff")
	for _, it := range []struct{ found, wanted error }{
		{noList, Refused(-4)}, {noMoment, Refused(-5)}, {noURL, Refused(-6)}, {noJar, Refused(-7)},
		{noRules, Refused(-20)}, {isClosed, ErrClosed}, {noRule, Refused(-24)}, {isNoList, Refused(-4)},
		{hasNoRule, Refused(-24)}, {isName, ErrNoRule}, {isThere, ErrNoRule}, {isNamed, ErrNoRule},
		{noText, Refused(-17)},
	} {
		if !errors.Is(it.found, it.wanted) {
			t.Errorf("%v, and not %v", it.found, it.wanted)
		}
	}
}

func TestWhatIsRefusedIsTold(t *testing.T) {
	told := []string{}
	jar := made(t, list, &Options{Refused: func(u *url.URL, why error) {
		told = append(told, u.Host+": "+why.Error())
	}})
	jar.SetCookies(shop, cookiesOf([]string{"a=1; Domain=com", "b=2"}))
	jar.SetCookies(parsed("ftp://shop.com/"), cookiesOf([]string{"c=3"}))
	if found := jar.Cookies(&url.URL{Scheme: "http", Host: "a b"}); found != nil {
		t.Error(found)
	}
	wanted := "shop.com: fonnalich: a line is of a domain that is a public suffix, a b: fonnalich: the text is no URL"
	if found := strings.Join(told, ", "); found != wanted || headerOf(t, jar, shop) != "b=2" {
		t.Error(found)
	}
}

// net/http connects to the Host, whatever the Opaque has it send, and asks a proxy for the host of one that has it.
func TestAHostIsThatWhichIsConnectedTo(t *testing.T) {
	jar := made(t, list, nil)
	receive(t, jar, shop, "a=1")
	if found := headerOf(t, jar, &url.URL{Scheme: "https", Host: "evil.com", Opaque: "/x"}); found != "" {
		t.Error(found)
	}
	receive(t, jar, parsed("https://shop.com/x"), "b=2; Path=/x")
	u := &url.URL{Scheme: "https", Host: "shop.com", Path: "/y", Opaque: "/x/z?q"}
	if found := headerOf(t, jar, u); found != "b=2; a=1" {
		t.Error(found)
	}
	for _, opaque := range []string{"//evil.com/", "http://evil.com/", "evil.com/", "*"} {
		u := &url.URL{Scheme: "https", Host: "shop.com", Opaque: opaque}
		if header, err := jar.Header(u); !errors.Is(err, ErrURL) {
			t.Error(u, header, err)
		}
	}
}

func TestACookieWithoutItsLineIsPrinted(t *testing.T) {
	jar := made(t, list, nil)
	jar.SetCookies(shop, []*http.Cookie{{Name: "a", Value: "1", Path: "/x"}, {Name: "b", Value: "2"}})
	if found := headerOf(t, jar, shop); found != "b=2" {
		t.Error(found)
	}
}

func TestCookiesHaveNoQuotes(t *testing.T) {
	jar := made(t, list, nil)
	receive(t, jar, shop, `a="1"`, `b="`, `c=1"`)
	found := ""
	for _, cookie := range jar.Cookies(shop) {
		found += cookie.Name + "=" + cookie.Value + "\n"
	}
	if found != "a=1\nb=\"\nc=1\"\n" {
		t.Error(found)
	}
}

func TestAHeaderLongerThanTheRoom(t *testing.T) {
	jar, pairs := made(t, list, nil), []string{}
	for i := 0; i < 9; i++ {
		pairs = append(pairs, fmt.Sprintf("n%d=%s", i, strings.Repeat(fmt.Sprint(i), room/4)))
	}
	receive(t, jar, shop, pairs...)
	if found := headerOf(t, jar, shop); found != strings.Join(pairs, "; ") {
		t.Error(len(found))
	}
}

func TestGoroutinesShareAJar(t *testing.T) {
	jar := made(t, list, nil)
	var all sync.WaitGroup
	for i := 0; i < 8; i++ {
		all.Add(1)
		go func(i int) {
			defer all.Done()
			own := parsed(fmt.Sprintf("https://shop%d.com/", i))
			for n := 0; n < 200; n++ {
				pair := fmt.Sprintf("n=%d", n)
				jar.SetCookies(own, []*http.Cookie{{Raw: pair}})
				if found, err := jar.Header(own); err != nil || found != pair {
					t.Error(found, err)
				}
			}
		}(i)
	}
	all.Wait()
}

func TestAJarThatNobodyHoldsIsEnded(t *testing.T) {
	runtime.GC()
	before := atomic.LoadInt64(&living)
	for i := 0; i < 50; i++ {
		if _, err := New([]byte(list), nil); err != nil {
			t.Fatal(err)
		}
	}
	for i := 0; i < 100 && atomic.LoadInt64(&living) > before; i++ {
		runtime.GC()
		time.Sleep(10 * time.Millisecond)
	}
	if left := atomic.LoadInt64(&living); left > before {
		t.Errorf("%d, and not %d", left, before)
	}
}

// served is a site that sets a line at /, and answers with the header that it got.
func served(t *testing.T, line string) string {
	site := httptest.NewServer(http.HandlerFunc(func(to http.ResponseWriter, request *http.Request) {
		if request.URL.Path == "/" {
			to.Header()["Set-Cookie"] = []string{line}
			http.Redirect(to, request, "/in", http.StatusSeeOther)
			return
		}
		io.WriteString(to, strings.Join(request.Header["Cookie"], " | "))
	}))
	t.Cleanup(site.Close)
	return site.URL + "/"
}

func got(t *testing.T, client *http.Client, u string) string {
	t.Helper()
	answer, err := client.Get(u)
	if err != nil {
		t.Fatal(err)
	}
	defer answer.Body.Close()
	body, err := io.ReadAll(answer.Body)
	if err != nil {
		t.Fatal(err)
	}
	return string(body)
}

// From Go 1.23 on net/http tells of quotes.
var tellsQuotes = reflect.ValueOf(http.Cookie{}).FieldByName("Quoted").IsValid()

// A site gets back what it set: by a Transport each byte, and by net/http's own way what that lets through.
func TestAClientOfTheStandardLibrary(t *testing.T) {
	quoted := "user=ann"
	if tellsQuotes {
		quoted = `user="ann"`
	}
	for _, it := range []struct{ line, byJar, byTransport string }{
		{"user=ann; HttpOnly", "user=ann", "user=ann"},
		{`user="ann"`, quoted, `user="ann"`},
		{`user="ann b"`, `user="ann b"`, `user="ann b"`},
		{"user=ann b", `user="ann b"`, "user=ann b"},
		{"user=J\u00fcrgen", "", "user=J\u00fcrgen"},
		{"us er=ann", "", "us er=ann"},
	} {
		u := served(t, it.line)
		byJar := got(t, &http.Client{Jar: made(t, list, nil)}, u)
		byTransport := got(t, &http.Client{Transport: &Transport{Jar: made(t, list, nil)}}, u)
		if byJar != it.byJar || byTransport != it.byTransport {
			t.Errorf("%q: %q, %q", it.line, byJar, byTransport)
		}
	}
}

func TestARequestKeepsItsOwnHeader(t *testing.T) {
	u := served(t, "user=ann")
	client := &http.Client{Transport: &Transport{Jar: made(t, list, nil)}}
	got(t, client, u)
	request, err := http.NewRequest("GET", u+"in", nil)
	if err != nil {
		t.Fatal(err)
	}
	request.Header.Set("Cookie", "own=1")
	answer, err := client.Do(request)
	if err != nil {
		t.Fatal(err)
	}
	defer answer.Body.Close()
	if body, err := io.ReadAll(answer.Body); err != nil || string(body) != "own=1" {
		t.Error(string(body), err)
	}
}

func TestPlainURLs(t *testing.T) {
	for text, wanted := range map[string]bool{"https://shop.com/": true, `https://shop.test\@evil.test/x`: false} {
		if found, err := IsPlainURL(text); err != nil || found != wanted {
			t.Error(text, found, err)
		}
	}
}

func TestTheVersionIsThatOfTheHeaderFile(t *testing.T) {
	header, err := os.ReadFile("../c/fonnalich.h")
	if err != nil {
		t.Fatal(err)
	}
	if !strings.Contains(string(header), `FONNALICH_VERSION "`+Version()+`"`) {
		t.Error(Version())
	}
}

// The lines of RFC 6265, section 3.1, and some more.
func TestWhatAJarHolds(t *testing.T) {
	jar := made(t, list, &Options{Rules: NoRules, Now: at(60).Now})
	receive(t, jar, shop, "SID=31d4d96e; Path=/; Secure; HttpOnly", "lang=en-US; Path=/; Domain=shop.com; Max-Age=60",
		"d=; Secure; Partitioned; SameSite=None", "a=b=c; Path=/x; SameSite=Lax")
	wanted := []HeldCookie{
		{Domain: "shop.com", Path: "/", Name: "SID", Value: "31d4d96e", HostOnly: true, Secure: true, HttpOnly: true},
		{Domain: "shop.com", Path: "/", Name: "lang", Value: "en-US", Expires: time.Unix(120, 0)},
		{Domain: "shop.com", Path: "/", Name: "d", HostOnly: true, Secure: true, Partitioned: true,
			SameSite: http.SameSiteNoneMode},
		{Domain: "shop.com", Path: "/x", Name: "a", Value: "b=c", HostOnly: true, SameSite: http.SameSiteLaxMode},
	}
	held, err := jar.Held()
	if err != nil || !reflect.DeepEqual(held, wanted) {
		t.Fatal(held, err)
	}
	if one, err := jar.Get("shop.com", "/x", "a"); err != nil || !reflect.DeepEqual(one, &wanted[3]) {
		t.Error(one, err)
	}
	if one, err := jar.Remove("shop.com", "/", "a"); err != nil || one != nil {
		t.Error(one, err)
	}
	if one, err := jar.Remove("shop.com", "/x", "a"); err != nil || !reflect.DeepEqual(one, &wanted[3]) {
		t.Error(one, err)
	}
	if held, err := jar.Held(); err != nil || !reflect.DeepEqual(held, wanted[:3]) {
		t.Error(held, err)
	}
	if err := jar.Clear(); err != nil || headerOf(t, jar, shop) != "" {
		t.Error(err)
	}
	if held, err := jar.Held(); err != nil || len(held) != 0 {
		t.Error(held, err)
	}
	jar.Close()
	if _, err := jar.Remove("shop.com", "/", "a"); !errors.Is(err, ErrClosed) {
		t.Error(err)
	}
}

// What curl 7.88.1 wrote of a site, and lines that are refused behind it.
func TestACookiesTxt(t *testing.T) {
	rows := []string{"# Netscape HTTP Cookie File\n", "\n", ".shop.com\tTRUE\t/a/\tFALSE\t2795896097\tlang\ten\n",
		"shop.com\tFALSE\t/\tFALSE\t0\tsid\t31d4\n", "#HttpOnly_shop.com\tFALSE\t/\tTRUE\t2147169600\tuser\tann\n"}
	text := strings.Join(rows, "")
	jar := made(t, list, &Options{Now: at(60).Now})
	done, err := jar.ImportCookiesTxt([]byte(text + "shop.com\tFALSE\t/\tFALSE\t1\tgone\t\nno row\n"))
	wanted := Imported{Taken: 3, Expired: 1, Refused: []RefusedLine{{7, -41}}}
	if err != nil || !reflect.DeepEqual(done, wanted) {
		t.Fatal(done, err)
	}
	if told := done.Refused[0].Error(); told != "fonnalich: the line has neither six nor seven fields" {
		t.Error(told)
	}
	python := strings.Replace(text, "\t0\tsid", "\t\tsid", 1)
	for _, it := range []struct {
		reader   Reader
		sessions bool
		wanted   string
	}{{ForCurl, true, text}, {ForPython, true, python}, {ForWget, true, strings.Replace(text, "#HttpOnly_", "", 1)},
		{ForCurl, false, strings.Replace(text, rows[3], "", 1)}} {
		written, err := jar.ExportCookiesTxt(it.reader, it.sessions)
		if err != nil || string(written) != it.wanted {
			t.Error(string(written), err)
		}
		again := made(t, list, &Options{Now: at(60).Now})
		if done, err := again.ImportCookiesTxt(written); err != nil || done.Expired != 0 || len(done.Refused) != 0 {
			t.Error(done, err)
		}
	}
	if _, err := jar.ExportCookiesTxt(3, true); err == nil {
		t.Error("no reader")
	}
	jar.Close()
	if _, err := jar.ImportCookiesTxt(nil); !errors.Is(err, ErrClosed) {
		t.Error(err)
	}
}

// The answer has no room at first.
func TestManyThatAJarHolds(t *testing.T) {
	jar := made(t, list, nil)
	for i := 0; i < 300; i++ {
		receive(t, jar, shop, fmt.Sprintf("n%d=%s", i, strings.Repeat("x", i)))
	}
	held, err := jar.Held()
	if err != nil || len(held) != 300 {
		t.Fatal(len(held), err)
	}
	for i, it := range held {
		if it.Name != fmt.Sprintf("n%d", i) || len(it.Value) != i {
			t.Error(it)
		}
	}
}

func TestJarsShareAList(t *testing.T) {
	shared, err := NewList([]byte(list))
	if err != nil {
		t.Fatal(err)
	}
	jars := make([]*Jar, 100)
	var waits sync.WaitGroup
	for i := range jars {
		waits.Add(1)
		go func(i int) {
			defer waits.Done()
			if i%2 == 0 {
				jars[i], _ = NewWith(shared, nil)
			} else {
				jars[i], _ = LoadWith(shared, []byte("[]"), nil)
			}
		}(i)
	}
	waits.Wait()
	if _, err := LoadWith(shared, []byte("no"), nil); !errors.Is(err, ErrSaved) {
		t.Error(err)
	}
	shared.Close()
	shared.Close()
	if _, err := NewWith(shared, nil); !errors.Is(err, ErrClosed) {
		t.Error(err)
	}
	for _, jar := range jars {
		if end := receive(t, jar, shop, "a=1; Domain=com"); end[0] != PublicSuffix {
			t.Error(end)
		}
		jar.Close()
	}
}

// What IDNA makes of U+1E9E differs from one version of Unicode to the next, so the host is the one of net/http's.
func TestTheHostIsTheOneThatIsConnectedTo(t *testing.T) {
	jar := made(t, list, nil)
	for _, host := range []string{"fass.de", "xn--fa-hia.de", "xn--bcher-kva.de", "shop.com"} {
		receive(t, jar, parsed("http://"+host+"/"), "at="+host)
	}
	dialed := ""
	client := &http.Client{Jar: jar, Transport: &http.Transport{
		DialContext: func(_ context.Context, _, address string) (net.Conn, error) {
			dialed, _, _ = net.SplitHostPort(address)
			return nil, errors.New("nobody is there")
		}}}
	for _, text := range []string{"http://fa\u1e9e.de/", "http://fa%E1%BA%9E.de:8080/x", "http://FA\u00df.de/",
		"http://b\u00fccher.de", "http://B%C3%9Ccher.de:080/", "http://Shop.com:80?x"} {
		u := parsed(text)
		if _, err := client.Do(&http.Request{URL: u, Header: http.Header{}}); err == nil {
			t.Fatal("somebody is there")
		}
		if got := headerOf(t, jar, u); got != "at="+strings.ToLower(dialed) {
			t.Errorf("%s: %q, and it connects to %s", text, got, dialed)
		}
	}
	odd := []*url.URL{nil, {Scheme: "http", Host: "shop.com/x.evil.org"}, {Scheme: "http", Host: "shop.com\\x.evil.org"},
		{Scheme: "http", Host: "shop.com?.evil.org"}, {Scheme: "http", Host: "shop.com#.evil.org"},
		{Scheme: "http", Host: "127.1"}, {Scheme: "http", Host: "a@shop.com"}, {Scheme: "http"},
		{Scheme: "http", Host: "shop.com:99999999"}, {Scheme: "http", Host: "shop.com", Opaque: "//evil.org/"},
		{Scheme: "http", Host: "[\u1e9e:]:1"}, {Scheme: "http", Host: "\u00fc\u200d.de"}}
	for _, u := range odd {
		if _, err := jar.Header(u); !errors.Is(err, ErrURL) {
			t.Errorf("%v: %v", u, err)
		}
		if _, err := jar.Receive(u, []string{"a=1; Domain=shop.com"}); !errors.Is(err, ErrURL) {
			t.Errorf("%v: %v", u, err)
		}
		if u != nil {
			if _, err := jar.HeaderFor(shop, Initiator{Page: u}); !errors.Is(err, ErrURL) {
				t.Errorf("a page %v: %v", u, err)
			}
		}
	}
}

func TestATransportRefusesWhatItCantSend(t *testing.T) {
	jar := made(t, list, nil)
	receive(t, jar, shop, "a=1")
	for _, it := range []struct {
		transport *Transport
		request   *http.Request
	}{{&Transport{Jar: jar}, &http.Request{URL: shop}}, {&Transport{Jar: jar}, &http.Request{Header: http.Header{}}},
		{&Transport{}, &http.Request{URL: shop, Header: http.Header{}}}} {
		if _, err := it.transport.RoundTrip(it.request); err == nil {
			t.Error("it is sent")
		}
	}
	zero := struct {
		name string
		jar  Jar
		list List
	}{}
	zero.jar.Close()
	zero.list.Close()
	if _, err := zero.jar.Header(shop); !errors.Is(err, ErrClosed) {
		t.Error(err)
	}
}
