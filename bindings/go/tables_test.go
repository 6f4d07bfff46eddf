package fonnalich

import (
	"fmt"
	"go/ast"
	"go/parser"
	"go/token"
	"net"
	"net/http"
	"net/url"
	"os"
	"path/filepath"
	"runtime"
	"sort"
	"strconv"
	"strings"
	"testing"
	"time"
)

// These read the tables of net/http/cookiejar's own tests, where the toolchain has them, and play their rows on a Jar:
// the lines of a row come at `began`, and the n-th of its questions is asked (n+2)*1001 ms later. A row's column of the
// jar's whole content is passed over, since a Jar doesn't tell it.

var began = time.Date(2013, 1, 1, 12, 0, 0, 0, time.UTC)

// A row is its place in its table, the lines with the URL that they came from, and the questions.
type row struct {
	place     string
	from      string
	lines     []string
	questions [][2]string
}

// A table is rows that are played on one jar, or each on its own.
type table struct {
	rows     []row
	isShared bool
}

// text is a string that a source spells: a literal, a sum of such, or the attribute of an expiry in some seconds.
func text(of ast.Expr) string {
	switch it := of.(type) {
	case *ast.BasicLit:
		found, err := strconv.Unquote(it.Value)
		if err != nil {
			panic(err)
		}
		return found
	case *ast.BinaryExpr:
		return text(it.X) + text(it.Y)
	case *ast.CallExpr:
		moment := began.Add(time.Duration(number(it.Args[0])) * time.Second)
		return "expires=" + moment.Format(time.RFC1123)
	}
	panic(of)
}

func number(of ast.Expr) int {
	if it, ok := of.(*ast.UnaryExpr); ok {
		return -number(it.X)
	}
	found, err := strconv.Atoi(of.(*ast.BasicLit).Value)
	if err != nil {
		panic(err)
	}
	return found
}

func rowOf(place string, it *ast.CompositeLit) row {
	found := row{place: place, from: text(it.Elts[1])}
	for _, line := range it.Elts[2].(*ast.CompositeLit).Elts {
		found.lines = append(found.lines, text(line))
	}
	for _, question := range it.Elts[4].(*ast.CompositeLit).Elts {
		asked := question.(*ast.CompositeLit).Elts
		found.questions = append(found.questions, [2]string{text(asked[0]), text(asked[1])})
	}
	return found
}

func isNamed(of ast.Expr, name string) bool {
	it, ok := of.(*ast.Ident)
	return ok && it.Name == name
}

// rowsOf are the rows of each variable that is an array of jarTest.
func rowsOf(file *ast.File) map[string][]row {
	found := map[string][]row{}
	ast.Inspect(file, func(node ast.Node) bool {
		its, ok := node.(*ast.ValueSpec)
		if !ok || len(its.Values) != 1 {
			return true
		}
		all, ok := its.Values[0].(*ast.CompositeLit)
		if !ok {
			return true
		}
		kind, ok := all.Type.(*ast.ArrayType)
		if !ok || !isNamed(kind.Elt, "jarTest") {
			return true
		}
		name := its.Names[0].Name
		for i, it := range all.Elts {
			found[name] = append(found[name], rowOf(name+"/"+strconv.Itoa(i), it.(*ast.CompositeLit)))
		}
		return true
	})
	return found
}

// tableOf is what a test plays: the rows that it ranges over, on a jar that is made in the loop or before it, or one
// row that stands in it.
func tableOf(test *ast.FuncDecl, rows map[string][]row) table {
	found := table{isShared: true}
	ast.Inspect(test.Body, func(node ast.Node) bool {
		switch it := node.(type) {
		case *ast.RangeStmt:
			if over, ok := it.X.(*ast.Ident); ok {
				found.rows = rows[over.Name]
			}
			ast.Inspect(it.Body, func(node ast.Node) bool {
				call, ok := node.(*ast.CallExpr)
				found.isShared = found.isShared && !(ok && isNamed(call.Fun, "newTestJar"))
				return true
			})
		case *ast.CompositeLit:
			if isNamed(it.Type, "jarTest") {
				found.rows = append(found.rows, rowOf(test.Name.Name, it))
			}
		}
		return true
	})
	return found
}

// tables are those of the toolchain's sources, by the names of its tests; none where these aren't there.
func tables(t *testing.T) map[string]table {
	path := filepath.Join(runtime.GOROOT(), "src/net/http/cookiejar/jar_test.go")
	if _, err := os.Stat(path); err != nil {
		fmt.Println("skipped: the tables of net/http/cookiejar: Go's sources aren't there")
		t.SkipNow()
	}
	file, err := parser.ParseFile(token.NewFileSet(), path, nil, 0)
	if err != nil {
		t.Fatal(err)
	}
	found, rows := map[string]table{}, rowsOf(file)
	for _, it := range file.Decls {
		if test, ok := it.(*ast.FuncDecl); ok && strings.HasPrefix(test.Name.Name, "Test") {
			if its := tableOf(test, rows); len(its.rows) > 0 {
				found[test.Name.Name] = its
			}
		}
	}
	if len(found) == 0 {
		t.Fatalf("%s has no table", path)
	}
	return found
}

func cookiesOf(lines []string) []*http.Cookie {
	return (&http.Response{Header: http.Header{"Set-Cookie": lines}}).Cookies()
}

// domainOf is the domain of a line as it is written.
func domainOf(line string) string {
	for _, cookie := range cookiesOf([]string{line}) {
		for _, piece := range strings.Split(cookie.Raw, ";") {
			if name, value, _ := strings.Cut(strings.TrimSpace(piece), "="); strings.EqualFold(name, "domain") {
				return value
			}
		}
	}
	return ""
}

// moreThanTheirs are the pairs of the lines that RFC 6265 takes as of the host, and that the standard library refuses:
// their domain is a dot alone (section 5.2.3 drops it, and section 5.3, step 6, takes the host), or a dot and the
// address that is the host (section 5.1.3, where both are identical).
func (it row) moreThanTheirs() []string {
	found := []string{}
	for _, line := range it.lines {
		host := parsed(it.from).Hostname()
		if domain := domainOf(line); domain == "." || domain == "."+host && net.ParseIP(host) != nil {
			found = append(found, strings.TrimSpace(strings.Split(line, ";")[0]))
		}
	}
	return found
}

func sorted(words []string) string {
	words = append([]string{}, words...)
	sort.Strings(words)
	return strings.Join(words, " ")
}

// A player plays rows on a jar at moments of its own.
type player struct {
	jar        *Jar
	now        time.Time
	hasDomains bool
}

// play gives the jar the lines of a row, and compares what it answers. Cookies of several domains with paths of one
// length may come in another order: section 5.4, step 2, asks for one, and doesn't demand it.
func (its *player) play(t *testing.T, it row) {
	its.now = began
	its.jar.SetCookies(parsed(it.from), cookiesOf(it.lines))
	for _, line := range it.lines {
		its.hasDomains = its.hasDomains || domainOf(line) != ""
	}
	for i, asked := range it.questions {
		its.now = began.Add(time.Duration(i+2) * 1001 * time.Millisecond)
		found := []string{}
		for _, cookie := range its.jar.Cookies(parsed(asked[0])) {
			text := cookie.Name + "=" + cookie.Value
			if tellsQuotes {
				text = cookie.String()
			}
			found = append(found, text)
		}
		// (a blank before a value is no part of it: RFC 6265, section 5.2, step 4)
		wanted := strings.Fields(strings.ReplaceAll(asked[1], `=" `, `="`))
		if parsed(asked[0]).Host == parsed(it.from).Host {
			wanted = append(wanted, it.moreThanTheirs()...)
		}
		isRight := strings.Join(found, " ") == strings.Join(wanted, " ")
		if !isRight && !(its.hasDomains && sorted(found) == sorted(wanted)) {
			t.Errorf("%s, question %d for %s: %q, and not %q", it.place, i, asked[0], found, wanted)
		}
	}
}

func parsed(text string) *url.URL {
	found, err := url.Parse(text)
	if err != nil {
		panic(err)
	}
	return found
}

// The tables have Secure cookies that come over http, which two rules of browsers refuse. Their list has `*` and co.uk.
func TestTablesOfTheStandardLibrary(t *testing.T) {
	for name, its := range tables(t) {
		its := its
		t.Run(name, func(t *testing.T) {
			var one *player
			for _, it := range its.rows {
				if one == nil || !its.isShared {
					one = &player{}
					now := func() time.Time { return one.now }
					rules := Browser &^ (SecureFromHTTP | SecureOverlay)
					one.jar = made(t, "*\nco.uk\n", &Options{Rules: rules, Now: now})
				}
				one.play(t, it)
			}
		})
	}
}

func made(t *testing.T, list string, options *Options) *Jar {
	t.Helper()
	jar, err := New([]byte(list), options)
	if err != nil {
		t.Fatal(err)
	}
	t.Cleanup(jar.Close)
	return jar
}
