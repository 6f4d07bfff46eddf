package fonnalich_test

import (
	"fmt"
	"log"
	"net/http"
	"net/http/httptest"
	"os"

	"fonnalich"
)

func get(site string) error {
	// README: bindings/README.md
	suffixes, err := os.ReadFile("../../examples/suffixes.dat")
	if err != nil {
		return err
	}
	jar, err := fonnalich.New(suffixes, nil)
	if err != nil {
		return err
	}
	defer jar.Close()
	client := &http.Client{Jar: jar}
	answer, err := client.Get(site)
	if err != nil {
		return err
	}
	defer answer.Body.Close()
	saved, err := jar.Save()
	// README: end
	fmt.Println(len(saved) > 0, jar.Cookies(answer.Request.URL))
	return err
}

func Example() {
	site := httptest.NewServer(http.HandlerFunc(func(to http.ResponseWriter, request *http.Request) {
		http.SetCookie(to, &http.Cookie{Name: "cart", Value: "3", MaxAge: 60})
	}))
	defer site.Close()
	if err := get(site.URL); err != nil {
		log.Fatal(err)
	}
	// Output: true [cart=3]
}
