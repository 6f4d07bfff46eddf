package fonnalich

// #include "fonnalich.h"
import "C"

import (
	"bytes"
	"os"
	"runtime"
	"sync"
)

// A List is a public suffix list. Jars that begin with it share it: it is read once, and lies in memory once.
// Goroutines may share one. The zero List is closed: make one by NewList.
//
// Its memory goes with the list and the last jar that has it, by a finalizer; Close lets go of it at once.
type List struct {
	lock sync.Mutex
	at   handle
}

// NewList reads the text of a public suffix list.
func NewList(text []byte) (*List, error) {
	at, err := newHandle()
	if err != nil {
		return nil, err
	}
	_, err = act(at, C.FONNALICH_DO_KEEP_LIST, 0, nil, text)
	if err = noFile(text, err); err != nil {
		freeHandle(at)
		return nil, err
	}
	list := &List{at: at}
	runtime.SetFinalizer(list, (*List).Close)
	return list, nil
}

// noFile is what a list of this text was refused for; else that it is no list, where it names a file.
func noFile(text []byte, err error) error {
	if err == nil && isFile(text) {
		return Refused(C.FONNALICH_NO_RULE)
	}
	return err
}

// isFile says whether a text is of one line and names a file, which could be a rule: one that is there, or any that
// ends in .dat or .txt, in any case and with white space around it.
func isFile(text []byte) bool {
	name := bytes.ToLower(bytes.TrimSpace(text))
	if bytes.HasSuffix(name, []byte(".dat")) || bytes.HasSuffix(name, []byte(".txt")) {
		return !bytes.ContainsAny(name, "\n\x00")
	}
	// (before a line feed it is a rule, whatever is there)
	if bytes.ContainsAny(text, "\n\x00") {
		return false
	}
	found, err := os.Stat(string(text))
	return err == nil && found.Mode().IsRegular()
}

// Close lets go of the list. Jars that have it keep it; no other can begin with it.
func (list *List) Close() {
	list.lock.Lock()
	defer list.lock.Unlock()
	if list.at != nil {
		freeHandle(list.at)
		list.at = nil
		runtime.SetFinalizer(list, nil)
	}
}

// share has a handle keep the list.
func (list *List) share(to handle) error {
	list.lock.Lock()
	defer list.lock.Unlock()
	if list.at == nil {
		return ErrClosed
	}
	if number := C.fonnalich_share(to, list.at); number < 0 {
		return refusal(number)
	}
	return nil
}
