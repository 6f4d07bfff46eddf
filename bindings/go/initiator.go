package fonnalich

// #include "fonnalich.h"
import "C"

import "net/url"

// An Initiator is what starts a request: the user, as by a typed URL or a bookmark, where it has no page.
type Initiator struct {
	// Page is the URL of the page that starts it, at the top of its frames, or of data:, where a frame of another site
	// does; nil is the user. A site is a scheme and a registrable domain by the jar's list.
	Page *url.URL
	// Navigates says that the request navigates the top level: for its header by a safe method, as a link by GET, and
	// for its answer by any.
	Navigates bool
}

// started is how it is told to the library, and the text of the page.
func (by Initiator) started() (C.uint32_t, []byte, error) {
	if by.Page == nil {
		return C.FONNALICH_BY_USER, nil, nil
	}
	page, err := []byte(by.Page.String()), error(nil)
	if isWeb(by.Page) {
		page, err = askedOf(by.Page)
	}
	if by.Navigates {
		return C.FONNALICH_BY_NAVIGATION, page, err
	}
	return C.FONNALICH_BY_PAGE, page, err
}

// headers are the words for the header of a request that is started so.
var headers = map[C.uint32_t]C.uint32_t{
	C.FONNALICH_BY_USER: C.FONNALICH_DO_HEADER, C.FONNALICH_BY_PAGE: C.FONNALICH_DO_HEADER_BY_PAGE,
	C.FONNALICH_BY_NAVIGATION: C.FONNALICH_DO_HEADER_BY_NAVIGATION,
}

// receiveFor takes lines of an answer whose request was started so, and answers a byte for each.
func receiveFor(at handle, started C.uint32_t, second int64, u, page, lines []byte) ([]byte, error) {
	out := make([]byte, room)
	length := C.fonnalich_receive_for(at, started, C.int64_t(second), start(u), C.size_t(len(u)), start(page),
		C.size_t(len(page)), start(lines), C.size_t(len(lines)), start(out), C.size_t(len(out)))
	return answered(at, out, length)
}
