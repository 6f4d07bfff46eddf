//go:build !pkgconfig

package fonnalich

// #cgo CFLAGS: -I${SRCDIR}/../../out
// #cgo LDFLAGS: -L${SRCDIR}/../../out -l:libfonnalich.a
import "C"
