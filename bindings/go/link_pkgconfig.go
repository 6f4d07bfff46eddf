//go:build pkgconfig

package fonnalich

// #cgo pkg-config: fonnalich
import "C"
