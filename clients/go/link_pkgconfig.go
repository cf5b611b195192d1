//go:build pkgconfig

package ordup

/*
#cgo pkg-config: ordup
*/
import "C"
