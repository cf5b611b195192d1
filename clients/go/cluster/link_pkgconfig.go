//go:build pkgconfig

package cluster

/*
#cgo pkg-config: ordup
*/
import "C"
