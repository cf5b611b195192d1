//go:build !pkgconfig

package cluster

/*
#cgo CFLAGS: -I${SRCDIR}/../../../out
#cgo LDFLAGS: -L${SRCDIR}/../../../out -l:libordup.a
*/
import "C"
