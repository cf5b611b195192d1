//go:build !pkgconfig

package ordup

/*
#cgo CFLAGS: -I${SRCDIR}/../../out -I${SRCDIR}/../c
#cgo LDFLAGS: -L${SRCDIR}/../../out -l:libordup.a
*/
import "C"
