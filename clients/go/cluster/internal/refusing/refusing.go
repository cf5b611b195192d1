//go:build refusing

// Package refusing tells the heap of clients/c/refusing.c, which a library made for tests has, when to refuse memory.
package refusing

/*
void refusing_at(long at, int later);
long refusing_asked(void);
long refusing_refused(void);
long refusing_blocks(void);
*/
import "C"

// At refuses the allocation with this number from now on, and all later ones too; or none any more, of 0.
func At(at int, later bool) {
	isLater := C.int(0)
	if later {
		isLater = 1
	}
	C.refusing_at(C.long(at), isLater)
}

// Asked is how many allocations were asked for since one was named.
func Asked() int { return int(C.refusing_asked()) }

// Refused is how many of these were refused.
func Refused() int { return int(C.refusing_refused()) }

// Blocks is how many blocks are not given back.
func Blocks() int { return int(C.refusing_blocks()) }
