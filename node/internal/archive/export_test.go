package archive

import "os"

// SyncBy has another function in the place of sync, until the returned one is called.
func SyncBy(other func(*os.File) error) (undo func()) {
	before := sync
	sync = other
	return func() { sync = before }
}

// Looked is how many archives the archiver knows to be as it says.
func (a *Archiver) Looked() int { return len(a.looked) }
