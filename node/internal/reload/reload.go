// Package reload keeps what was read of files, and reads them again once one of them has changed. So a certificate, a key or a token is
// replaced while the process goes on. With files that cannot be read, or do not fit each other, it keeps what it has and says so.
package reload

import (
	"os"
	"sync"
	"time"

	"ordup.dev/node/internal/logs"
)

// lookAfter is how often it is looked at most whether a file has changed.
const lookAfter = 2 * time.Second

// A Value is what some files have. Goroutines may share it.
type Value[T any] struct {
	files []string
	read  func() (T, error)
	log   *logs.Log

	// What stands below lock is under it.
	lock   sync.Mutex
	value  T
	was    []os.FileInfo
	looked time.Time
}

// New reads files for the first time, by a function that reads them all.
func New[T any](log *logs.Log, read func() (T, error), files ...string) (*Value[T], error) {
	value := &Value[T]{files: files, read: read, log: log, was: infosOf(files), looked: time.Now()}
	var err error
	value.value, err = read()
	if err != nil {
		return nil, err
	}
	return value, nil
}

// Now gives what the files had when they could be read last.
func (v *Value[T]) Now() T {
	v.lock.Lock()
	defer v.lock.Unlock()
	if time.Since(v.looked) < lookAfter {
		return v.value
	}
	v.looked = time.Now()
	infos := infosOf(v.files)
	if areSame(v.was, infos) {
		return v.value
	}
	read, err := v.read()
	if err != nil {
		v.log.Warn("not-read-again", "file", v.files[0], "why", err)
		return v.value
	}
	v.log.Info("read-again", "file", v.files[0])
	v.value, v.was = read, infos
	return v.value
}

// infosOf says what there is of each file. Of one that is not there it is nil.
func infosOf(files []string) []os.FileInfo {
	infos := make([]os.FileInfo, len(files))
	for at, file := range files {
		infos[at], _ = os.Stat(file)
	}
	return infos
}

func areSame(some, others []os.FileInfo) bool {
	for at, one := range some {
		other := others[at]
		if one == nil || other == nil || !os.SameFile(one, other) || one.Size() != other.Size() || !one.ModTime().Equal(other.ModTime()) {
			return false
		}
	}
	return true
}
