//go:build stand_in

package ordup

// Refused memory, and what is closed, with the stand-in of clients/c for the library: go test -tags stand_in -run StandIn

import (
	"runtime"
	"strings"
	"testing"
	"time"
)

func isShort(t *testing.T, taken int, err error) {
	t.Helper()
	if short, isShort := err.(*NoMemory); !isShort || short.Taken != taken {
		t.Errorf("%v instead of %d bytes taken", err, taken)
	}
}

func TestStandInRefusesMemoryAndIsClosed(t *testing.T) {
	store := open(t)
	answers, err := store.Run([]byte("start\nsettle\n"))
	isShort(t, 6, err)
	is(t, "ok start\n", string(answers), nil)
	store.Close()
	store = open(t)
	outcomes, err := store.Commands("start", "settle")
	isShort(t, 6, err)
	is(t, []Answer{Started{}}, outcomes, nil)
	_, err = store.Record("a")
	isShort(t, 0, err)
	if _, err := Check(nil); err != ErrTooLong {
		t.Error(err)
	}
	_, err = CheckSeries(nil)
	isShort(t, 0, err)
	store.Close()
	last := open(t)
	_, err = last.Command("start")
	isShort(t, 0, err)
	counts, err := last.NextDeclarations()
	is(t, "closed 2, given again 0\n", counts, err)
	store, err = Open()
	is(t, nil, nil, err)
	store = nil
	for tries := 0; tries < 1000 && !strings.HasPrefix(counts, "closed 3,"); tries++ {
		runtime.GC()
		time.Sleep(time.Millisecond)
		counts, err = last.NextDeclarations()
	}
	is(t, "closed 3, given again 0\n", counts, err)
}
