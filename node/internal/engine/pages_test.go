package engine

import (
	"testing"
	"time"
)

func TestPagesGrowAndShrink(t *testing.T) {
	t.Parallel()
	pages := newPages()
	if count, most := pages.next(); count != 4 || most != CallTime {
		t.Error(count, most)
	}
	for count := 0; count < 20; count++ {
		pages.came(10, 10*25_000, time.Millisecond)
	}
	if count, _ := pages.next(); count != mostPage/25_001 {
		t.Error(count)
	}
	for count := 0; count < 20; count++ {
		pages.failed()
	}
	if count, most := pages.next(); count != 1 || most != mostTime {
		t.Error(count, most)
	}
	pages.came(1, 25_000, 2*CallTime)
	if count, most := pages.next(); count != 1 || most != mostTime {
		t.Error(count, most)
	}
	pages.came(0, 0, time.Millisecond)
	for count := 0; count < 20; count++ {
		pages.came(1000, 1000, time.Millisecond)
	}
	if count, most := pages.next(); count != mostEntries || most != CallTime {
		t.Error(count, most)
	}
}
