package logs

import (
	"bytes"
	"testing"
	"time"
)

func TestLines(t *testing.T) {
	t.Parallel()
	var lines bytes.Buffer
	log, now := New(&lines), time.Unix(0, 5_000_000)
	log.now = func() time.Time { return now }
	log.Info("took-over", "epoch", 3, "entry", int64(217))
	log.Warn("away", "why", "no route\nto \xff")
	log.Warn("away", "why", "no route\nto \xff")
	now = now.Add(OncePer)
	log.Warn("away", "why", "no route\nto \xff")
	log.Error("ends", "name", "")
	(*Log)(nil).Info("nothing")
	const wants = `1970-01-01T00:00:00.005Z info took-over epoch=3 entry=217
1970-01-01T00:00:00.005Z warn away why="no route\nto \xff"
1970-01-01T00:00:10.005Z warn away why="no route\nto \xff"
1970-01-01T00:00:10.005Z error ends name=""
`
	if lines.String() != wants {
		t.Errorf("%s", lines.String())
	}
	if len(log.said) != 1 {
		t.Errorf("%v", log.said)
	}
}
