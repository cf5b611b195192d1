package exit

import (
	"errors"
	"fmt"
	"os"
	"os/signal"
	"regexp"
	"strings"
	"syscall"
	"testing"
	"time"
)

func TestOf(t *testing.T) {
	cause := errors.New("cause")
	for status, err := range map[Status]error{Done: nil, Environment: cause, Gap: fmt.Errorf("around: %w", With(Gap, cause)), NoPlace: With(NoPlace, cause)} {
		if Of(err) != status {
			t.Errorf("%v is %d", err, Of(err))
		}
	}
	if !errors.Is(With(Words, cause), cause) {
		t.Error("the cause is lost")
	}
}

func TestUntilTheProcessIsAskedToEnd(t *testing.T) {
	heard := make(chan os.Signal, 9)
	defer signal.Reset()
	for _, row := range []struct {
		sent            syscall.Signal
		isIgnored, ends bool
	}{{syscall.SIGTERM, false, true}, {syscall.SIGINT, false, true}, {syscall.SIGHUP, false, true}, {syscall.SIGHUP, true, false}} {
		t.Run(fmt.Sprint(row), func(t *testing.T) {
			signal.Notify(heard, row.sent) // Whoever runs the tests may ignore it.
			if row.isIgnored {
				signal.Ignore(row.sent)
			}
			ctx, cancel := Until()
			if err := syscall.Kill(os.Getpid(), row.sent); err != nil {
				t.Fatal(err)
			}
			ends, most := false, 30*time.Second
			if !row.ends {
				most = time.Second
			}
			select {
			case <-ctx.Done():
				ends = true
			case <-time.After(most):
			}
			cancel()
			if ends != row.ends {
				t.Error(row, ends)
			}
		})
	}
}

// The comment of the program has each status with what it means here, and no other one.
func TestTheProgramTellsTheStatuses(t *testing.T) {
	own, err := os.ReadFile("exit.go")
	if err != nil {
		t.Fatal(err)
	}
	program, err := os.ReadFile("../../doc.go")
	if err != nil {
		t.Fatal(err)
	}
	statuses := regexp.MustCompile(`\t// \w+ (?:is|says that) (.*)\.\n\t\w+ Status = (\d)\n`).FindAllStringSubmatch(string(own), -1)
	for _, status := range statuses {
		if !strings.Contains(string(program), "\n//\t"+status[2]+"  "+status[1]) {
			t.Errorf("it does not tell %s: %s", status[2], status[1])
		}
	}
	if rows := regexp.MustCompile(`\n//\t\d  `).FindAllString(string(program), -1); len(rows) != len(statuses) || len(rows) != int(NoPlace)+1 {
		t.Error(len(rows), len(statuses))
	}
}
