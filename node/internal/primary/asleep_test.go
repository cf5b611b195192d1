package primary_test

import (
	"bufio"
	"fmt"
	"io"
	"os"
	"os/exec"
	"path/filepath"
	"strings"
	"syscall"
	"testing"
	"time"

	"ordup.dev/node/internal/site"
)

// sleeps is whether each thread of a process has stopped. One that runs on another processor goes on for a moment after the signal.
func sleeps(t *testing.T, process int) bool {
	t.Helper()
	threads, err := filepath.Glob(fmt.Sprintf("/proc/%d/task/*/stat", process))
	is(t, nil, err)
	for _, thread := range threads {
		text, err := os.ReadFile(thread)
		is(t, nil, err)
		if _, state, _ := strings.Cut(string(text), ") "); !strings.HasPrefix(state, "T") {
			return false
		}
	}
	return len(threads) > 0
}

// A process of a site sleeps while another one takes its lease. As it wakes it tells readers nothing that is too old, at no moment.
func TestASiteThatSlept(t *testing.T) {
	deployment := deploy(t, 1)
	deployment.primary(deployment.config("p1"))
	deployment.site("south", "")
	is(t, "ok acked 1 epoch 1", deployment.ask("ann", 1, "add:tea:-1"))
	sleeper := exec.Command(os.Args[0])
	sleeper.Env = append(os.Environ(), "NODE_AS=reader "+strings.Join(deployment.members.Clients, " "))
	asks, err := sleeper.StdinPipe()
	is(t, nil, err)
	pipe, err := sleeper.StdoutPipe()
	is(t, nil, err)
	is(t, nil, sleeper.Start())
	t.Cleanup(func() { sleeper.Process.Kill(); sleeper.Wait() })
	answers := bufio.NewScanner(pipe)
	read := func() string {
		io.WriteString(asks, "read\n")
		answers.Scan()
		return answers.Text()
	}
	until(t, 10*time.Second, "it does not serve", func() bool { return read() == "place 1" })
	is(t, nil, sleeper.Process.Signal(syscall.SIGSTOP))
	until(t, 10*time.Second, "it goes on", func() bool { return sleeps(t, sleeper.Process.Pid) })
	const waiting = 500
	io.WriteString(asks, strings.Repeat("read\n", waiting))
	other, _ := deployment.site("north", "")
	until(t, 9*time.Second, "the other process does not serve", func() bool { return serves(other) })
	for number := int64(2); number <= 9; number++ {
		is(t, fmt.Sprintf("ok acked %d epoch 1", number), deployment.ask("ann", number, "add:tea:-1"))
	}
	is(t, "epoch 1 place 9 tea=999991", deployment.read(other, site.Seen{Epoch: 1, Place: 9}))
	is(t, nil, sleeper.Process.Signal(syscall.SIGCONT))
	for count := 0; count < waiting && answers.Scan(); count++ {
		if answers.Text() != "nobody" {
			t.Fatalf("a reader is told %s", answers.Text())
		}
	}
	for count := 0; count < 100; count++ {
		is(t, "nobody", read())
		time.Sleep(5 * time.Millisecond)
	}
}
