// Package etcdtest starts etcd for a test: members of their own, in a temporary folder, at free ports of this computer.
//
// Tests whose leases and calls run out by the clock do not run beside others (t.Parallel).
package etcdtest

import (
	"fmt"
	"math/rand"
	"net"
	"os/exec"
	"path/filepath"
	"strings"
	"sync/atomic"
	"syscall"
	"testing"
	"time"

	"ordup.dev/node/internal/engine"
)

// Members are the members of an engine.
type Members struct {
	t        *testing.T
	folder   string
	cluster  string
	Clients  []string
	peers    []string
	options  []string
	commands []*exec.Cmd
	// Config is how the members are reached.
	Config engine.Config
}

// Start starts members with some options, and stops them at the end of the test. Where there is no etcd the test is skipped.
func Start(t *testing.T, count int, options ...string) *Members {
	t.Helper()
	return StartSecure(t, count, engine.Config{}, options...)
}

// StartSecure starts members that are reached by a TLS of the test.
func StartSecure(t *testing.T, count int, config engine.Config, options ...string) *Members {
	t.Helper()
	if _, err := exec.LookPath("etcd"); err != nil {
		t.Skip("there is no etcd here")
	}
	members := &Members{t: t, folder: t.TempDir(), options: options, Config: config}
	names, scheme := []string{}, "http://"
	if config.TLS != nil {
		scheme = "https://"
	}
	for at := 0; at < count; at++ {
		members.Clients = append(members.Clients, scheme+FreePort(t))
		members.peers = append(members.peers, "http://"+FreePort(t))
		names = append(names, fmt.Sprintf("m%d=%s", at, members.peers[at]))
	}
	members.cluster, members.Config.Members = strings.Join(names, ","), members.Clients
	members.commands = make([]*exec.Cmd, count)
	for at := range members.commands {
		members.Begin(at)
	}
	t.Cleanup(func() {
		for at := range members.commands {
			members.Kill(at)
		}
	})
	members.await()
	return members
}

// FreePort gives an address of this computer at which nobody listens. The system gives none of these ports to who connects somewhere, so
// none is taken before the test listens there.
func FreePort(t *testing.T) string {
	t.Helper()
	for tries := 0; tries < 100; tries++ {
		address := fmt.Sprintf("127.0.0.1:%d", firstPort+ports.Add(1)%mostPorts)
		if listener, err := net.Listen("tcp", address); err == nil {
			listener.Close()
			return address
		}
	}
	t.Fatal("there is no free port")
	return ""
}

// Until waits until something is so. Where it is not so in time, the test fails with what it is told.
func Until(t *testing.T, what string, isSo func() bool) {
	t.Helper()
	for end := time.Now().Add(30 * time.Second); !isSo(); time.Sleep(2 * time.Millisecond) {
		if time.Now().After(end) {
			t.Fatal(what)
		}
	}
}

// Ports are given one after another, from one by chance on. So none is given twice, also before whoever got it listens there.
const firstPort, mostPorts = 10_000, 20_000

var ports atomic.Int64

func init() {
	rand.Seed(time.Now().UnixNano())
	ports.Store(rand.Int63n(mostPorts))
}

// Begin starts a member, with what it has on its disk.
func (m *Members) Begin(at int) {
	m.t.Helper()
	command := exec.Command("etcd", "--name", fmt.Sprintf("m%d", at), "--data-dir", filepath.Join(m.folder, fmt.Sprint(at)),
		"--listen-client-urls", m.Clients[at], "--advertise-client-urls", m.Clients[at],
		"--listen-peer-urls", m.peers[at], "--initial-advertise-peer-urls", m.peers[at],
		"--initial-cluster", m.cluster, "--log-level", "fatal")
	command.Args = append(command.Args, m.options...)
	command.SysProcAttr = &syscall.SysProcAttr{Pdeathsig: syscall.SIGKILL}
	if err := command.Start(); err != nil {
		m.t.Fatal(err)
	}
	m.commands[at] = command
}

// Kill ends a member at once.
func (m *Members) Kill(at int) {
	if command := m.commands[at]; command != nil {
		command.Process.Kill()
		command.Wait()
		m.commands[at] = nil
	}
}

// Signal sends a signal to a member.
func (m *Members) Signal(at int, signal syscall.Signal) {
	m.commands[at].Process.Signal(signal)
}

// Engine gives an engine for all members, which is closed at the end of the test.
func (m *Members) Engine() *engine.Engine {
	opened := engine.Open(m.Config)
	m.t.Cleanup(opened.Close)
	return opened
}

// await waits until the engine answers.
func (m *Members) await() {
	m.t.Helper()
	opened := m.Engine()
	for tries := 0; tries < 100; tries++ {
		if _, _, err := opened.Epoch(m.context()); err == nil {
			return
		}
		time.Sleep(100 * time.Millisecond)
	}
	m.t.Fatal("etcd does not start")
}
