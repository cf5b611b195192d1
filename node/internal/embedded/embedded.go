// Package embedded has an etcd of one member in this process, for trial and tests alone: one disk has all that it keeps.
package embedded

import (
	"context"
	"fmt"
	"net/url"
	"os"
	"path/filepath"
	"time"

	"go.etcd.io/etcd/embed"
	"go.uber.org/zap"
	"go.uber.org/zap/zapcore"
	"golang.org/x/sys/unix"
)

// startTime is how long a member may take until it is ready.
const startTime = 30 * time.Second

// A Member is an etcd that runs. It listens on this computer alone.
type Member struct {
	etcd *embed.Etcd
	lock *os.File
}

// Start starts the member whose data lie in a folder, or a new one. Of what it logs only why it cannot go on is told, on standard error.
func Start(ctx context.Context, folder string) (*Member, error) {
	lock, err := lockOf(folder)
	if err != nil {
		return nil, err
	}
	config := embed.NewConfig()
	config.Dir = filepath.Join(folder, "member")
	config.Logger = "zap"
	told := zapcore.Lock(os.Stderr)
	core := zapcore.NewCore(zapcore.NewConsoleEncoder(zap.NewProductionEncoderConfig()), told, zap.PanicLevel)
	config.ZapLoggerBuilder = embed.NewZapCoreLoggerBuilder(zap.New(core), core, told)
	// The system chooses the ports. Nobody asks a member for its address, since there is no other one.
	free := []url.URL{{Scheme: "http", Host: "127.0.0.1:0"}}
	config.LPUrls, config.APUrls, config.LCUrls, config.ACUrls = free, free, free, free
	config.InitialCluster = config.InitialClusterFromName(config.Name)
	etcd, err := embed.StartEtcd(config)
	if err != nil {
		lock.Close()
		return nil, fmt.Errorf("the engine does not start: %w", err)
	}
	started := &Member{etcd, lock}
	ctx, cancel := context.WithTimeout(ctx, startTime)
	defer cancel()
	select {
	case <-etcd.Server.ReadyNotify():
		return started, nil
	case err = <-etcd.Err():
	case <-ctx.Done():
		err = ctx.Err()
	}
	started.Stop()
	return nil, fmt.Errorf("the engine does not start: %w", err)
}

// lockOf locks a folder, which it makes where there is none, for one process. etcd itself would wait for the other one.
func lockOf(folder string) (*os.File, error) {
	if err := os.MkdirAll(folder, 0o700); err != nil {
		return nil, err
	}
	lock, err := os.Open(folder)
	if err != nil {
		return nil, err
	}
	if err = unix.Flock(int(lock.Fd()), unix.LOCK_EX|unix.LOCK_NB); err != nil {
		lock.Close()
		return nil, fmt.Errorf("%s is of another process: %w", folder, err)
	}
	return lock, nil
}

// Address is where the member answers.
func (m *Member) Address() string { return "http://" + m.etcd.Clients[0].Addr().String() }

// Ended tells why the member ended by itself.
func (m *Member) Ended() <-chan error { return m.etcd.Err() }

// Stop ends the member, once its clients have ended.
func (m *Member) Stop() {
	m.etcd.Close()
	m.lock.Close()
}
