package command

import (
	"context"
	"crypto/tls"
	"fmt"
	"net"
	"os"
	"regexp"
	"strings"
	"sync/atomic"
	"time"

	"golang.org/x/sys/unix"

	"ordup.dev/node/internal/client"
	"ordup.dev/node/internal/exit"
	"ordup.dev/node/internal/listen"
	"ordup.dev/node/internal/logs"
	"ordup.dev/node/internal/reload"
	"ordup.dev/node/internal/serve"
	"ordup.dev/node/internal/settings"
)

const (
	// answersTime is how long a process that ends waits for its last answers.
	answersTime = 3 * time.Second
	// beside is how many files a process has open beside its connections.
	beside = 256
)

// servingSettings say where a process listens, and to whom it answers.
type servingSettings struct {
	listen, host                             string
	certificate, key                         string
	clientTokens, siteTokens, operatorTokens string
	connections, requests                    int64
	// listener is where a trial listens for the process. Others have none, and listen at `listen`.
	listener net.Listener
	server   atomic.Pointer[listen.Server]
	// shown is the certificate of this process, or nil.
	shown *reload.Certificate
	guard serve.Guard
}

func (s *servingSettings) add(set *settings.Set, usual string) {
	name, _ := os.Hostname()
	set.Text(&s.listen, "listen", usual, "`HOST:PORT` to listen at")
	set.Text(&s.host, "host", regexp.MustCompile(`[^A-Za-z0-9._-]`).ReplaceAllString(name, "-"), "`NAME` of this host among those of the deployment")
	set.Text(&s.certificate, "certificate", "", "`FILE` in PEM with the certificate of this process: so it listens with TLS")
	set.Text(&s.key, "key", "", "`FILE` in PEM with the key of this certificate")
	set.Text(&s.clientTokens, "client-tokens", "", "`FILE` with the tokens of clients and readers, one a line, or open for anybody")
	set.Text(&s.siteTokens, "site-tokens", "", "`FILE` with the tokens of sites and fleets, maybe each with the site that it is of, or open")
	set.Text(&s.operatorTokens, "operator-tokens", "", "`FILE` with the tokens of operators, or open")
	set.Number(&s.connections, "connections", 10_000, 16, 1_000_000, "`NUMBER` of connections at most")
	set.Number(&s.requests, "requests", 5_000, 1, 1_000_000, "`NUMBER` of requests under way at most")
}

// isSecure is whether the process listens with TLS.
func (s *servingSettings) isSecure() bool { return s.certificate != "" || s.key != "" }

func (s *servingSettings) secure(log *logs.Log) (config *tls.Config, err error) {
	if !s.isSecure() {
		return nil, nil
	}
	if s.shown, err = reload.Pair(s.certificate, s.key, log); err != nil {
		return nil, fmt.Errorf("certificate and key: %w", err)
	}
	return &tls.Config{MinVersion: tls.VersionTLS12,
		GetCertificate: func(*tls.ClientHelloInfo) (*tls.Certificate, error) { return s.shown.Now(), nil }}, nil
}

// certificates gives until when those are good that the process shows to who asks it and to the engine, by their files. It is asked once
// the process listens.
func certificates(serving *servingSettings, engine *engineSettings) func() map[string]time.Time {
	return func() map[string]time.Time {
		until := map[string]time.Time{}
		for _, shown := range []*reload.Certificate{serving.shown, engine.shown} {
			if shown != nil {
				until[shown.File] = shown.Expires()
			}
		}
		return until
	}
}

// check looks at the settings, before the process does anything.
func (s *servingSettings) check(log *logs.Log) error {
	s.guard.Log = log
	if _, _, err := net.SplitHostPort(s.listen); err != nil {
		return wrong("listen: %.80q is not HOST:PORT", s.listen)
	}
	for _, each := range []struct {
		role serve.Role
		file string
	}{{serve.Clients, s.clientTokens}, {serve.Sites, s.siteTokens}, {serve.Operators, s.operatorTokens}} {
		if each.file == "" {
			continue
		}
		if err := s.guard.Load(each.role, each.file); err != nil {
			return fmt.Errorf("tokens: %w", err)
		}
	}
	log.Info("who-may-ask", "clients", s.guard.Asks(serve.Clients), "sites", s.guard.Asks(serve.Sites),
		"operators", s.guard.Asks(serve.Operators))
	return nil
}

// address is where others reach the process, by a setting or by where it listens.
func (s *servingSettings) address(given string) (string, error) {
	if given != "" {
		if !client.IsAddress(given) || strings.HasPrefix(given, "https://") != s.isSecure() {
			return "", wrong("address: %.80q is no address as http://10.0.0.1:7002, or https:// where there is a certificate", given)
		}
		return given, nil
	}
	host, _, _ := net.SplitHostPort(s.listen)
	if ip := net.ParseIP(host); host == "" || ip != nil && ip.IsUnspecified() {
		return "", wrong("address: say where others reach this process, since it listens at %s", s.listen)
	}
	scheme := "http://"
	if s.isSecure() {
		scheme = "https://"
	}
	return scheme + s.listen, nil
}

// open is how many connections there are.
func (s *servingSettings) open() int {
	if server := s.server.Load(); server != nil {
		return server.Connections()
	}
	return 0
}

// most is how many connections there may be: fewer than the system allows files.
func (s *servingSettings) most() int {
	var files unix.Rlimit
	if unix.Getrlimit(unix.RLIMIT_NOFILE, &files) == nil && files.Max < uint64(s.connections)+beside && files.Max > 2*beside {
		return int(files.Max - beside)
	}
	return int(s.connections)
}

// mostRequests is how many requests may be under way: at most on half of the connections, so that there are others which can make room.
func (s *servingSettings) mostRequests() int {
	if half := s.most() / 2; half < int(s.requests) {
		return half
	}
	return int(s.requests)
}

// run listens, and runs the process until the context ends or the process does. Then what is under way is answered.
func (s *servingSettings) run(ctx context.Context, log *logs.Log, handler serve.Handler, run func(context.Context) error) error {
	secure, err := s.secure(log)
	if err != nil {
		return err
	}
	var server *listen.Server
	if s.listener != nil {
		server = listen.On(s.listener, secure, s.most(), handler, log)
	} else if server, err = listen.Start(s.listen, secure, s.most(), handler, log); err != nil {
		return exit.With(exit.Environment, err)
	}
	s.server.Store(server)
	log.Info("listens", "address", server.Address(), "tls", s.isSecure(), "connections", s.most())
	running, stop := context.WithCancel(ctx)
	defer stop()
	ended := make(chan error, 1)
	go func() { ended <- run(running) }()
	told := make(chan struct{})
	go func() {
		defer close(told)
		<-running.Done()
		handler.End()
		tellSystemd("STOPPING=1")
	}()
	go goOn(running, handler.Look)
	tellSystemd("READY=1")
	select {
	case err = <-ended:
	case failure := <-server.Ended():
		stop()
		<-ended
		err = fmt.Errorf("it cannot listen any more: %w", failure)
	}
	stop()
	<-told
	server.Stop(answersTime)
	if err == nil {
		log.Info("ended")
	}
	return err
}
