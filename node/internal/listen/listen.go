// Package listen has a server of HTTP for whoever comes: so many connections, and times for all that they send and take.
//
// A handler reads the body by Body and then calls Begin. Until then the connection may be closed for another one. What a handler did not
// read is passed over, up to a bound, before its answer goes out: most clients look at no answer before they have sent all.
package listen

import (
	"bytes"
	"context"
	"crypto/tls"
	"errors"
	"io"
	"log"
	"net"
	"net/http"
	"time"

	"ordup.dev/node/internal/logs"
)

const (
	// headerTime is how long a request may take up to its body, bodyTime its body, and answerTime its answer.
	headerTime, bodyTime, answerTime = 5 * time.Second, 5 * time.Second, 10 * time.Second
	// idleTime is how long a connection is kept on which nothing is asked.
	idleTime = 2 * time.Minute
	// dropTime is for how long a body that is refused is passed over at most, and mostDropped how many bytes of it.
	dropTime, mostDropped = 2 * time.Second, 4 << 20
	// mostHeader is how many bytes the header of a request may have, beside some that are of Go.
	mostHeader = 8 << 10
)

// Why a body is not read.
var (
	ErrTooLarge = errors.New("the body is too large")
	ErrTooSlow  = errors.New("the body did not come in time")
)

// A Server serves one handler at one address.
type Server struct {
	crowd  *crowd
	server *http.Server
	ended  chan error
	// Hasten ends the contexts of all requests.
	hasten context.CancelFunc
}

type memberKey struct{}

// Start serves at an address, with TLS or without, and at most so many connections.
func Start(address string, secure *tls.Config, most int, handler http.Handler, events *logs.Log) (*Server, error) {
	listener, err := net.Listen("tcp", address)
	if err != nil {
		return nil, err
	}
	return On(listener, secure, most, handler, events), nil
}

// On serves so at an address that is listened at already.
func On(listener net.Listener, secure *tls.Config, most int, handler http.Handler, events *logs.Log) *Server {
	// Requests go on while the process ends, until Stop hastens them.
	all, cancel := context.WithCancel(context.Background())
	server := &Server{crowd: &crowd{Listener: listener, most: most}, ended: make(chan error, 1), hasten: cancel}
	server.server = &http.Server{
		Handler: dropping(handler), ReadHeaderTimeout: headerTime, IdleTimeout: idleTime, MaxHeaderBytes: mostHeader, TLSConfig: secure,
		// Without HTTP/2 a connection has one request under way, and no more.
		TLSNextProto: map[string]func(*http.Server, *tls.Conn, http.Handler){},
		ErrorLog:     log.New(faults{events}, "", 0),
		BaseContext:  func(net.Listener) context.Context { return all },
		ConnContext: func(ctx context.Context, connection net.Conn) context.Context {
			if secured, isSecured := connection.(*tls.Conn); isSecured {
				connection = secured.NetConn()
			}
			return context.WithValue(ctx, memberKey{}, connection)
		},
	}
	go func() {
		if secure != nil {
			server.ended <- server.server.ServeTLS(server.crowd, "", "")
		} else {
			server.ended <- server.server.Serve(server.crowd)
		}
	}()
	return server
}

// Address is where the server listens.
func (s *Server) Address() string { return s.crowd.Addr().String() }

// Connections is how many connections there are.
func (s *Server) Connections() int { return s.crowd.size() }

// Ended tells why the server ended by itself.
func (s *Server) Ended() <-chan error { return s.ended }

// Stop takes no more requests, and waits so long for the answers of those that are under way. After half of that their contexts end, so
// that they answer that there is no answer yet.
func (s *Server) Stop(most time.Duration) {
	// It is called once the process ends, so no context of a caller is left.
	ctx, cancel := context.WithTimeout(context.Background(), most)
	defer cancel()
	defer s.hasten()
	defer time.AfterFunc(most/2, s.hasten).Stop()
	if s.server.Shutdown(ctx) != nil {
		s.server.Close()
	}
}

// Body reads the body of a request, of at most so many bytes, in time. After an error what is left of it has no more time.
func Body(asked *http.Request, most int) (body []byte, err error) {
	if asked.ContentLength > int64(most) {
		return nil, ErrTooLarge
	}
	end := time.Now().Add(bodyTime)
	if member, isMember := asked.Context().Value(memberKey{}).(*member); isMember {
		member.body = begun
		member.SetReadDeadline(end)
		defer func() {
			if err != ErrTooLarge {
				member.body = over
			}
			if err == nil {
				member.SetReadDeadline(time.Time{})
			}
		}()
	}
	body, err = io.ReadAll(io.LimitReader(asked.Body, int64(most)+1))
	switch {
	case err != nil && !time.Now().Before(end): // Where a trailer stops, the error does not say that it was the time.
		return nil, ErrTooSlow
	case err != nil:
		return nil, err
	case len(body) > most:
		return nil, ErrTooLarge
	}
	return body, nil
}

// dropping passes over what a handler did not read. Who asks first whether to send a body has sent none where it was not read.
func dropping(handler http.Handler) http.Handler {
	return http.HandlerFunc(func(to http.ResponseWriter, asked *http.Request) {
		member, isMember := asked.Context().Value(memberKey{}).(*member)
		if !isMember || asked.ContentLength == 0 {
			handler.ServeHTTP(to, asked)
			return
		}
		member.body = unread
		handler.ServeHTTP(to, asked)
		if member.body == begun || member.body == unread && asked.Header.Get("Expect") == "" {
			member.SetReadDeadline(time.Now().Add(dropTime))
			io.CopyN(io.Discard, asked.Body, mostDropped)
		}
	})
}

// Hurry gives what is left of a request some time, and no more. A body that is not read is passed over in that time.
func Hurry(asked *http.Request) {
	if member, isMember := asked.Context().Value(memberKey{}).(*member); isMember {
		member.SetReadDeadline(time.Now().Add(bodyTime))
	}
}

// Begin says that the request is read and is worked on, up to the call that it returns. The answer has some time from either call on.
func Begin(asked *http.Request) (end func()) {
	member, isMember := asked.Context().Value(memberKey{}).(*member)
	if !isMember {
		return func() {}
	}
	member.begin()
	member.SetWriteDeadline(time.Now().Add(answerTime))
	return func() {
		member.SetWriteDeadline(time.Now().Add(answerTime))
		member.end()
	}
}

// faults tells of a handler that failed. What else a server has to say is of connections from outside, which are no events.
type faults struct{ log *logs.Log }

func (f faults) Write(text []byte) (int, error) {
	if line, _, _ := bytes.Cut(text, []byte("\n")); bytes.Contains(line, []byte("panic")) {
		f.log.Warn("handler-failed", "why", string(line))
	}
	return len(text), nil
}
