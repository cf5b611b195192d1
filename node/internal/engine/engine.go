// Package engine is the way to etcd, which keeps the script. No other package knows it.
//
// An Engine asks one member at a time, with a deadline. A member that fails a call is left for the next one: whether it is down, slow
// or in a minority cannot be told from outside, and any other will do. An AwayError says so, and the caller tries again. All that
// decides (who writes, who serves, whether an entry is written) is a transaction or a read of a majority, and never a watch.
package engine

import (
	"context"
	"crypto/tls"
	"sync"
	"sync/atomic"
	"time"

	"go.etcd.io/etcd/clientv3"
	"go.uber.org/zap"
	"google.golang.org/grpc"
)

const (
	// CallTime is how long a call may take before its member is left.
	CallTime = 3 * time.Second
	// keepAlive is after how long a link that carries nothing is asked, and given up.
	keepAlive = 2 * time.Second
	// mostReceived is how many bytes a message of a member may have, and mostSent how many one to it.
	mostReceived, mostSent = 64 << 20, 2 << 20
)

// A Config says where the engine is.
type Config struct {
	// Members are the addresses of the members, as http://10.0.0.1:2379.
	Members []string
	// TLS is nil where the members have none.
	TLS *tls.Config
	// User and Password are empty where the engine has no users.
	User, Password string
}

// An Engine asks members of the engine. Goroutines may share it, but a call that fails ends those of others: whoever must not wait
// for that has one of its own.
type Engine struct {
	config   Config
	failures atomic.Int64
	// Under a lock of their own.
	pages pages

	// What stands below lock is under it: the member that is asked now, and its client.
	lock   sync.Mutex
	at     int
	client *clientv3.Client
	closed bool
}

// Open gives an engine, which connects when it is asked.
func Open(config Config) *Engine { return &Engine{config: config, pages: newPages()} }

// Apart gives another one for the same members, with a connection of its own.
func (e *Engine) Apart() *Engine {
	apart := Open(e.config)
	e.lock.Lock()
	defer e.lock.Unlock()
	apart.at = e.at
	return apart
}

// Failures is how many calls members have failed.
func (e *Engine) Failures() int64 { return e.failures.Load() }

// Close ends the connection, and with it all calls.
func (e *Engine) Close() {
	e.lock.Lock()
	defer e.lock.Unlock()
	e.closed = true
	if e.client != nil {
		e.client.Close()
		e.client = nil
	}
}

// connected gives the client of the member that is asked now.
func (e *Engine) connected() (*clientv3.Client, string, error) {
	e.lock.Lock()
	defer e.lock.Unlock()
	member := e.config.Members[e.at]
	if e.closed {
		return nil, member, context.Canceled
	}
	if e.client == nil {
		client, err := clientv3.New(e.settings(member))
		if err != nil {
			return nil, member, err
		}
		e.client = client
	}
	return e.client, member, nil
}

// settings are those of a client. It asks once, and writes no log: what failed is told by the error.
func (e *Engine) settings(member string) clientv3.Config {
	quiet := zap.NewProductionConfig()
	quiet.Level, quiet.OutputPaths, quiet.ErrorOutputPaths = zap.NewAtomicLevelAt(zap.FatalLevel), nil, nil
	once := func(ctx context.Context, method string, asked, reply any, to *grpc.ClientConn, ask grpc.UnaryInvoker,
		options ...grpc.CallOption) error {
		return ask(ctx, method, asked, reply, to, options...)
	}
	return clientv3.Config{
		Endpoints: []string{member}, TLS: e.config.TLS, Username: e.config.User, Password: e.config.Password,
		DialTimeout: CallTime, DialKeepAliveTime: keepAlive, DialKeepAliveTimeout: keepAlive, PermitWithoutStream: true,
		MaxCallRecvMsgSize: mostReceived, MaxCallSendMsgSize: mostSent, LogConfig: &quiet,
		DialOptions: []grpc.DialOption{grpc.WithUnaryInterceptor(once)},
	}
}

// call asks the member. Where it fails, the next call goes to the next one. Where the context of the caller ends, that is the error.
func (e *Engine) call(ctx context.Context, most time.Duration, ask func(context.Context, *clientv3.Client) error) error {
	client, member, err := e.connected()
	if err == nil {
		limited, cancel := context.WithTimeout(clientv3.WithRequireLeader(ctx), most)
		defer cancel()
		err = ask(limited, client)
	}
	switch {
	case err == nil:
		return nil
	case ctx.Err() != nil:
		return ctx.Err()
	}
	err = errorOf(member, err)
	if IsAway(err) && !IsFull(err) {
		e.leave(client)
	}
	return err
}

// leave goes on to the next member, if nobody did so since this client was asked.
func (e *Engine) leave(client *clientv3.Client) {
	e.failures.Add(1)
	e.lock.Lock()
	defer e.lock.Unlock()
	if e.client != client || e.closed {
		return
	}
	if client != nil {
		go client.Close()
	}
	e.client, e.at = nil, (e.at+1)%len(e.config.Members)
}
