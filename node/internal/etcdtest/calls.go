package etcdtest

import (
	"context"
	"errors"
	"io"
	"net"
	"strings"
	"sync"
	"testing"

	"google.golang.org/grpc"
	"google.golang.org/grpc/codes"
	"google.golang.org/grpc/metadata"
	"google.golang.org/grpc/status"

	"ordup.dev/node/internal/engine"
)

// A Call is a message of a process to a member: the method, as `/etcdserverpb.KV/Range`, and what is asked.
type Call struct {
	Method string
	Asked  []byte
}

// A Fate is what becomes of a call.
type Fate int

// The fates.
const (
	// Passes has the member asked, and the process answered.
	Passes Fate = iota
	// Fails has the process told at once that the member is away. That is not asked.
	Fails
	// Waits has the call lie on the way until Arrive. Nobody hears of its answer.
	Waits
	// Silent has the member asked, and the answer lost.
	Silent
)

// Calls carry what a process asks of the first member call by call, where a Link carries bytes.
type Calls struct {
	member  *grpc.ClientConn
	address string
	lock    sync.Mutex
	judge   func(Call) Fate
	waiting []func()
}

// Calls gives calls that all pass. They end with the test.
func (m *Members) Calls() *Calls {
	m.t.Helper()
	member, err := grpc.Dial(strings.TrimPrefix(m.Clients[0], "http://"), grpc.WithInsecure(),
		grpc.WithDefaultCallOptions(grpc.ForceCodec(raw{})))
	if err != nil {
		m.t.Fatal(err)
	}
	listener, err := net.Listen("tcp", "127.0.0.1:0")
	if err != nil {
		m.t.Fatal(err)
	}
	calls := &Calls{member: member, address: "http://" + listener.Addr().String(), judge: func(Call) Fate { return Passes }}
	//lint:ignore SA1019 A codec that is registered would be that of the whole process.
	server := grpc.NewServer(grpc.CustomCodec(raw{}), grpc.UnknownServiceHandler(calls.carry))
	go server.Serve(listener)
	m.t.Cleanup(func() { server.Stop(); member.Close() })
	return calls
}

// Engine gives an engine that asks by the calls, which is closed at the end of the test.
func (c *Calls) Engine(t *testing.T) *engine.Engine {
	opened := engine.Open(engine.Config{Members: []string{c.address}})
	t.Cleanup(opened.Close)
	return opened
}

// Judge has a function say what becomes of each call from now on. It is also asked for each answer, with nothing asked, and that comes to
// the process if it passes.
func (c *Calls) Judge(judge func(Call) Fate) {
	c.lock.Lock()
	defer c.lock.Unlock()
	c.judge = judge
}

// Waiting is how many calls lie on the way.
func (c *Calls) Waiting() int {
	c.lock.Lock()
	defer c.lock.Unlock()
	return len(c.waiting)
}

// Arrive has the calls that lie on the way come to the member. It returns once they are done.
func (c *Calls) Arrive() {
	c.lock.Lock()
	defer c.lock.Unlock()
	for _, arrive := range c.waiting {
		arrive()
	}
	c.waiting = nil
}

// fate is what becomes of a call. One that waits is kept.
func (c *Calls) fate(call Call, arrive func()) Fate {
	c.lock.Lock()
	judge := c.judge
	c.lock.Unlock()
	fate := judge(call)
	if fate == Waits && arrive != nil {
		c.lock.Lock()
		defer c.lock.Unlock()
		c.waiting = append(c.waiting, arrive)
	}
	return fate
}

// carry carries one stream of calls, which has one call where the method has one answer.
func (c *Calls) carry(_ any, near grpc.ServerStream) error {
	method, _ := grpc.MethodFromServerStream(near)
	asked, _ := metadata.FromIncomingContext(near.Context())
	ctx, cancel := context.WithCancel(metadata.NewOutgoingContext(near.Context(), asked))
	defer cancel()
	far, err := c.stream(ctx, method)
	if err != nil {
		return err
	}
	failed := make(chan error, 1)
	go func() {
		if err := c.ask(method, near, far); err != nil {
			failed <- err
			cancel()
		}
	}()
	err = c.answer(method, near, far)
	select {
	case err = <-failed:
	default:
	}
	return err
}

func (c *Calls) stream(ctx context.Context, method string) (grpc.ClientStream, error) {
	return c.member.NewStream(ctx, &grpc.StreamDesc{StreamName: method, ServerStreams: true, ClientStreams: true}, method)
}

// ask carries what a process asks. An error fails the stream.
func (c *Calls) ask(method string, near grpc.ServerStream, far grpc.ClientStream) error {
	for {
		var asked []byte
		if near.RecvMsg(&asked) != nil {
			far.CloseSend()
			return nil
		}
		switch c.fate(Call{method, asked}, func() { c.arrive(method, asked) }) {
		case Fails:
			return status.Error(codes.Unavailable, "the test fails this call")
		case Waits:
			<-near.Context().Done()
			return nil
		}
		if err := far.SendMsg(&asked); err != nil {
			return nil
		}
	}
}

// arrive asks the member, long after the process did.
func (c *Calls) arrive(method string, asked []byte) {
	var answer []byte
	if far, err := c.stream(context.Background(), method); err == nil && far.SendMsg(&asked) == nil {
		far.CloseSend()
		far.RecvMsg(&answer)
	}
}

// answer carries what the member answers, to the end of the stream.
func (c *Calls) answer(method string, near grpc.ServerStream, far grpc.ClientStream) error {
	for {
		var answer []byte
		err := far.RecvMsg(&answer)
		if errors.Is(err, io.EOF) {
			return nil
		}
		if err != nil {
			return err
		}
		if c.fate(Call{Method: method}, nil) != Passes {
			continue
		}
		if err = near.SendMsg(&answer); err != nil {
			return err
		}
	}
}

// raw has messages as they travel.
type raw struct{}

func (raw) Marshal(message any) ([]byte, error) { return *message.(*[]byte), nil }

func (raw) Unmarshal(text []byte, message any) error {
	*message.(*[]byte) = append([]byte{}, text...)
	return nil
}

func (raw) Name() string   { return "proto" }
func (raw) String() string { return "proto" }
