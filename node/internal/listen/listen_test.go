package listen_test

import (
	"bufio"
	"bytes"
	"crypto/tls"
	"errors"
	"fmt"
	"io"
	"net"
	"net/http"
	"net/http/httptest"
	"strings"
	"sync"
	"testing"
	"time"

	"ordup.dev/node/internal/listen"
	"ordup.dev/node/internal/logs"
)

// start serves a handler that waits at /wait, and answers what it read.
func start(t *testing.T, most int) (*listen.Server, chan struct{}) {
	t.Helper()
	goOn := make(chan struct{})
	server, err := listen.Start("127.0.0.1:0", nil, most, echo(goOn), nil)
	if err != nil {
		t.Fatal(err)
	}
	t.Cleanup(func() { server.Stop(time.Second) })
	return server, goOn
}

func echo(goOn chan struct{}) http.HandlerFunc {
	return func(to http.ResponseWriter, asked *http.Request) {
		body, err := listen.Body(asked, 10)
		defer listen.Begin(asked)()
		switch {
		case errors.Is(err, listen.ErrTooLarge):
			to.WriteHeader(http.StatusRequestEntityTooLarge)
		case errors.Is(err, listen.ErrTooSlow):
			to.WriteHeader(http.StatusRequestTimeout)
		case err != nil:
			to.WriteHeader(http.StatusBadRequest)
		case asked.URL.Path == "/wait":
			<-goOn
		case asked.URL.Path == "/context":
			<-asked.Context().Done()
		}
		fmt.Fprintf(to, "%s", body)
	}
}

func dial(t *testing.T, server *listen.Server) net.Conn {
	t.Helper()
	connection, err := net.Dial("tcp", server.Address())
	if err != nil {
		t.Fatal(err)
	}
	t.Cleanup(func() { connection.Close() })
	return connection
}

func ask(t *testing.T, server *listen.Server, path, body string) (int, string) {
	t.Helper()
	client := http.Client{Transport: &http.Transport{DisableKeepAlives: true}, Timeout: 20 * time.Second}
	answer, err := client.Post("http://"+server.Address()+path, "", strings.NewReader(body))
	if err != nil {
		t.Error(err)
		return 0, ""
	}
	defer answer.Body.Close()
	text, _ := io.ReadAll(answer.Body)
	return answer.StatusCode, string(text)
}

func TestStillConnectionsMakeRoom(t *testing.T) {
	server, goOn := start(t, 8)
	waits := make(chan int)
	go func() { status, _ := ask(t, server, "/wait", ""); waits <- status }()
	time.Sleep(100 * time.Millisecond)
	for count := 0; count < 200; count++ {
		connection := dial(t, server)
		switch count % 3 {
		case 1:
			fmt.Fprint(connection, "POST / HTTP/1.1\r\nHost")
		case 2:
			fmt.Fprint(connection, "POST / HTTP/1.1\r\nHost: a\r\nContent-Length: 9\r\n\r\nhalf")
		}
	}
	if status, text := ask(t, server, "/", "hello"); status != 200 || text != "hello" {
		t.Error(status, text)
	}
	if count := server.Connections(); count > 8 {
		t.Error(count, "connections")
	}
	// What is under way keeps its connection.
	close(goOn)
	if status := <-waits; status != 200 {
		t.Error(status)
	}
}

func TestABodyHasASizeAndATime(t *testing.T) {
	server, _ := start(t, 8)
	if status, _ := ask(t, server, "/", "01234567890"); status != http.StatusRequestEntityTooLarge {
		t.Error(status)
	}
	// Without its length it is read up to the limit.
	connection := dial(t, server)
	fmt.Fprint(connection, "POST / HTTP/1.1\r\nHost: a\r\nTransfer-Encoding: chunked\r\n\r\n8\r\n01234567\r\n8\r\n01234567\r\n0\r\n\r\n")
	if answer, err := http.ReadResponse(bufio.NewReader(connection), nil); err != nil || answer.StatusCode != http.StatusRequestEntityTooLarge {
		t.Error(answer, err)
	}
}

// Wherever a body stops, it is told from one that is none.
func TestABodyThatStopsIsTooSlow(t *testing.T) {
	plain, _ := start(t, 32)
	own := httptest.NewTLSServer(nil)
	own.Close()
	secure, err := listen.Start("127.0.0.1:0", own.TLS, 32, echo(nil), nil)
	if err != nil {
		t.Fatal(err)
	}
	t.Cleanup(func() { secure.Stop(time.Second) })
	chunked := "Transfer-Encoding: chunked\r\n\r\n"
	var all sync.WaitGroup
	for _, rest := range []string{"Content-Length: 9\r\n\r\n", "Content-Length: 9\r\n\r\nhalf", chunked, chunked + "8", chunked + "8\r\n0123", chunked + "2\r\n01",
		chunked + "2\r\n01\r\n0", chunked + "2\r\n01\r\n0\r\n", chunked + "2\r\n01\r\n0\r\nA: b\r\n"} {
		for _, server := range []*listen.Server{plain, secure} {
			connection := dial(t, server)
			if server == secure {
				connection = tls.Client(connection, &tls.Config{InsecureSkipVerify: true})
			}
			all.Add(1)
			go func(rest string) {
				defer all.Done()
				began := time.Now()
				fmt.Fprint(connection, "POST / HTTP/1.1\r\nHost: a\r\n"+rest)
				answer, err := http.ReadResponse(bufio.NewReader(connection), nil)
				if took := time.Since(began); err != nil || answer.StatusCode != http.StatusRequestTimeout || took < 4*time.Second || took > 8*time.Second {
					t.Errorf("%q: %v %v %v", rest, answer, err, took)
				}
			}(rest)
		}
	}
	all.Wait()
}

func TestAHandlerThatFailsIsTold(t *testing.T) {
	var said bytes.Buffer
	server, err := listen.Start("127.0.0.1:0", nil, 8, http.HandlerFunc(func(http.ResponseWriter, *http.Request) { panic("no way\nout") }), logs.New(&said))
	if err != nil {
		t.Fatal(err)
	}
	if answer, err := http.Get("http://" + server.Address()); err == nil {
		t.Error(answer.StatusCode)
	}
	connection := dial(t, server)
	fmt.Fprint(connection, "nonsense\r\n\r\n")
	io.ReadAll(connection)
	server.Stop(time.Second)
	if text := said.String(); strings.Count(text, "\n") != 1 || !strings.Contains(text, "warn handler-failed why=") {
		t.Error(text)
	}
}

func TestStopWaitsForAnswers(t *testing.T) {
	server, goOn := start(t, 8)
	waits := make(chan int)
	go func() { status, _ := ask(t, server, "/wait", ""); waits <- status }()
	time.Sleep(100 * time.Millisecond)
	stopped := make(chan struct{})
	go func() { server.Stop(5 * time.Second); close(stopped) }()
	time.Sleep(100 * time.Millisecond)
	close(goOn)
	if status := <-waits; status != 200 {
		t.Error(status)
	}
	<-stopped
	// Who waits for something that does not come is answered too.
	other, _ := start(t, 8)
	go func() { status, _ := ask(t, other, "/context", ""); waits <- status }()
	time.Sleep(100 * time.Millisecond)
	began := time.Now()
	other.Stop(6 * time.Second)
	if status, took := <-waits, time.Since(began); status != 200 || took > 5500*time.Millisecond {
		t.Error(status, took)
	}
	if _, err := net.Dial("tcp", server.Address()); err == nil {
		t.Error("it still listens")
	}
	if _, err := listen.Start("127.0.0.1:99999", nil, 1, nil, nil); err == nil {
		t.Error("a port is there that is none")
	}
}
