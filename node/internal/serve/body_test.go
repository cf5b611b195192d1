package serve_test

import (
	"bufio"
	"fmt"
	"io"
	"net"
	"net/http"
	"os"
	"os/exec"
	"path/filepath"
	"strings"
	"testing"
	"time"

	"ordup.dev/node/internal/script"
	"ordup.dev/node/internal/serve"
)

// sent is what a client reads that sends all first, and then reads. Most clients look at no answer where they cannot send.
func sent(t *testing.T, address string, send func(net.Conn) error) (int, string) {
	t.Helper()
	connection, err := net.Dial("tcp", strings.TrimPrefix(address, "http://"))
	if err != nil {
		t.Fatal(err)
	}
	defer connection.Close()
	connection.(*net.TCPConn).SetWriteBuffer(200 << 10) // It is not the system that takes the whole body.
	connection.SetDeadline(time.Now().Add(20 * time.Second))
	if err = send(connection); err != nil {
		return 0, err.Error()
	}
	answer, err := http.ReadResponse(bufio.NewReader(connection), nil)
	if err != nil {
		return 0, err.Error()
	}
	text, _ := io.ReadAll(answer.Body)
	return answer.StatusCode, string(text)
}

func startWithTokens(t *testing.T, writer *writer) string {
	guard := &serve.Guard{}
	for role, file := range map[serve.Role]string{serve.Clients: serve.Open, serve.Sites: tokens(t, "site-token-00001\n"), serve.Operators: serve.Open} {
		if err := guard.Load(role, file); err != nil {
			t.Fatal(err)
		}
	}
	return startPrimary(t, guard, writer)
}

const large, isJSON = 2_000_000, "Content-Type: application/json\r\n"

func TestWhoSendsALargeBodyReadsWhyItIsRefused(t *testing.T) {
	writer := &writer{answer: script.Answer{Place: 1, Epoch: 1}}
	address := startWithTokens(t, writer)
	body := strings.Repeat("x", large)
	whole := func(line string) func(net.Conn) error {
		return func(to net.Conn) error {
			_, err := fmt.Fprintf(to, "%s HTTP/1.1\r\nHost: a\r\n"+isJSON+"Content-Length: %d\r\n\r\n%s", line, large, body)
			return err
		}
	}
	chunked := func(to net.Conn) error {
		chunks := strings.Repeat("3e8\r\n"+body[:1000]+"\r\n", large/1000)
		_, err := fmt.Fprintf(to, "POST /update HTTP/1.1\r\nHost: a\r\n"+isJSON+"Transfer-Encoding: chunked\r\n\r\n%s0\r\n\r\n", chunks)
		return err
	}
	for _, row := range []struct {
		what   string
		send   func(net.Conn) error
		status int
		want   string
	}{
		{"an update", whole("POST /update"), 413, `{"error":"TooLarge"`},
		{"the next epoch", whole("POST /next"), 413, `{"error":"TooLarge"`},
		{"in chunks", chunked, 413, `{"error":"TooLarge"`},
		{"no JSON", func(to net.Conn) error {
			_, err := fmt.Fprintf(to, "POST /update HTTP/1.1\r\nHost: a\r\nContent-Length: %d\r\n\r\n%s", large, body)
			return err
		}, 415, `{"error":"NotJSON"`},
		{"no token", whole("POST /place"), 401, `{"error":"NoToken"`},
		{"another method", whole("PUT /update"), 405, `{"error":"NoSuchMethod"`},
		{"a look", whole("GET /metrics"), 404, "404"},
		{"no path", whole("POST /nowhere"), 405, `{"error":"NoSuchMethod"`},
		{"an epoch", whole("GET /epoch"), 413, `{"error":"TooLarge"`},
	} {
		t.Run(row.what, func(t *testing.T) {
			status, text := sent(t, address, row.send)
			is(t, row.what, status, text, row.status, row.want)
		})
	}
	if len(writer.asked)+len(writer.wishes)+len(writer.places) > 0 {
		t.Error(writer.asked, writer.wishes, writer.places)
	}
}

// Who asks whether to send a body is told before, and sends nothing. In chunks nobody knows how much it will be.
func TestWhoAsksBeforeTheBodyIsToldBefore(t *testing.T) {
	address := startPrimary(t, nil, &writer{})
	head := "POST /update HTTP/1.1\r\nHost: a\r\n" + isJSON + "Expect: 100-continue\r\n"
	began := time.Now()
	status, text := sent(t, address, func(to net.Conn) error {
		_, err := fmt.Fprintf(to, "%sContent-Length: %d\r\n\r\n", head, large)
		return err
	})
	is(t, "its length is known", status, text, 413, `{"error":"TooLarge"`)
	if took := time.Since(began); took > time.Second {
		t.Error(took)
	}
	status, text = sent(t, address, func(to net.Conn) error {
		fmt.Fprint(to, head+"Transfer-Encoding: chunked\r\n\r\n")
		if line, err := bufio.NewReader(to).ReadString('\n'); err != nil || !strings.Contains(line, " 100 ") {
			t.Error(line, err)
		}
		_, err := fmt.Fprintf(to, "%x\r\n%s\r\n0\r\n\r\n", large, strings.Repeat("x", large))
		return err
	})
	is(t, "in a chunk", status, text, 413, `{"error":"TooLarge"`)
	curl, err := exec.LookPath("curl")
	if err != nil {
		t.Skip("there is no curl here")
	}
	file := filepath.Join(t.TempDir(), "large")
	if err := os.WriteFile(file, make([]byte, large), 0o600); err != nil {
		t.Fatal(err)
	}
	for _, more := range [][]string{nil, {"-H", "Expect:"}, {"-H", "Expect: 100-continue"}, {"-H", "Transfer-Encoding: chunked"}} {
		words := append([]string{"-sS", "-H", "Content-Type: application/json", "--data-binary", "@" + file, "-w", "%{http_code}", address + "/update"}, more...)
		said, err := exec.Command(curl, words...).CombinedOutput()
		if text := string(said); err != nil || !strings.HasPrefix(text, `{"error":"TooLarge"`) || !strings.HasSuffix(text, "413") {
			t.Error(more, text, err)
		}
	}
}

// A body that has no end is read no longer than two seconds, and one that is slow or cut has its answer.
func TestABodyWithoutAnEnd(t *testing.T) {
	writer := &writer{answer: script.Answer{Place: 1, Epoch: 1}}
	address := startPrimary(t, nil, writer)
	for _, pause := range []time.Duration{0, 10 * time.Millisecond} {
		pause := pause
		began := time.Now()
		status, text := sent(t, address, func(to net.Conn) error {
			_, err := fmt.Fprintf(to, "POST /update HTTP/1.1\r\nHost: a\r\n"+isJSON+"Content-Length: %d\r\n\r\n", int64(1)<<40)
			go func() {
				for failure := err; failure == nil; time.Sleep(pause) {
					_, failure = to.Write(make([]byte, 1000))
				}
			}()
			return err
		})
		is(t, "no end", status, text, 413, `{"error":"TooLarge"`)
		if took := time.Since(began); took > 3*time.Second {
			t.Error(took)
		}
	}
	slow := func(to net.Conn) error {
		_, err := fmt.Fprintf(to, "POST /update HTTP/1.1\r\nHost: a\r\n"+isJSON+"Content-Length: 90\r\n\r\n%s", good[:40])
		return err
	}
	status, text := sent(t, address, slow)
	is(t, "slow", status, text, 408, `{"error":"TooSlow"`)
	status, text = sent(t, address, func(to net.Conn) error {
		slow(to)
		return to.(*net.TCPConn).CloseWrite()
	})
	is(t, "cut", status, text, 400, `{"error":"Malformed"`)
	if len(writer.asked) > 0 {
		t.Error(writer.asked)
	}
}
