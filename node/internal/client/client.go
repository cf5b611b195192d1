// Package client asks primaries and sites by HTTP: at one of several addresses, and again at the next one where it gets no answer.
//
// A primary that does not write passes a request on, and names the one that does, which is asked from then on. An update is asked again
// under its number until there is an answer: it is done once.
package client

import (
	"bytes"
	"context"
	"crypto/tls"
	"encoding/json"
	"errors"
	"fmt"
	"io"
	"net"
	"net/http"
	"strings"
	"sync"
	"time"

	"ordup.dev/node/internal/exit"
	"ordup.dev/node/internal/wire"
)

const (
	// tryWait is how long a server is asked to wait for an answer, and tryTime how long a try takes until the next address is asked.
	tryWait, tryTime = 4 * time.Second, 6 * time.Second
	// connectTime is how long a connection may take.
	connectTime = 2 * time.Second
	// leastPause and mostPause are how long the client waits after each address has failed once, at first and later.
	leastPause, mostPause = 50 * time.Millisecond, time.Second
)

// A Config says who is asked, and how.
type Config struct {
	// Addresses are as http://10.0.0.1:7002.
	Addresses []string
	// Token gives the own token, or is nil.
	Token func() string
	TLS   *tls.Config
}

// A Client asks. Goroutines may share it.
type Client struct {
	config Config
	http   *http.Client

	// What stands below lock is under it.
	lock sync.Mutex
	// Who is asked first: one of the addresses, or the one that an answer named.
	at    int
	named string
}

// New gives a client.
func New(config Config) (*Client, error) {
	for _, address := range config.Addresses {
		if !IsAddress(address) {
			return nil, exit.With(exit.Words, fmt.Errorf("%q is no address as http://10.0.0.1:7002", address))
		}
	}
	if len(config.Addresses) == 0 {
		return nil, exit.With(exit.Words, errors.New("there is no address to ask at"))
	}
	return &Client{config: config, http: HTTP(config.TLS)}, nil
}

// IsAddress is whether a text is http:// or https://, a host and a port, and nothing else.
func IsAddress(text string) bool {
	scheme, rest, _ := strings.Cut(text, "://")
	host, port, err := net.SplitHostPort(rest)
	return (scheme == "http" || scheme == "https") && err == nil && host != "" && port != "" && !strings.ContainsAny(rest, "/?#@ ")
}

// HTTP gives a client of HTTP that keeps its connections, and goes where it is told and no further.
func HTTP(secure *tls.Config) *http.Client {
	dialer := &net.Dialer{Timeout: connectTime, KeepAlive: 15 * time.Second}
	return &http.Client{
		Transport: &http.Transport{DialContext: dialer.DialContext, TLSClientConfig: secure, TLSHandshakeTimeout: connectTime,
			MaxIdleConns: 2048, MaxIdleConnsPerHost: 1024, IdleConnTimeout: time.Minute, DisableCompression: true},
		CheckRedirect: func(*http.Request, []*http.Request) error { return http.ErrUseLastResponse },
	}
}

// Answer asks, and reads the answer. One that is an error is a *wire.Error.
func Answer(by *http.Client, request *http.Request, to any) error {
	_, err := answer(by, request, to)
	return err
}

func answer(by *http.Client, request *http.Request, to any) (writer string, err error) {
	answer, err := by.Do(request)
	if err != nil {
		return "", err
	}
	defer answer.Body.Close()
	body, err := io.ReadAll(io.LimitReader(answer.Body, wire.MostAnswer+1))
	if err != nil {
		return "", fmt.Errorf("read the answer of %s: %w", request.URL.Host, err)
	}
	writer = answer.Header.Get(wire.WriterHeader)
	if answer.StatusCode == http.StatusOK {
		if err = json.Unmarshal(body, to); err != nil {
			return writer, fmt.Errorf("read the answer of %s: %w", request.URL.Host, err)
		}
		return writer, nil
	}
	told := &wire.Error{}
	if json.Unmarshal(body, told) != nil || told.Name == "" {
		return writer, fmt.Errorf("%s answers with status %d, and not as a node does", request.URL.Host, answer.StatusCode)
	}
	told.Status = answer.StatusCode
	return writer, told
}

// isForGood is whether an error is the same wherever and whenever it is asked again.
func isForGood(err error) bool {
	var told *wire.Error
	return errors.As(err, &told) && told.Name.Again() == wire.Never
}

// address is who is asked now.
func (c *Client) address() string {
	c.lock.Lock()
	defer c.lock.Unlock()
	if c.named != "" {
		return c.named
	}
	return c.config.Addresses[c.at]
}

// learn has an address asked from now on.
func (c *Client) learn(address string) {
	c.lock.Lock()
	defer c.lock.Unlock()
	c.named = address
}

// mayBeAsked is whether an answer of one address may name another one. One of another scheme is not asked, since it would get the token.
func mayBeAsked(address, named string) bool {
	scheme, _, _ := strings.Cut(address, "://")
	return IsAddress(named) && strings.HasPrefix(named, scheme+"://")
}

// fail has the next call begin elsewhere. Where the one that an address named does not answer, that is the next address.
func (c *Client) fail(address string) {
	c.lock.Lock()
	defer c.lock.Unlock()
	if c.named == address || c.named == "" && c.config.Addresses[c.at] == address {
		c.named, c.at = "", (c.at+1)%len(c.config.Addresses)
	}
}

// try asks one address.
func (c *Client) try(ctx context.Context, address, method, path string, body []byte, to any) error {
	request, err := http.NewRequestWithContext(ctx, method, address+path, bytes.NewReader(body))
	if err != nil {
		return fmt.Errorf("ask %s: %w", address, err)
	}
	if body != nil {
		request.Header.Set("Content-Type", "application/json")
	}
	if c.config.Token != nil {
		request.Header.Set("Authorization", "Bearer "+c.config.Token())
	}
	writer, err := answer(c.http, request, to)
	var told *wire.Error
	if errors.As(err, &told) && told.Writer != "" {
		writer = told.Writer
	}
	isNamed := writer != address && mayBeAsked(address, writer)
	switch {
	case isNamed && (err == nil || isForGood(err) || told != nil && told.Name == wire.NotWriter):
		c.learn(writer)
	case err == nil || isForGood(err):
		c.learn(address)
	case told != nil && told.Name.Again() == wire.Here:
		// It has an answer later.
	default:
		c.fail(address)
	}
	return err
}

// ask asks until there is an answer for good, or the context ends. Then the error has the last reason.
func (c *Client) ask(ctx context.Context, method, path string, body []byte, to any) error {
	pause, last := leastPause, error(nil)
	for try := 0; ; try++ {
		limited, cancel := context.WithTimeout(ctx, tryTime)
		err := c.try(limited, c.address(), method, path, body, to)
		cancel()
		if err == nil || isForGood(err) {
			return err
		}
		if ctx.Err() == nil || last == nil {
			last = err
		}
		if (try+1)%(len(c.config.Addresses)+1) == 0 {
			select {
			case <-time.After(pause):
			case <-ctx.Done():
			}
			pause *= 2
			if pause > mostPause {
				pause = mostPause
			}
		}
		if ctx.Err() != nil {
			return &NoAnswerError{last}
		}
	}
}

// A NoAnswerError says that there was no answer in the time that there was.
type NoAnswerError struct{ Last error }

func (e *NoAnswerError) Error() string { return fmt.Sprintf("there is no answer yet: %v", e.Last) }

func (e *NoAnswerError) Unwrap() error { return e.Last }
