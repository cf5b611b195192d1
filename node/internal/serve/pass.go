package serve

import (
	"bytes"
	"context"
	"crypto/tls"
	"fmt"
	"net/http"
	"strings"
	"time"

	"ordup.dev/node/internal/client"
	"ordup.dev/node/internal/wire"
)

// A Passer passes requests on to another primary.
type Passer struct {
	own  string
	http *http.Client
}

// NewPasser gives one for a primary of this address. It knows the certificates of the others by a TLS.
func NewPasser(own string, secure *tls.Config) *Passer {
	return &Passer{own, client.HTTP(secure)}
}

// on passes a request on, and reads the answer. An answer that is an error is a *wire.Error.
func (p *Passer) on(ctx context.Context, asked *request, address string, to any) error {
	if address == p.own || !strings.HasPrefix(address, schemeOf(p.own)) {
		return fmt.Errorf("nothing is passed on to %s", address)
	}
	url := address + asked.URL.Path
	if query := queryOf(ctx, asked); query != "" {
		url += "?" + query
	}
	passed, err := http.NewRequestWithContext(ctx, asked.Method, url, bytes.NewReader(asked.body))
	if err != nil {
		return fmt.Errorf("pass a request on to %s: %w", address, err)
	}
	passed.Header.Set(wire.PassedHeader, "1")
	for _, name := range []string{"Authorization", "Content-Type"} {
		if value := asked.Header.Get(name); value != "" {
			passed.Header.Set(name, value)
		}
	}
	return client.Answer(p.http, passed, to)
}

// queryOf is the query with a wait that ends before the one here does. So who knows why there is no answer is in time to say so.
func queryOf(ctx context.Context, asked *request) string {
	end, hasEnd := ctx.Deadline()
	if !hasEnd || asked.URL.Path == wire.EpochPath {
		return asked.URL.RawQuery
	}
	wait := time.Until(end) * 7 / 8
	if wait < 0 {
		wait = 0
	}
	asked.words.Set("wait", fmt.Sprint(wait.Seconds()))
	return asked.words.Encode()
}

// schemeOf is `http://` or `https://`. So a token that came by TLS goes on by TLS.
func schemeOf(address string) string {
	scheme, _, _ := strings.Cut(address, "://")
	return scheme + "://"
}
