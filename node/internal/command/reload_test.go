package command_test

import (
	"context"
	"crypto/tls"
	"crypto/x509"
	"encoding/pem"
	"fmt"
	"io"
	"net/http"
	"os"
	"strings"
	"testing"
	"time"

	"ordup.dev/node/internal/etcdtest"
	"ordup.dev/node/internal/exit"
)

// A process that goes on takes another certificate and other tokens from its files, and tells when each certificate expires that it shows.
// With a broken file it keeps what it has.
func TestCertificatesAndTokensAreReadAgain(t *testing.T) {
	own, key := certificate(t)
	other, otherKey := certificateFor(t, 30*time.Hour)
	forEngine, keyForEngine := certificateFor(t, 50*time.Hour)
	tokens, address := file(t, "tokens", "operator-token-1\n"), etcdtest.FreePort(t)
	ctx, cancel := context.WithCancel(context.Background())
	defer cancel()
	type end struct {
		status exit.Status
		log    string
	}
	ended := make(chan end, 1)
	go func() {
		status, _, log := run(ctx, "fleet", "--fleet", "far", "--members", "east", "--listen", address, "--primaries", "http://127.0.0.1:1", "--engine", "https://127.0.0.1:1",
			"--engine-certificate", forEngine, "--engine-key", keyForEngine,
			"--certificate", own, "--key", key, "--operator-tokens", tokens)
		ended <- end{status, log}
	}()
	numbers := ""
	look := func(token string) (serial string, status int) {
		asker := &http.Client{Transport: &http.Transport{TLSClientConfig: &tls.Config{InsecureSkipVerify: true}, DisableKeepAlives: true}}
		request, _ := http.NewRequest("GET", "https://"+address+"/metrics", nil)
		request.Header.Set("Authorization", "Bearer "+token)
		answer, err := asker.Do(request)
		if err != nil {
			return err.Error(), 0
		}
		defer answer.Body.Close()
		text, _ := io.ReadAll(answer.Body)
		numbers = string(text)
		return fmt.Sprintf("%x", answer.TLS.PeerCertificates[0].Signature), answer.StatusCode
	}
	becomes := func(what, token string, isSo func(serial string, status int) bool) {
		t.Helper()
		serial, status := "", 0
		for end := time.Now().Add(30 * time.Second); time.Now().Before(end); time.Sleep(100 * time.Millisecond) {
			serial, status = look(token)
			if isSo(serial, status) {
				return
			}
		}
		t.Errorf("%s: %.20s %d", what, serial, status)
	}
	put := func(from, to string) {
		t.Helper()
		text, err := os.ReadFile(from)
		if err == nil {
			err = os.WriteFile(to+".new", text, 0o600)
		}
		if err == nil {
			err = os.Rename(to+".new", to)
		}
		if err != nil {
			t.Fatal(err)
		}
	}
	becomes("it listens", "operator-token-1", func(_ string, status int) bool { return status == 200 })
	first, _ := look("operator-token-1")
	expires := func(shown, of string) {
		t.Helper()
		// In float64, as Prometheus has it, ten digits are written with an exponent.
		if says := fmt.Sprintf("ordup_certificate_expiry_timestamp_seconds{file=%q} %v\n", shown, float64(expiryOf(t, of))); !strings.Contains(numbers, says) {
			t.Errorf("there is no %q in %s", says, numbers)
		}
	}
	expires(own, own)
	expires(forEngine, forEngine)
	before := file(t, "before", "")
	put(own, before)
	put(file(t, "more", "operator-token-1\noperator-token-2\n"), tokens)
	becomes("a new token", "operator-token-2", func(_ string, status int) bool { return status == 200 })
	put(file(t, "broken", "short\n"), tokens)
	put(other, own) // Its key is another one as yet.
	time.Sleep(3 * time.Second)
	if serial, status := look("operator-token-1"); serial != first || status != 200 {
		t.Errorf("%.20s %d", serial, status)
	}
	expires(own, before)
	put(file(t, "less", "operator-token-2\n"), tokens)
	put(otherKey, key)
	becomes("a new certificate", "operator-token-2", func(serial string, status int) bool { return serial != first && status == 200 })
	expires(own, other)
	becomes("an old token", "operator-token-1", func(_ string, status int) bool { return status == 401 })
	cancel()
	was := <-ended
	for _, say := range []string{"warn not-read-again file=" + own, "warn not-read-again file=" + tokens, "info read-again file=" + own} {
		if was.status != exit.Done || !strings.Contains(was.log, say) {
			t.Errorf("%d: there is no %q in %s", was.status, say, was.log)
		}
	}
}

// expiryOf is when the certificate of a file expires.
func expiryOf(t *testing.T, file string) int64 {
	t.Helper()
	text, err := os.ReadFile(file)
	if err != nil {
		t.Fatal(err)
	}
	block, _ := pem.Decode(text)
	read, err := x509.ParseCertificate(block.Bytes)
	if err != nil {
		t.Fatal(err)
	}
	return read.NotAfter.Unix()
}
