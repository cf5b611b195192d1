package reload

import (
	"crypto/tls"
	"crypto/x509"
	"fmt"
	"time"

	"ordup.dev/node/internal/logs"
)

// A Certificate is one with its key, which a process shows to others.
type Certificate struct {
	// File is where the certificate is.
	File string
	pair *Value[pair]
}

// A pair is what a Certificate has at a time. It is good until the first certificate of its chain expires.
type pair struct {
	shown *tls.Certificate
	until time.Time
}

// Pair gives a certificate and its key, of files in PEM.
func Pair(certificate, key string, log *logs.Log) (*Certificate, error) {
	read, err := New(log, func() (pair, error) { return readPair(certificate, key) }, certificate, key)
	if err != nil {
		return nil, err
	}
	return &Certificate{certificate, read}, nil
}

// Now gives what is shown now.
func (c *Certificate) Now() *tls.Certificate { return c.pair.Now().shown }

// Expires says until when what is shown now is good.
func (c *Certificate) Expires() time.Time { return c.pair.Now().until }

func readPair(certificate, key string) (pair, error) {
	shown, err := tls.LoadX509KeyPair(certificate, key)
	if err != nil {
		return pair{}, fmt.Errorf("read the certificate %s and its key %s: %w", certificate, key, err)
	}
	read := pair{shown: &shown}
	for _, each := range shown.Certificate {
		of, err := x509.ParseCertificate(each)
		if err != nil {
			return pair{}, fmt.Errorf("%s: %w", certificate, err)
		}
		if read.until.IsZero() || of.NotAfter.Before(read.until) {
			read.until = of.NotAfter
		}
	}
	return read, nil
}
