package reload_test

import (
	"crypto/ecdsa"
	"crypto/elliptic"
	"crypto/rand"
	"crypto/x509"
	"encoding/pem"
	"math/big"
	"os"
	"path/filepath"
	"testing"
	"time"

	"ordup.dev/node/internal/logs"
	"ordup.dev/node/internal/reload"
)

// chain writes certificates of one key that are good until these times, and the key.
func chain(t *testing.T, until ...time.Time) (certificates, key string) {
	t.Helper()
	secret, err := ecdsa.GenerateKey(elliptic.P256(), rand.Reader)
	if err != nil {
		t.Fatal(err)
	}
	all := []byte{}
	for at, each := range until {
		form := &x509.Certificate{SerialNumber: big.NewInt(int64(at + 1)), NotAfter: each}
		signed, err := x509.CreateCertificate(rand.Reader, form, form, secret.Public(), secret)
		if err != nil {
			t.Fatal(err)
		}
		all = append(all, pem.EncodeToMemory(&pem.Block{Type: "CERTIFICATE", Bytes: signed})...)
	}
	coded, err := x509.MarshalECPrivateKey(secret)
	if err != nil {
		t.Fatal(err)
	}
	folder := t.TempDir()
	certificates, key = filepath.Join(folder, "certificates"), filepath.Join(folder, "key")
	write(t, certificates, all)
	write(t, key, pem.EncodeToMemory(&pem.Block{Type: "EC PRIVATE KEY", Bytes: coded}))
	return certificates, key
}

func write(t *testing.T, path string, text []byte) {
	t.Helper()
	if err := os.WriteFile(path, text, 0o600); err != nil {
		t.Fatal(err)
	}
}

func move(t *testing.T, from, to string) {
	t.Helper()
	if err := os.Rename(from, to); err != nil {
		t.Fatal(err)
	}
}

func TestACertificateIsGoodUntilTheFirstOfItsChainExpires(t *testing.T) {
	t.Parallel()
	day := func(number int) time.Time { return time.Date(2030, time.January, number, 0, 0, 0, 0, time.UTC) }
	for name, row := range map[string]struct {
		chain []time.Time
		want  time.Time
	}{
		"one alone":           {[]time.Time{day(3)}, day(3)},
		"the own one first":   {[]time.Time{day(2), day(9)}, day(2)},
		"its authority first": {[]time.Time{day(9), day(8), day(5)}, day(5)},
	} {
		certificates, key := chain(t, row.chain...)
		pair, err := reload.Pair(certificates, key, nil)
		if err != nil {
			t.Fatal(name, err)
		}
		if pair.File != certificates || !pair.Expires().Equal(row.want) || len(pair.Now().Certificate) != len(row.chain) {
			t.Error(name, pair.File, pair.Expires(), len(pair.Now().Certificate))
		}
	}
}

func TestACertificateIsReadAgainWithItsKey(t *testing.T) {
	t.Parallel()
	soon, late := time.Date(2030, time.January, 1, 0, 0, 0, 0, time.UTC), time.Date(2031, time.January, 1, 0, 0, 0, 0, time.UTC)
	certificates, key := chain(t, soon)
	others, otherKey := chain(t, late)
	pair, err := reload.Pair(certificates, key, logs.New(os.Stderr))
	if err != nil {
		t.Fatal(err)
	}
	move(t, others, certificates)
	time.Sleep(2100 * time.Millisecond)
	if until := pair.Expires(); !until.Equal(soon) {
		t.Error("without its key it is taken: ", until)
	}
	move(t, otherKey, key)
	time.Sleep(2100 * time.Millisecond)
	if until := pair.Expires(); !until.Equal(late) {
		t.Error("it is not read again: ", until)
	}
}

func TestACertificateWithoutItsKeyIsNone(t *testing.T) {
	t.Parallel()
	own, key := chain(t, time.Now().Add(time.Hour))
	_, other := chain(t, time.Now().Add(time.Hour))
	for _, names := range [][2]string{{own, ""}, {"", key}, {own, own}, {own, other}, {"/nowhere", key}} {
		if _, err := reload.Pair(names[0], names[1], nil); err == nil {
			t.Errorf("%v is taken", names)
		}
	}
}
