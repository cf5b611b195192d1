package engine_test

import (
	"crypto/ecdsa"
	"crypto/elliptic"
	"crypto/rand"
	"crypto/x509"
	"crypto/x509/pkix"
	"encoding/pem"
	"errors"
	"math/big"
	"net"
	"os"
	"path/filepath"
	"testing"
	"time"

	"ordup.dev/node/internal/engine"
	"ordup.dev/node/internal/etcdtest"
	"ordup.dev/node/internal/reload"
)

// certificate makes files of a certificate that signs itself, for this computer, and its key.
func certificate(t *testing.T) (certificate, key string) {
	secret, err := ecdsa.GenerateKey(elliptic.P256(), rand.Reader)
	is(t, nil, err)
	made := &x509.Certificate{SerialNumber: big.NewInt(1), Subject: pkix.Name{CommonName: "node"}, NotBefore: time.Now().Add(-time.Hour),
		NotAfter: time.Now().Add(time.Hour), IPAddresses: []net.IP{net.IPv4(127, 0, 0, 1)}, IsCA: true, BasicConstraintsValid: true,
		KeyUsage:    x509.KeyUsageDigitalSignature | x509.KeyUsageCertSign,
		ExtKeyUsage: []x509.ExtKeyUsage{x509.ExtKeyUsageServerAuth, x509.ExtKeyUsageClientAuth}}
	signed, err := x509.CreateCertificate(rand.Reader, made, made, &secret.PublicKey, secret)
	is(t, nil, err)
	bytes, err := x509.MarshalECPrivateKey(secret)
	is(t, nil, err)
	certificate, key = filepath.Join(t.TempDir(), "node.pem"), filepath.Join(t.TempDir(), "node.key")
	is(t, nil, os.WriteFile(certificate, pem.EncodeToMemory(&pem.Block{Type: "CERTIFICATE", Bytes: signed}), 0o600))
	is(t, nil, os.WriteFile(key, pem.EncodeToMemory(&pem.Block{Type: "EC PRIVATE KEY", Bytes: bytes}), 0o600))
	return certificate, key
}

func TestMembersWithTLSAndUsers(t *testing.T) {
	file, key := certificate(t)
	own, err := reload.Pair(file, key, nil)
	is(t, nil, err)
	secure, err := engine.TLSOf(file, own)
	is(t, nil, err)
	members := etcdtest.StartSecure(t, 1, engine.Config{TLS: secure}, "--cert-file", file, "--key-file", key, "--trusted-ca-file", file,
		"--client-cert-auth")
	ctx := within(t, 60*time.Second)
	members.Config.User, members.Config.Password = "", ""
	client := members.Client()
	for _, user := range []string{"root", "guest"} {
		_, err = client.UserAdd(ctx, user, "secret")
		is(t, nil, err)
	}
	_, err = client.UserGrantRole(ctx, "root", "root")
	is(t, nil, err)
	_, err = client.AuthEnable(ctx)
	is(t, nil, err)
	open := func(change func(*engine.Config)) *engine.Engine {
		config := members.Config
		config.User, config.Password = "root", "secret"
		change(&config)
		opened := engine.Open(config)
		t.Cleanup(opened.Close)
		return opened
	}
	_, _, err = open(func(*engine.Config) {}).Epoch(ctx)
	is(t, nil, err)
	var wrong *engine.WrongError
	_, _, err = open(func(config *engine.Config) { config.Password = "other" }).Epoch(ctx)
	is(t, true, errors.As(err, &wrong))
	_, _, err = open(func(config *engine.Config) { config.User = "guest" }).Epoch(ctx)
	is(t, true, errors.As(err, &wrong))
	_, _, err = open(func(config *engine.Config) { config.TLS, _ = engine.TLSOf(file, nil) }).Epoch(ctx)
	is(t, true, engine.IsAway(err))
}

func TestTLSOfFiles(t *testing.T) {
	file, key := certificate(t)
	none, err := engine.TLSOf("", nil)
	is(t, []any{true, nil}, []any{none == nil, err})
	for _, authority := range []string{"/nowhere", key} {
		if _, err := engine.TLSOf(authority, nil); err == nil {
			t.Errorf("%s is taken", authority)
		}
	}
	if secure, err := engine.TLSOf(file, nil); err != nil || secure.GetClientCertificate != nil {
		t.Error(err, secure)
	}
}

func TestAFullEngine(t *testing.T) {
	members := etcdtest.Start(t, 1, "--quota-backend-bytes", "1000000")
	own := members.Engine()
	err := error(nil)
	for number := int64(1); err == nil && number < 100; number++ {
		err = own.Write(within(t, 20*time.Second), &engine.Write{Number: number, Text: make([]byte, 100_000), Epoch: 1, First: 1})
	}
	is(t, []bool{true, true}, []bool{engine.IsFull(err), engine.IsAway(err)})
	is(t, 0, own.Failures())
	_, _, err = own.Epoch(within(t, 20*time.Second))
	is(t, nil, err)
}
