package command_test

import (
	"context"
	"testing"
	"time"

	"ordup.dev/node/internal/engine"
	"ordup.dev/node/internal/etcdtest"
	"ordup.dev/node/internal/reload"
)

func TestTheEngineHasTLSAndUsers(t *testing.T) {
	own, key := certificate(t)
	pair, err := reload.Pair(own, key, nil)
	if err != nil {
		t.Fatal(err)
	}
	secure, err := engine.TLSOf(own, pair)
	if err != nil {
		t.Fatal(err)
	}
	members := etcdtest.StartSecure(t, 1, engine.Config{TLS: secure}, "--cert-file", own, "--key-file", key, "--trusted-ca-file", own,
		"--client-cert-auth")
	address, none := "--engine="+members.Clients[0], "there is no archive and no entry"
	files := []string{"fsck", address, "--engine-authority", own, "--engine-certificate", own, "--engine-key", key}
	is(t, 2, none, files...)
	is(t, 1, "the engine's member", files[:4]...)
	ctx, cancel := context.WithTimeout(context.Background(), 20*time.Second)
	defer cancel()
	client := members.Client()
	_, err = client.UserAdd(ctx, "root", "a secret")
	if err == nil {
		_, err = client.UserGrantRole(ctx, "root", "root")
		if err == nil {
			_, err = client.AuthEnable(ctx)
		}
	}
	if err != nil {
		t.Fatal(err)
	}
	is(t, 2, none, append(files, "--engine-user", "root", "--engine-password", file(t, "password", "a secret\n"))...)
	is(t, 1, "the engine's member", append(files, "--engine-user", "root", "--engine-password", file(t, "password", "another one\n"))...)
	is(t, 2, "is empty", append(files, "--engine-user", "root", "--engine-password", file(t, "password", "\n"))...)
}
