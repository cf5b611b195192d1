package etcdtest

import (
	"context"
	"fmt"
	"time"

	"go.etcd.io/etcd/clientv3"
	"go.uber.org/zap"
)

func (m *Members) context() context.Context {
	ctx, cancel := context.WithTimeout(context.Background(), 30*time.Second)
	m.t.Cleanup(cancel)
	return ctx
}

// Client gives a client of etcd's own, as whoever writes keys by hand has one.
func (m *Members) Client() *clientv3.Client {
	m.t.Helper()
	quiet := zap.NewProductionConfig()
	quiet.Level = zap.NewAtomicLevelAt(zap.FatalLevel)
	client, err := clientv3.New(clientv3.Config{Endpoints: m.Clients, DialTimeout: 5 * time.Second, LogConfig: &quiet,
		TLS: m.Config.TLS, Username: m.Config.User, Password: m.Config.Password})
	if err != nil {
		m.t.Fatal(err)
	}
	m.t.Cleanup(func() { client.Close() })
	return client
}

// Put puts a key by hand.
func (m *Members) Put(key, value string) {
	m.t.Helper()
	if _, err := m.Client().Put(m.context(), key, value); err != nil {
		m.t.Fatal(err)
	}
}

// Create creates a key where there is none, by one transaction.
func (m *Members) Create(client *clientv3.Client, key string, value []byte) error {
	_, err := client.Txn(context.Background()).If(clientv3.Compare(clientv3.CreateRevision(key), "=", 0)).
		Then(clientv3.OpPut(key, string(value))).Commit()
	return err
}

// Delete takes away the keys that begin so.
func (m *Members) Delete(prefix string) {
	m.t.Helper()
	if _, err := m.Client().Delete(m.context(), prefix, clientv3.WithPrefix()); err != nil {
		m.t.Fatal(err)
	}
}

// Fill puts keys until the engine is full.
func (m *Members) Fill() {
	client, value := m.Client(), make([]byte, 100_000)
	for count := 0; ; count++ {
		if _, err := client.Put(m.context(), fmt.Sprintf("fill/%d", count), string(value)); err != nil {
			return
		}
	}
}

// Free has an engine that was filled take writes again, as docs/MACHINES.md says.
func (m *Members) Free() {
	m.t.Helper()
	client, ctx := m.Client(), m.context()
	done, err := client.Delete(ctx, "fill/", clientv3.WithPrefix())
	if err == nil {
		_, err = client.Compact(ctx, done.Header.Revision, clientv3.WithCompactPhysical())
	}
	for _, member := range m.Clients {
		if err == nil {
			_, err = client.Defragment(ctx, member)
		}
	}
	if err == nil {
		_, err = client.AlarmDisarm(ctx, &clientv3.AlarmMember{})
	}
	if err != nil {
		m.t.Fatal(err)
	}
}
