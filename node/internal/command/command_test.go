package command_test

import (
	"bytes"
	"context"
	"crypto/ecdsa"
	"crypto/elliptic"
	"crypto/rand"
	"crypto/x509"
	"crypto/x509/pkix"
	"encoding/pem"
	"fmt"
	"math/big"
	"net"
	"os"
	"path/filepath"
	"strings"
	"sync"
	"testing"
	"time"

	"ordup.dev/node/internal/command"
	"ordup.dev/node/internal/etcdtest"
	"ordup.dev/node/internal/exit"
	"ordup.dev/node/internal/logs"
	"ordup.dev/node/internal/modelstore"
	"ordup.dev/node/internal/store"
)

// openStore and checker are those of the tests. With the tag library they are those of the program.
var (
	openStore store.Open    = modelstore.Open
	checker   store.Checker = modelstore.Checker{}
)

// A text may be written by several goroutines.
type text struct {
	lock sync.Mutex
	all  bytes.Buffer
}

func (tx *text) Write(more []byte) (int, error) {
	tx.lock.Lock()
	defer tx.lock.Unlock()
	return tx.all.Write(more)
}

func (tx *text) String() string {
	tx.lock.Lock()
	defer tx.lock.Unlock()
	return tx.all.String()
}

// run does a command, and gives its status, what it printed and what it logged.
func run(ctx context.Context, words ...string) (exit.Status, string, string) {
	return runAs(ctx, []string{"1.0"}, words...)
}

// runAs does a command by a program of these versions.
func runAs(ctx context.Context, versions []string, words ...string) (exit.Status, string, string) {
	out, log := &text{}, &text{}
	program := &command.Program{Versions: versions, Open: openStore, Checker: checker, Out: out, Err: log, Log: logs.New(log)}
	status := program.Run(ctx, words)
	return status, out.String(), log.String()
}

func is(t *testing.T, wantStatus exit.Status, want string, words ...string) {
	t.Helper()
	ctx, cancel := context.WithTimeout(context.Background(), 30*time.Second)
	defer cancel()
	if status, out, log := run(ctx, words...); status != wantStatus || !strings.Contains(out+log, want) {
		t.Errorf("%v: %d %s %s, and not %d %s", words, status, out, log, wantStatus, want)
	}
}

func file(t *testing.T, name, text string) string {
	t.Helper()
	path := filepath.Join(t.TempDir(), name)
	if err := os.WriteFile(path, []byte(text), 0o600); err != nil {
		t.Fatal(err)
	}
	return path
}

const shop = "# a shop\nobject tea 1000\nobject till 0\nsite north 1\nsite far 1\nlimit north count 3\nstart\n"

func TestWordsAndSettingsThatAreWrongAreNamed(t *testing.T) {
	is(t, exit.Done, "ordup-node 1.0", "--version")
	is(t, exit.Done, "usage: ordup-node", "--help")
	is(t, exit.Done, "--every NUMBER", "primary", "--help")
	is(t, exit.Words, "there is no command", "prmary")
	is(t, exit.Words, "there is no command")
	engine := "--engine=http://127.0.0.1:1"
	archive := "--archive=" + t.TempDir()
	tokens := file(t, "tokens", "one-of-the-tokens\n")
	for _, row := range []struct {
		status exit.Status
		says   string
		words  string
	}{
		{2, "there is no flag --evry", "primary --evry 7"},
		{2, "for --every", "primary --every -1"},
		{2, "error ends command=primary status=2 why=\"\\\"north\\\" is no setting\"\n", "primary north"},
		{2, "archive: the folder is missing", "primary " + engine},
		{2, "engine: the addresses of the members are missing", "primary " + archive},
		{2, "engine: ", "primary --engine 127.0.0.1 " + archive},
		{2, "engine-authority", "primary --engine https://127.0.0.1:1 " + archive},
		{2, "engine-user and engine-password", "primary --engine-user ann " + engine + " " + archive},
		{1, "/nowhere", "primary --engine-user ann --engine-password /nowhere " + engine + " " + archive},
		{1, "/nowhere", "primary --engine https://127.0.0.1:1 --engine-authority /nowhere " + archive},
		{2, "listen: ", "primary --listen 7002 " + engine + " " + archive},
		{2, "address: ", "primary --listen :7002 " + engine + " " + archive},
		{2, "address: ", "primary --address 127.0.0.1:1 " + engine + " " + archive},
		{2, "are not a host", "primary --host a/b " + engine + " " + archive},
		{1, "/nowhere", "primary --declarations /nowhere " + engine + " " + archive},
		{1, "/nowhere", "primary --client-tokens /nowhere " + engine + " " + archive},
		{2, "who-may-ask clients=tokens sites=open operators=closed", "primary --client-tokens " + tokens + " --site-tokens open"},
		{2, "who-may-ask clients=open sites=open operators=open", "primary"},
		{1, "only a token of a site names one", "primary --client-tokens " + file(t, "named", "one-of-the-tokens north\n")},
		{1, "/nowhere", "primary --certificate /nowhere --key /nowhere " + engine + " " + archive},
		{1, "/proc/nowhere", "primary --archive /proc/nowhere " + engine},
		{1, "listen tcp", "primary --listen 192.0.2.1:7002 " + engine + " " + archive},
		{2, "primaries: the addresses are missing", "site --site north " + engine},
		{2, "is no site", "site --site North --primaries http://a:1 " + engine},
		{2, "fleet and teller belong together", "site --site north --fleet far --primaries http://a:1 " + engine},
		{2, "fleet and members", "fleet --fleet far --members ? --primaries http://a:1"},
		{2, "members: ", "fleet --fleet far --primaries http://a:1"},
		{2, "has the name of its fleet", "fleet --fleet far --members east,far --primaries http://a:1 " + engine},
		{2, "has the name of its fleet", "site --site far --fleet far --teller http://a:1 " + engine},
		{2, "engine: ", "fleet --fleet far --members east --primaries http://a:1"},
		{2, "primaries: ", "update ann 1 add:tea:1"},
		{2, "is no address", "update --primaries a:1 ann 1 add:tea:1"},
		{2, "is no number", "update --primaries http://a:1 ann x add:tea:1"},
		{2, "ordup-node update: say a client, a number and at least one change\n", "update --primaries http://a:1 ann 1"},
		{1, "there is no answer yet", "update --primaries http://127.0.0.1:1 --patience 0.2 ann 1 add:tea:1"},
		{1, "there is no answer yet", "value --sites http://127.0.0.1:1 --patience 0.2"},
		{2, "/nowhere", "next --primaries http://127.0.0.1:1 /nowhere"},
		{2, "say a site and a limit", "relimit --primaries http://127.0.0.1:1 far"},
		{2, "is no limit", "relimit --primaries http://127.0.0.1:1 far count"},
		{2, "say the folders", "fsck"},
		{2, "there is no archive", "fsck /nowhere"},
	} {
		t.Run(row.words, func(t *testing.T) {
			is(t, row.status, row.says, strings.Fields(row.words)...)
		})
	}
}

// A deployment runs the commands in this process, on an engine of its own. Its program has these versions.
type deployment struct {
	t        *testing.T
	versions []string
	common   []string
	primary  [2]string
	north    string
	stops    map[string]func() (exit.Status, string)
	words    map[string][]string
}

// start runs a command until its stop is called, which gives its status and its log.
func (d *deployment) start(name string, words ...string) {
	ctx, cancel := context.WithCancel(context.Background())
	versions := d.versions
	type end struct {
		status exit.Status
		log    string
	}
	ended := make(chan end, 1)
	go func() {
		status, _, log := runAs(ctx, versions, append(words, d.common...)...)
		ended <- end{status, log}
	}()
	var once sync.Once
	var was end
	stop := func() (exit.Status, string) {
		once.Do(func() { cancel(); was = <-ended })
		return was.status, was.log
	}
	d.stops[name], d.words[name] = stop, words
	d.t.Cleanup(func() {
		if _, log := stop(); d.t.Failed() {
			d.t.Log(name, log)
		}
	})
}

func deploy(t *testing.T, common ...string) *deployment {
	members := etcdtest.Start(t, 1)
	deployment := &deployment{t: t, versions: []string{"1.0"}, stops: map[string]func() (exit.Status, string){}, words: map[string][]string{},
		north: etcdtest.FreePort(t), primary: [2]string{etcdtest.FreePort(t), etcdtest.FreePort(t)}}
	scheme := "http://"
	if len(common) > 0 {
		scheme = "https://"
	}
	primaries := scheme + deployment.primary[0] + "," + scheme + deployment.primary[1]
	settings := file(t, "settings", "engine = "+strings.Join(members.Clients, ",")+"\nprimaries = "+primaries+"\nsites = "+scheme+deployment.north+
		"\ndeclarations = "+file(t, "shop", shop)+"\npatience = 25\n")
	deployment.common = append([]string{"--settings", settings}, common...)
	folder := t.TempDir()
	for at, address := range deployment.primary {
		host := fmt.Sprint("p", at+1)
		deployment.start(host, "primary", "--listen", address, "--host", host, "--archive", filepath.Join(folder, host))
	}
	deployment.start("north", "site", "--site", "north", "--listen", deployment.north)
	far := etcdtest.FreePort(t)
	deployment.start("far", "fleet", "--fleet", "far", "--members", "east", "--listen", far)
	deployment.start("east", "site", "--site", "east", "--fleet", "far", "--teller", scheme+far, "--listen", etcdtest.FreePort(t))
	return deployment
}

func (d *deployment) is(status exit.Status, want string, words ...string) {
	d.t.Helper()
	is(d.t, status, want, append(words, d.common...)...)
}

func TestADeploymentFromItsBeginningToItsEnd(t *testing.T) {
	deployment := deploy(t)
	deployment.is(0, "ok acked 1 epoch 1\n", "update", "ann", "1", "add:tea:-5", "add:till:20")
	deployment.is(0, "ok acked 1 epoch 1\n", "update", "ann", "1", "add:tea:-5", "add:till:20")
	deployment.is(2, "other changes under this number", "update", "ann", "1", "add:tea:-6")
	deployment.is(0, "refused 6 UnknownObject\n", "update", "ann", "2", "add:milk:1")
	deployment.is(2, "asked under 2 before", "update", "ann", "1", "add:tea:-5", "add:till:20")
	deployment.is(2, "have not the form", "update", "Ann", "1", "add:tea:-5")
	deployment.is(0, "epoch 1 place 1 tea=995 till=20\n", "value", "--seen", "1.1")
	deployment.is(0, "epoch 1 place 1 tea=995\n", "value", "tea")
	deployment.is(2, "no such object", "value", "milk")
	deployment.is(1, "the site is at place 1 of epoch 1", "value", "--seen", "1.2", "--wait", "0.1")
	deployment.is(0, "epoch 2\n", "next")
	deployment.is(1, "has not begun", "next", "--from", "7")
	deployment.is(0, "ok relimit far 1 epoch 2\n", "relimit", "far", "count", "7")
	deployment.is(0, "refused 8 UnknownSite\n", "relimit", "nowhere", "count", "none")
	deployment.is(2, "line 1 of the declarations", "next", file(t, "bad", "\xff\n"))
	deployment.is(0, "epoch 3\n", "next", file(t, "without", strings.Replace(shop, "site far 1\n", "", 1)))
	if status, log := deployment.ended("east"); status != exit.NotInScript || !strings.Contains(log, "has no site far") {
		t.Error(status, log)
	}
	// The primary that writes ends, and the other one takes over at once. All else ends too, with status 0.
	status, log := deployment.stops["p1"]()
	other := "p2"
	if !strings.Contains(log, " writes ") {
		other = "p1"
	}
	if status != exit.Done || !strings.Contains(log, "ended") {
		t.Error(status, log)
	}
	began := time.Now()
	deployment.is(0, "ok acked 1 epoch 3\n", "update", "ann", "3", "add:tea:-5")
	if took := time.Since(began); took > 3*time.Second {
		t.Errorf("%s takes over after %s: the lease was not given back", other, took)
	}
	for name, stop := range deployment.stops {
		if status, log := stop(); status != exit.Done && name != "east" {
			t.Error(name, status, log)
		}
	}
}

// One file has the settings of all, with the declarations that began the script. Each process comes back with it after others were given.
func TestAllComeBackAfterOtherDeclarations(t *testing.T) {
	deployment := deploy(t)
	deployment.is(0, "ok acked 1 epoch 1\n", "update", "ann", "1", "add:tea:-5")
	deployment.is(0, "epoch 2\n", "next", "--every", "50", file(t, "more", "object milk 3\n"+shop))
	for name, words := range deployment.words {
		if status, log := deployment.stops[name](); status != exit.Done {
			t.Error(name, status, log)
		}
		deployment.start(name, words...)
	}
	deployment.is(0, "ok acked 1 epoch 2\n", "update", "ann", "2", "add:milk:-1")
	deployment.is(0, "epoch 2 place 1 milk=2 tea=995 till=0\n", "value", "--seen", "2.1")
	deployment.is(0, "epoch 3\n", "next") // All have told the last place.
}

// ended waits until a process has ended by itself.
func (d *deployment) ended(name string) (exit.Status, string) {
	time.Sleep(2 * time.Second)
	return d.stops[name]()
}

// certificate writes a certificate for this computer, which is its own authority and good for an hour, and its key.
func certificate(t *testing.T) (string, string) {
	t.Helper()
	return certificateFor(t, time.Hour)
}

func certificateFor(t *testing.T, valid time.Duration) (string, string) {
	t.Helper()
	key, err := ecdsa.GenerateKey(elliptic.P256(), rand.Reader)
	if err != nil {
		t.Fatal(err)
	}
	form := &x509.Certificate{SerialNumber: big.NewInt(1), Subject: pkix.Name{CommonName: "test"}, NotAfter: time.Now().Add(valid),
		IPAddresses: []net.IP{net.ParseIP("127.0.0.1")}, IsCA: true, BasicConstraintsValid: true, KeyUsage: x509.KeyUsageCertSign | x509.KeyUsageDigitalSignature,
		ExtKeyUsage: []x509.ExtKeyUsage{x509.ExtKeyUsageServerAuth, x509.ExtKeyUsageClientAuth}}
	signed, err := x509.CreateCertificate(rand.Reader, form, form, key.Public(), key)
	if err != nil {
		t.Fatal(err)
	}
	coded, err := x509.MarshalECPrivateKey(key)
	if err != nil {
		t.Fatal(err)
	}
	return file(t, "certificate", string(pem.EncodeToMemory(&pem.Block{Type: "CERTIFICATE", Bytes: signed}))),
		file(t, "key", string(pem.EncodeToMemory(&pem.Block{Type: "EC PRIVATE KEY", Bytes: coded})))
}

func TestADeploymentWithTLSAndTokens(t *testing.T) {
	own, key := certificate(t)
	clients, sites, operators := file(t, "c", "client-token-0001\n"), file(t, "s", "site-token-00001\ntoken-of-north-01 north\n"), file(t, "o", "operator-token-1\n")
	deployment := deploy(t, "--authority", own)
	for _, stop := range deployment.stops {
		stop() // They do not listen by TLS.
	}
	text, err := os.ReadFile(deployment.common[1])
	if err != nil {
		t.Fatal(err)
	}
	settings := file(t, "settings", string(text)+fmt.Sprintf("authority = %s\ncertificate = %s\nkey = %s\nclient-tokens = %s\nsite-tokens = %s\noperator-tokens = %s\n",
		own, own, key, clients, sites, operators))
	deployment.common = []string{"--settings", settings}
	folder := t.TempDir()
	for at, address := range deployment.primary {
		host := fmt.Sprint("p", at+1)
		deployment.start(host, "primary", "--listen", address, "--host", host, "--archive", filepath.Join(folder, host))
	}
	far := etcdtest.FreePort(t)
	deployment.start("north", "site", "--site", "north", "--listen", deployment.north, "--token", file(t, "n", "token-of-north-01 north\n"))
	deployment.start("far", "fleet", "--fleet", "far", "--members", "east", "--listen", far, "--token", sites)
	deployment.start("east", "site", "--site", "east", "--fleet", "far", "--teller", "https://"+far, "--listen", etcdtest.FreePort(t), "--token", sites)
	deployment.is(0, "ok acked 1 epoch 1\n", "update", "ann", "1", "add:tea:-5", "--token", clients)
	deployment.is(0, "tea=995", "value", "--seen", "1.1", "--token", clients)
	deployment.is(2, "the token is missing", "update", "ann", "2", "add:tea:-5")
	deployment.is(2, "the token is missing", "value", "--token", sites)
	deployment.is(2, "the token is missing", "next", "--token", clients)
	deployment.is(0, "epoch 2", "next", "--token", operators)
	other, _ := certificate(t)
	deployment.is(1, "there is no answer yet", "update", "ann", "2", "add:tea:-5", "--token", clients, "--authority", other, "--patience", "0.5")
}
