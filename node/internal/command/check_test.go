package command_test

import (
	"context"
	"crypto/ecdsa"
	"crypto/elliptic"
	"crypto/rand"
	"crypto/x509"
	"crypto/x509/pkix"
	"encoding/pem"
	"math/big"
	"net"
	"os"
	"path/filepath"
	"strings"
	"testing"
	"time"

	"ordup.dev/node/internal/etcdtest"
	"ordup.dev/node/internal/exit"
)

// An issuer signs certificates. Its own is in a file.
type issuer struct {
	t           *testing.T
	certificate *x509.Certificate
	key         *ecdsa.PrivateKey
	file        string
}

func newIssuer(t *testing.T) *issuer {
	i := &issuer{t: t}
	var err error
	if i.key, err = ecdsa.GenerateKey(elliptic.P256(), rand.Reader); err != nil {
		t.Fatal(err)
	}
	i.certificate = &x509.Certificate{SerialNumber: big.NewInt(1), Subject: pkix.Name{CommonName: "authority"},
		NotBefore: time.Now().Add(-time.Hour), NotAfter: time.Now().AddDate(1, 0, 1),
		IsCA: true, BasicConstraintsValid: true, KeyUsage: x509.KeyUsageCertSign}
	i.file = i.write(i.certificate, i.key)
	return i
}

func (i *issuer) write(form *x509.Certificate, key *ecdsa.PrivateKey) string {
	i.t.Helper()
	signed, err := x509.CreateCertificate(rand.Reader, form, i.certificate, key.Public(), i.key)
	if err != nil {
		i.t.Fatal(err)
	}
	return file(i.t, "certificate", string(pem.EncodeToMemory(&pem.Block{Type: "CERTIFICATE", Bytes: signed})))
}

// gives gives a certificate for 127.0.0.1 from one day to another one, counted from today, and its key.
func (i *issuer) gives(from, to int) (certificate, key string) {
	i.t.Helper()
	own, err := ecdsa.GenerateKey(elliptic.P256(), rand.Reader)
	if err != nil {
		i.t.Fatal(err)
	}
	coded, err := x509.MarshalECPrivateKey(own)
	if err != nil {
		i.t.Fatal(err)
	}
	form := &x509.Certificate{SerialNumber: big.NewInt(2), Subject: pkix.Name{CommonName: "node"}, NotBefore: time.Now().AddDate(0, 0, from),
		NotAfter: time.Now().AddDate(0, 0, to).Add(time.Hour), IPAddresses: []net.IP{net.ParseIP("127.0.0.1")},
		KeyUsage: x509.KeyUsageDigitalSignature, ExtKeyUsage: []x509.ExtKeyUsage{x509.ExtKeyUsageServerAuth}}
	return i.write(form, own), file(i.t, "key", string(pem.EncodeToMemory(&pem.Block{Type: "EC PRIVATE KEY", Bytes: coded})))
}

// mode gives a file other rights.
func mode(t *testing.T, name string, bits os.FileMode) string {
	t.Helper()
	if err := os.Chmod(name, bits); err != nil {
		t.Fatal(err)
	}
	return name
}

func TestSettingsAreChecked(t *testing.T) {
	own, other := newIssuer(t), newIssuer(t)
	certificate, key := own.gives(-1, 200)
	_, otherKey := own.gives(-1, 200)
	ended, endedKey := own.gives(-9, -3)
	soon, soonKey := own.gives(-1, 7)
	later, laterKey := own.gives(2, 9)
	secure := func(certificate, key, authority string) string {
		return "certificate = " + certificate + "\nkey = " + key + "\nauthority = " + authority + "\n"
	}
	engine := "engine = http://127.0.0.1:2379\n"
	tokens := func(text string) string { return file(t, "tokens", text) }
	clients, sites := tokens("a-token-of-clients\n"), tokens("a-token-of-north-1 north\n")
	folder := t.TempDir()
	declared := file(t, "declared", "object tea x\nsite north 1\nstart\n")
	for _, row := range []struct {
		name, text, words, flags string
		status                   exit.Status
		says                     string
	}{
		{"all is well", engine, "", "", 0, "ok 1 settings"},
		{"a key that is not known", engine + "evry = 7\n",
			"", "", 2, ":2: error: there is no key \"evry\": `ordup-node COMMAND --help` has all keys"},
		{"no pair", engine + "\n# words\nevery\n", "", "", 2, ":4: error: \"every\" is not `key = value`"},
		{"a key twice", engine + engine, "", "", 2, ":2: error: the key engine stands there twice"},
		{"all errors at once", "every = -1\nevry = 7\n", "", "", 2, ":2: error: there is no key"},
		{"a number beyond", engine + "copies = 17\n", "", "", 2, ":2: error: \"17\" for copies: it is a number from 1 to 16"},
		{"no engine", "copies = 2\n", "", "", 2, "error: engine: the addresses of the members are missing"},
		{"an engine that is no address", "engine = 10.0.0.1\n", "", "", 2, ":1: error: engine: \"10.0.0.1\" is no address"},
		{"an engine with TLS and no authority", "engine = https://10.0.0.1:2379\n",
			"", "", 2, ":1: error: engine: https://10.0.0.1:2379 and the settings of certificates do not fit"},
		{"a user without a password", engine + "engine-user = ann\n", "", "", 2, "engine-user and engine-password belong together"},
		{"a password that is not there", engine + "engine-user = ann\nengine-password = /nowhere\n",
			"", "", 1, ":3: error: engine-password: /nowhere"},
		{"a password for everybody", engine + "engine-user = ann\nengine-password = " + mode(t, tokens("secret\n"), 0o644) + "\n",
			"", "", 1, "has the mode 0644, so anybody on this host may use it: chmod 0640"},
		{"a certificate", engine + secure(certificate, key, own.file),
			"", "", 0, ":2: note: certificate: " + certificate + " ends in 200 days, on "},
		{"the end of the authority", engine + secure(certificate, key, own.file),
			"", "", 0, ":4: note: authority: " + own.file + " ends in 36"},
		{"a certificate without a key", engine + "certificate = " + certificate + "\n",
			"", "", 2, ":2: error: certificate: it belongs together with key"},
		{"the key of another one", engine + secure(certificate, otherKey, own.file), "", "", 1, "private key does not match"},
		{"the key for everybody", engine + secure(certificate, mode(t, otherKey, 0o644), own.file),
			"", "", 1, ":3: error: key: " + otherKey + " has the mode 0644"},
		{"another authority", engine + secure(certificate, key, other.file),
			"", "", 1, ":2: error: certificate: " + certificate + " is not believed by who has " + other.file},
		{"a certificate that ended", engine + secure(ended, endedKey, own.file),
			"", "", 1, ":2: error: certificate: " + ended + " ended 2 days ago"},
		{"a certificate that ends soon", engine + secure(soon, soonKey, own.file),
			"", "", 0, ":2: warning: certificate: " + soon + " ends in 7 days"},
		{"a certificate that has not begun", engine + secure(later, laterKey, own.file), "", "", 1, "is the clock of this host right?"},
		{"a certificate of another host", engine + "listen = 10.0.0.4:7002\n" + secure(certificate, key, own.file),
			"", "", 1, "others ask at 10.0.0.4"},
		{"no certificate in the file", engine + secure(clients, key, own.file), "", "", 1, "it has no certificate in PEM"},
		{"who may tell places", engine, "", "", 0, "warning: site-tokens: anybody on this host may tell the places of sites"},
		{"who may from afar", engine + "listen = 10.0.0.4:7002\n",
			"", "", 0, "warning: site-tokens: anybody who reaches 10.0.0.4:7002 may tell the places of sites"},
		{"an open role", engine + "client-tokens = " + clients + "\nsite-tokens = open\n",
			"", "", 0, ":3: warning: site-tokens: anybody on this host may tell the places"},
		{"a closed role", engine + "client-tokens = " + clients + "\n",
			"", "", 0, "warning: site-tokens: nobody may tell the places of sites, since other roles have tokens"},
		{"a token for each site", engine + "site-tokens = " + clients + "\n",
			"", "", 0, ":2: warning: site-tokens: " + clients + " has a token that tells the places of each site"},
		{"a token of a client with a site", engine + "client-tokens = " + sites + "\n", "", "", 1, "only a token of a site names one"},
		{"a token that is short", engine + "client-tokens = " + tokens("short\n") + "\n", "", "", 1, ":2: error: client-tokens: "},
		{"tokens for everybody", engine + "site-tokens = " + mode(t, tokens("a-token-of-north-1 north\n"), 0o604) + "\n",
			"", "", 1, "has the mode 0604"},
		{"no TLS from afar", engine + "listen = 10.0.0.4:7002\n", "", "", 0, ":2: warning: listen: 10.0.0.4:7002 is without TLS"},
		{"no place to listen", engine + "listen = 7002\n", "", "", 2, ":2: error: listen: \"7002\" is not HOST:PORT"},
		{"a folder that is a file", engine + "archive = " + clients + "\n",
			"", "", 1, ":2: error: archive: " + clients + ": it is no folder"},
		{"a folder that will be made", engine + "archive = " + filepath.Join(folder, "new/er") + "\n",
			"", "", 0, "is not there, and is made at the start"},
		{"a folder that cannot be made", engine + "archive = " + clients + "/archive\n",
			"", "", 1, ":2: error: archive: " + clients + "/archive"},
		{"a folder for everybody", engine + "archive = " + mode(t, folder, 0o755) + "\n",
			"", "", 0, ":2: warning: archive: " + folder + " has the mode 0755"},
		{"one copy", engine + "archive = " + folder + "\ncopies = 1\n",
			"", "", 0, ":3: warning: copies: the engine drops an epoch once one host has its archive"},
		{"declarations that a store refuses", engine + "declarations = " + declared + "\n",
			"", "", 2, ":2: error: declarations: " + declared},
		{"declarations of Windows", engine + "declarations = " + tokens("object tea 4\r\nstart\r\n") + "\n",
			"", "", 2, "line 1 of the declarations, \"object tea 4\\r\", ends with CRLF"},
		{"primaries that are no addresses", engine + "primaries = 10.0.0.4:7002\n",
			"", "", 2, ":2: error: primaries: \"10.0.0.4:7002\" is no address"},
		{"a primary without a folder", engine, "--as primary", "", 2, "error: archive: the folder is missing"},
		{"a primary", engine + "archive = " + folder + "\n", "--as primary", "", 0, "ok 2 settings"},
		{"flags of a unit", engine + "archive = " + folder + "\n",
			"--as primary", "--listen 7002", 2, "FLAGS: error: listen: \"7002\" is not HOST:PORT"},
		{"flags win over the file", engine + "listen = 7002\narchive = " + folder + "\n",
			"--as primary", "--listen 127.0.0.1:7002", 0, "ok 3 settings"},
		{"a flag that is not known", engine + "archive = " + folder + "\n",
			"--as primary", "--lisen 7002", 2, "FLAGS: error: there is no flag --lisen"},
		{"a host with a slash", engine + "host = a/b\narchive = " + folder + "\n",
			"--as primary", "", 2, "are not a host and an address"},
		{"a site without a name", engine + "primaries = http://10.0.0.4:7002\n", "--as site", "", 2, "is no site"},
		{"a site without primaries", engine, "--as site", "--site north", 2, "error: primaries: the addresses are missing"},
		{"a site", engine + "primaries = http://10.0.0.4:7002\n", "--as site", "--site north", 0, "ok 2 settings"},
		{"a fleet of itself", engine + "primaries = http://10.0.0.4:7002\n",
			"--as fleet", "--fleet far --members far", 2, "has the name of its fleet"},
		{"an engine that does not answer", "engine = http://127.0.0.1:1\n", "--ask", "", 1, ":1: error: engine: it does not answer"},
	} {
		t.Run(row.name, func(t *testing.T) {
			t.Setenv("FLAGS", row.flags)
			given := file(t, "settings", row.text)
			status, out, log := run(context.Background(), append(append([]string{"check-settings"}, strings.Fields(row.words)...), given)...)
			if status != row.status || !strings.Contains(out, row.says) {
				t.Errorf("%d and not %d, without %q:\n%s%s", status, row.status, row.says, out, log)
			}
			for _, line := range strings.Split(strings.TrimSuffix(out, "\n"), "\n") {
				if !strings.HasPrefix(line, given+":") && !strings.HasPrefix(line, "FLAGS: ") && !strings.HasPrefix(line, "ok ") {
					t.Errorf("it says not where: %s", line)
				}
			}
		})
	}
}

func TestTheSettingsThatAreShippedAreRight(t *testing.T) {
	status, out, log := run(context.Background(), "check-settings", "../../systemd/settings.example")
	if status != exit.Done || strings.Contains(out, " error: ") || !strings.Contains(out, "site-tokens: anybody on this host may tell") {
		t.Errorf("%d: %s%s", status, out, log)
	}
	is(t, exit.Environment, "/nowhere: error: open /nowhere", "check-settings", "/nowhere")
	is(t, exit.Words, "say one file", "check-settings", "--as", "try", "settings")
}

func TestTheEngineIsAskedWhereThatIsWished(t *testing.T) {
	t.Parallel()
	members := etcdtest.Start(t, 1)
	given := file(t, "settings", "engine = "+members.Clients[0]+"\n")
	is(t, exit.Done, "engine: it answers, and has the script up to epoch 0", "check-settings", "--ask", given)
}
