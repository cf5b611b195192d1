package command

import (
	"crypto/tls"
	"crypto/x509"
	"encoding/pem"
	"errors"
	"os"
	"path/filepath"
	"time"

	"golang.org/x/sys/unix"

	"ordup.dev/node/internal/exit"
	"ordup.dev/node/internal/serve"
)

// soon is how long before its end a certificate is told of.
const soon = 30 * 24 * time.Hour

// pair looks at a certificate and its key, of which both or none are named: that they fit each other, that they hold now, and that whoever
// has the authority believes the process at this host, if that is known.
func (c *checkup) pair(certificateKey, keyKey, certificate, key, authority, host string, isServer bool) {
	if certificate == "" && key == "" {
		return
	}
	if certificate == "" || key == "" {
		c.wrongAt(certificateKey, exit.Words, "it belongs together with %s", keyKey)
		return
	}
	c.secret(keyKey, key)
	chain, err := certificatesOf(certificate)
	if err != nil {
		c.wrongAt(certificateKey, exit.Environment, "%v", err)
		return
	}
	if _, err = tls.LoadX509KeyPair(certificate, key); err != nil {
		c.wrongAt(certificateKey, exit.Environment, "%s and %s: %v", certificate, key, err)
	}
	if !c.holds(certificateKey, certificate, chain[0]) {
		return
	}
	options, usage := x509.VerifyOptions{CurrentTime: c.now, Intermediates: x509.NewCertPool()}, x509.ExtKeyUsageClientAuth
	if isServer {
		usage = x509.ExtKeyUsageServerAuth
	}
	options.KeyUsages = []x509.ExtKeyUsage{usage}
	for _, each := range chain[1:] {
		options.Intermediates.AddCert(each)
	}
	roots, err := certificatesOf(authority)
	if err == nil {
		options.Roots = x509.NewCertPool()
		for _, each := range roots {
			options.Roots.AddCert(each)
		}
		if _, err = chain[0].Verify(options); err != nil {
			c.wrongAt(certificateKey, exit.Environment, "%s is not believed by who has %s: %v: have this authority sign it", certificate,
				authority, err)
		}
	}
	if !isServer || host == "" {
		return
	}
	if err = chain[0].VerifyHostname(host); err != nil {
		c.wrongAt(certificateKey, exit.Environment, "%s: %v: others ask at %s, so have one made for that", certificate, err, host)
	}
}

// holds is whether a certificate holds now. How long it does is told.
func (c *checkup) holds(key, file string, certificate *x509.Certificate) bool {
	ends, left := certificate.NotAfter.UTC().Format("2006-01-02"), certificate.NotAfter.Sub(c.now)
	days := int(left / (24 * time.Hour))
	switch {
	case left < 0:
		c.wrongAt(key, exit.Environment, "%s ended %d days ago, on %s: put a new one in its place", file, -days, ends)
	case c.now.Before(certificate.NotBefore):
		c.wrongAt(key, exit.Environment, "%s begins on %s: is the clock of this host right?", file,
			certificate.NotBefore.UTC().Format("2006-01-02"))
		return false
	case left < soon:
		c.warn(key, "%s: %s ends in %d days, on %s; put a new one in its place before", key, file, days, ends)
	default:
		c.note(key, "%s: %s ends in %d days, on %s", key, file, days, ends)
	}
	return left >= 0
}

// authority looks at the certificates of an authority.
func (c *checkup) authority(key, file string) {
	if file == "" {
		return
	}
	all, err := certificatesOf(file)
	if err != nil {
		c.wrongAt(key, exit.Environment, "%v", err)
		return
	}
	for _, each := range all {
		c.holds(key, file, each)
	}
}

// certificatesOf reads a file in PEM. It has one certificate at least.
func certificatesOf(file string) ([]*x509.Certificate, error) {
	text, err := os.ReadFile(file)
	if err != nil {
		return nil, err
	}
	all := []*x509.Certificate{}
	for block, rest := pem.Decode(text); block != nil; block, rest = pem.Decode(rest) {
		if block.Type != "CERTIFICATE" {
			continue
		}
		certificate, err := x509.ParseCertificate(block.Bytes)
		if err != nil {
			return nil, &os.PathError{Op: "parse", Path: file, Err: err}
		}
		all = append(all, certificate)
	}
	if len(all) == 0 {
		return nil, &os.PathError{Op: "parse", Path: file, Err: errors.New("it has no certificate in PEM")}
	}
	return all, nil
}

// secret looks whether this user may read a file, and others may not.
func (c *checkup) secret(key, file string) {
	if file == "" {
		return
	}
	info, err := os.Stat(file)
	if err == nil {
		err = unix.Access(file, unix.R_OK)
	}
	switch {
	case err != nil:
		c.wrongAt(key, exit.Environment, "%s: %v: it is to be there, and readable for the user of the process", file, err)
	case info.Mode().Perm()&0o007 != 0:
		c.wrongAt(key, exit.Environment, "%s has the mode %#o, so anybody on this host may use it: chmod 0640, and chown root:ordup-node", file,
			info.Mode().Perm())
	}
}

// tokens looks at a file with tokens. Those of sites may name the one whose places they are for.
func (c *checkup) tokens(key, file string, isOfSites bool) {
	if file == "" || file == serve.Open {
		return
	}
	c.secret(key, file)
	tokens, err := serve.TokensOf(file)
	if err != nil {
		c.wrongAt(key, exit.Environment, "%v", err)
		return
	}
	for _, each := range tokens {
		switch {
		case each.Site != "" && !isOfSites:
			c.wrongAt(key, exit.Environment, "%s: only a token of a site names one", file)
		case each.Site == "" && isOfSites:
			c.warn(key, "%s: %s has a token that tells the places of each site; put the name of its site behind it", key, file)
		}
	}
}

// folder looks whether this user may write into a folder, or make it, and whether others may read there.
func (c *checkup) folder(key, folder string) {
	info, err := os.Stat(folder)
	if errors.Is(err, os.ErrNotExist) {
		above := filepath.Dir(folder)
		for {
			if _, err := os.Stat(above); !errors.Is(err, os.ErrNotExist) || above == filepath.Dir(above) {
				break
			}
			above = filepath.Dir(above)
		}
		if err := unix.Access(above, unix.W_OK|unix.X_OK); err != nil {
			c.wrongAt(key, exit.Environment, "%s is not there, and in %s it cannot be made: %v: make it, for the user of the process", folder,
				above, err)
		} else {
			c.note(key, "%s: %s is not there, and is made at the start", key, folder)
		}
		return
	}
	if err == nil && !info.IsDir() {
		err = errors.New("it is no folder")
	}
	if err == nil {
		err = unix.Access(folder, unix.R_OK|unix.W_OK|unix.X_OK)
	}
	switch {
	case err != nil:
		c.wrongAt(key, exit.Environment, "%s: %v: it is to be a folder that the user of the process may write into", folder, err)
	case info.Mode().Perm()&0o007 != 0:
		c.warn(key, "%s: %s has the mode %#o, so anybody on this host may see what clients ask; chmod 0750", key, folder,
			info.Mode().Perm())
	}
}
