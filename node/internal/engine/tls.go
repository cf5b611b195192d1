package engine

import (
	"crypto/tls"
	"crypto/x509"
	"fmt"
	"os"

	"ordup.dev/node/internal/reload"
)

// TLSOf gives the TLS of a Config: by a file in PEM with the authority that the certificates of the members are of, and by the certificate
// of this process, where the members ask for one. Without both it is none.
func TLSOf(authority string, own *reload.Certificate) (*tls.Config, error) {
	if authority == "" && own == nil {
		return nil, nil
	}
	config := &tls.Config{MinVersion: tls.VersionTLS12}
	if authority != "" {
		text, err := os.ReadFile(authority)
		if err != nil {
			return nil, err
		}
		config.RootCAs = x509.NewCertPool()
		if !config.RootCAs.AppendCertsFromPEM(text) {
			return nil, fmt.Errorf("%s has no certificate", authority)
		}
	}
	if own != nil {
		config.GetClientCertificate = func(*tls.CertificateRequestInfo) (*tls.Certificate, error) { return own.Now(), nil }
	}
	return config, nil
}
