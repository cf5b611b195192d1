package command

import (
	"fmt"
	"os"
	"strings"

	"ordup.dev/node/internal/client"
	"ordup.dev/node/internal/engine"
	"ordup.dev/node/internal/exit"
	"ordup.dev/node/internal/logs"
	"ordup.dev/node/internal/reload"
	"ordup.dev/node/internal/settings"
)

// engineSettings say where the engine is.
type engineSettings struct {
	members                     []string
	authority, certificate, key string
	user, password              string
	// shown is what a member is shown that asks for a certificate, or nil.
	shown *reload.Certificate
}

func (e *engineSettings) add(set *settings.Set) {
	set.List(&e.members, "engine", "`ADDRESS,..` of the members of etcd, as http://10.0.0.1:2379")
	set.Text(&e.authority, "engine-authority", "", "`FILE` in PEM with the authority of their certificates")
	set.Text(&e.certificate, "engine-certificate", "", "`FILE` in PEM with the certificate of this process for etcd")
	set.Text(&e.key, "engine-key", "", "`FILE` in PEM with the key of this certificate")
	set.Text(&e.user, "engine-user", "", "`NAME` of the user of etcd")
	set.Text(&e.password, "engine-password", "", "`FILE` with the password of this user")
}

func (e *engineSettings) secure(log *logs.Log, config *engine.Config) (err error) {
	if e.certificate != "" || e.key != "" {
		if e.shown, err = reload.Pair(e.certificate, e.key, log); err != nil {
			return err
		}
	}
	config.TLS, err = engine.TLSOf(e.authority, e.shown)
	return err
}

func (e *engineSettings) open(log *logs.Log) (*engine.Engine, error) {
	if len(e.members) == 0 {
		return nil, wrong("engine: the addresses of the members are missing")
	}
	isSecure := e.authority != "" || e.certificate != "" || e.key != ""
	for _, member := range e.members {
		if !client.IsAddress(member) {
			return nil, wrong("engine: %.80q is no address as http://10.0.0.1:2379", member)
		}
		if isSecure != strings.HasPrefix(member, "https://") {
			return nil, wrong("engine: %s and the settings of certificates do not fit: https:// needs engine-authority, and http:// has none", member)
		}
	}
	if (e.user == "") != (e.password == "") {
		return nil, wrong("engine-user and engine-password belong together")
	}
	config := engine.Config{Members: e.members, User: e.user}
	if err := e.secure(log, &config); err != nil {
		return nil, exit.With(exit.Environment, fmt.Errorf("engine: %w", err))
	}
	if e.password != "" {
		text, err := os.ReadFile(e.password)
		if err != nil {
			return nil, fmt.Errorf("engine-password: %w", err)
		}
		config.Password = strings.TrimSpace(string(text))
		if config.Password == "" {
			return nil, wrong("engine-password: %s is empty", e.password)
		}
	}
	return engine.Open(config), nil
}
