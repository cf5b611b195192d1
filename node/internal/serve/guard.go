package serve

import (
	"crypto/sha256"
	"crypto/subtle"
	"errors"
	"fmt"
	"mime"
	"net/http"
	"os"
	"strings"

	"ordup.dev/node/internal/logs"
	"ordup.dev/node/internal/reload"
	"ordup.dev/node/internal/script"
	"ordup.dev/node/internal/wire"
)

// A Role is who may ask something, as the table of paths has it.
type Role = wire.Role

// The roles that tokens are of.
const (
	Clients   = wire.Clients
	Sites     = wire.Sites
	Operators = wire.Operators
)

// What a role needs. Open also stands in place of a file.
const (
	Open    = "open"
	ByToken = "tokens"
	closed  = "closed"
)

// leastToken is how many bytes a token has at least.
const leastToken = 16

// A Guard knows the tokens of each role. Where no role has a file, nobody needs a token. Where one has, a role is closed that has none, and
// is not open.
type Guard struct {
	// Log is told of files that were read again, or could not be.
	Log    *logs.Log
	tokens map[Role]*reload.Value[[]known]
	isOpen map[Role]bool
}

// A Token is one of a file. One with a site is for the places of this site alone.
type Token struct{ Text, Site string }

// A known token is one that may be shown, by its digest.
type known struct {
	digest [sha256.Size]byte
	site   string
}

// Load has a role show one of the tokens of a file, which is read again when it changes. So a token is replaced by a file that has both for
// a while.
func (g *Guard) Load(role Role, file string) error {
	if g.tokens == nil {
		g.tokens, g.isOpen = map[Role]*reload.Value[[]known]{}, map[Role]bool{}
	}
	if file == Open {
		g.isOpen[role] = true
		return nil
	}
	tokens, err := reload.New(g.Log, func() ([]known, error) { return knownOf(role, file) }, file)
	if err != nil {
		return err
	}
	g.tokens[role] = tokens
	if info, err := os.Stat(file); err == nil && info.Mode().Perm()&0o007 != 0 {
		g.Log.Warn("tokens-are-for-everybody", "file", file, "mode", info.Mode().Perm())
	}
	return nil
}

// Asks says whether a role is open, asks for tokens, or is closed, so that nobody has it.
func (g *Guard) Asks(role Role) string {
	switch {
	case g == nil || len(g.tokens) == 0 || g.isOpen[role]:
		return Open
	case g.tokens[role] == nil:
		return closed
	}
	return ByToken
}

func knownOf(role Role, file string) ([]known, error) {
	tokens, err := TokensOf(file)
	if err != nil {
		return nil, err
	}
	all := make([]known, len(tokens))
	for at, token := range tokens {
		if token.Site != "" && role != Sites {
			return nil, fmt.Errorf("%s: only a token of a site names one", file)
		}
		all[at] = known{sha256.Sum256([]byte(token.Text)), token.Site}
	}
	return all, nil
}

// TokensOf reads the tokens of a file, which has one a line, and maybe the site that it is of. There is one at least.
func TokensOf(file string) ([]Token, error) {
	text, err := os.ReadFile(file)
	if err != nil {
		return nil, err
	}
	tokens := []Token{}
	for _, line := range strings.Split(string(text), "\n") {
		words := strings.Fields(line)
		if len(words) == 0 || words[0][0] == '#' {
			continue
		}
		token := Token{Text: words[0]}
		if len(words) == 2 {
			token.Site = words[1]
		}
		if len(token.Text) < leastToken || len(words) > 2 || len(words) == 2 && !script.IsName(token.Site) {
			return nil, fmt.Errorf("%s: a line is a token of at least %d bytes, and maybe the site that it is of", file, leastToken)
		}
		tokens = append(tokens, token)
	}
	if len(tokens) == 0 {
		return nil, errors.New(file + " has no token")
	}
	return tokens, nil
}

// admit is why a request is not taken, or nil. Site is the one for whose places alone its token is, if it names one.
func (g *Guard) admit(role Role, asked *http.Request) (site string, err error) {
	if role != wire.Anybody {
		site, err = g.find(role, asked)
		if err != nil {
			return "", err
		}
	}
	return site, mayBeOfAPage(asked)
}

// find gives the site of the token that a request shows, if it is one of a role. The digests are compared, all of them and each in the same
// time, so that the time tells nothing of the tokens. A password is kept by browsers, and sent for any page: so it is for what is read.
func (g *Guard) find(role Role, asked *http.Request) (site string, err error) {
	switch g.Asks(role) {
	case Open:
		return "", nil
	case closed:
		return "", errClosed
	}
	kind, given, _ := strings.Cut(asked.Header.Get("Authorization"), " ")
	if _, password, isBasic := asked.BasicAuth(); isBasic && isLook(asked) {
		given = password
	} else if !strings.EqualFold(kind, "bearer") {
		return "", errNoToken
	}
	sum, found, tokens := sha256.Sum256([]byte(given)), -1, g.tokens[role].Now()
	for at, token := range tokens {
		found = subtle.ConstantTimeSelect(subtle.ConstantTimeCompare(sum[:], token.digest[:]), at, found)
	}
	if found < 0 {
		return "", errNoToken
	}
	return tokens[found].site, nil
}

// mayBeOfAPage is the error of a request that changes something and that a page of any origin could have a browser send, or nil. No page of
// a node sends one.
func mayBeOfAPage(asked *http.Request) error {
	if isLook(asked) {
		return nil
	}
	if asked.Header.Get("Origin") != "" {
		return errOtherOrigin
	}
	if kind, _, err := mime.ParseMediaType(asked.Header.Get("Content-Type")); err != nil || kind != "application/json" {
		return errNotJSON
	}
	return nil
}

// isLook is whether a request changes nothing.
func isLook(asked *http.Request) bool {
	return asked.Method == http.MethodGet || asked.Method == http.MethodHead
}

var (
	errNoToken     = wire.NewError(wire.NoToken, "the token is missing, or not one of those who may ask this")
	errClosed      = wire.NewError(wire.Closed, "this process has tokens of others, and none of those who may ask this")
	errOtherOrigin = wire.NewError(wire.OtherOrigin, "this is not for pages in a browser")
	errNotJSON     = wire.NewError(wire.NotJSON, "the header Content-Type is not application/json")
)

// otherSite is the error of a token that tells for another site.
func otherSite(own string) error {
	return wire.NewError(wire.OtherSite, "the token is of the site "+own+" alone")
}
