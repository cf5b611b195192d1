package script

import (
	"fmt"
	"strconv"
	"strings"
)

// MostAmount is the greatest amount of a limit. Nothing passes it, so it stands where there is no limit: `none` is another word for it.
const MostAmount = 1_000_000_000_000_000_000

// A Limit is one of a site: what it weighs, as `count`, `all`, `object tea` or `group drinks`, and how much that may be at most.
type Limit struct {
	Scope  string
	Amount int64
}

// String is the limit as declarations have it.
func (l Limit) String() string { return l.Scope + " " + strconv.FormatInt(l.Amount, 10) }

// ParseLimit reads a limit as declarations have it, or with `none` as its amount. Whether an amount is too large the store says.
func ParseLimit(text string) (Limit, error) {
	words := strings.Fields(text)
	if last := len(words) - 1; last > 0 && isScope(words[:last]) {
		amount, err := strconv.ParseInt(words[last], 10, 64)
		if words[last] == "none" {
			amount, err = MostAmount, nil
		}
		if err == nil && amount >= 0 {
			return Limit{strings.Join(words[:last], " "), amount}, nil
		}
	}
	return Limit{}, fmt.Errorf("%.60q is no limit: say count 3, all 3, object NAME 3 or group NAME 3, or none in place of 3", text)
}

// isScope is whether these are the words of a scope.
func isScope(words []string) bool {
	switch words[0] {
	case "count", "all":
		return len(words) == 1
	case "object", "group":
		return len(words) == 2 && IsName(words[1])
	}
	return false
}

// Limits are those of a site, in the order of their declarations.
type Limits []Limit

// Changed are the limits once one of them is another one, or once there is one more. The others stay as they are.
func (l Limits) Changed(to Limit) Limits {
	changed := append(make(Limits, 0, len(l)+1), l...)
	for at := range changed {
		if changed[at].Scope == to.Scope {
			changed[at] = to
			return changed
		}
	}
	return append(changed, to)
}

// Of is the limit of a scope, if there is one.
func (l Limits) Of(scope string) (Limit, bool) {
	for _, limit := range l {
		if limit.Scope == scope {
			return limit, true
		}
	}
	return Limit{}, false
}

// Texts are the limits as declarations have them.
func (l Limits) Texts() []string {
	texts := make([]string, len(l))
	for at, limit := range l {
		texts[at] = limit.String()
	}
	return texts
}

// DeclaredLimit is the site and the limit that a declaration has, if it declares one.
func DeclaredLimit(words []string) (site string, limit Limit, is bool) {
	if len(words) < 4 || words[0] != "limit" {
		return "", Limit{}, false
	}
	limit, err := ParseLimit(strings.Join(words[2:], " "))
	return words[1], limit, err == nil
}
