package epoch

import (
	"fmt"
	"strings"

	"ordup.dev/ordup/answer"

	"ordup.dev/node/internal/script"
)

// Lags are how much of each limit is used, by site and in the order of the limits of its status: what the acknowledged updates weigh that
// the script does not have as told. The store weighs them, by a query that reads at the site.
func (c *Core) Lags() (map[string][]int64, error) {
	lags := map[string][]int64{}
	if c.failure != nil {
		return nil, c.failure
	}
	for _, site := range c.sites.all {
		weights := map[string]int64{}
		for _, limit := range site.limits {
			lag, objects := c.acknowledged-site.applied, c.objectsOf(limit.Scope)
			switch {
			case lag <= 0:
				lag = 0
			case objects != nil:
				if err := c.weigh(site.name, objects, weights); err != nil {
					return nil, fmt.Errorf("weigh what the site %s lacks: %w", site.name, err)
				}
				lag = 0
				for _, object := range objects {
					lag += weights[object]
				}
			}
			lags[site.name] = append(lags[site.name], lag)
		}
	}
	return lags, nil
}

// objectsOf are those on which a limit of a scope weighs an update, or nil where it counts updates.
func (c *Core) objectsOf(scope string) []string {
	kind, name, _ := strings.Cut(scope, " ")
	switch kind {
	case "object":
		return []string{name}
	case "group":
		return c.groups[name]
	case "all":
		return c.objects
	}
	return nil
}

// weigh weighs what a site lacks on objects, but for those that were weighed before.
func (c *Core) weigh(site string, objects []string, weights map[string]int64) error {
	lines := fmt.Sprintf("begin lag %s %d\n", site, script.MostAmount)
	for _, object := range objects {
		if _, isThere := weights[object]; !isThere {
			lines += "read lag " + object + "\n"
		}
	}
	answers, err := c.store.Answers([]byte(lines + "abandon lag\n"))
	if err != nil {
		return err
	}
	for _, given := range answers {
		switch given := given.(type) {
		case answer.Read:
			weights[given.Object] = int64(given.Imported)
		case *answer.Refused:
			return given
		}
	}
	return nil
}
