package cluster

import "fmt"

// An Object has a value at each site. A Setup declares it.
type Object uint32

// A Group is a set of objects, which a limit weighs together. A Setup declares it.
type Group uint32

// A Site is a copy of all objects, which lags. A Setup declares it.
type Site uint32

// A Scope is what a limit weighs of an update.
type Scope struct{ kind, id uint32 }

// OfObject is how far the update moves the value of an object.
func OfObject(object Object) Scope { return Scope{scopeObject, uint32(object)} }

// OfGroup is how far it moves the values of a group's members, in sum.
func OfGroup(group Group) Scope { return Scope{scopeGroup, uint32(group)} }

// All is how far it moves all values, in sum, and Count is 1.
var (
	All   = Scope{scopeAll, 0}
	Count = Scope{scopeCount, 0}
)

// A Setup says what a cluster is opened with: objects, groups, sites and their limits. What may not be is the error of Open. The zero Setup
// declares nothing.
type Setup struct {
	// Before is how many updates came before, of clusters that this one follows, at most 10^18.
	Before uint64

	objects, groups, sites uint32
	declared               []declaration
}

// A declaration is told to the library as the cluster is opened, and has this identifier then.
type declaration struct {
	what    string
	declare func(*setup) (uint32, status)
	id      uint32
}

func (s *Setup) declare(what string, id uint32, declare func(*setup) (uint32, status)) uint32 {
	s.declared = append(s.declared[:len(s.declared):len(s.declared)], declaration{what, declare, id})
	return id
}

// Object declares an object with its initial value, from -1,000,000,000 to 1,000,000,000. There are at most 256 objects. A name is 1 to 16
// bytes of a to z, 0 to 9 and _ that begin with a letter.
func (s *Setup) Object(name string, initial int64) Object {
	s.objects++
	return Object(s.declare(fmt.Sprintf("object %q", name), s.objects-1, func(to *setup) (uint32, status) {
		return to.object(name, initial)
	}))
}

// Group declares a group of 1 to 64 objects. There are at most 32 groups.
func (s *Setup) Group(name string, members ...Object) Group {
	s.groups++
	members = append([]Object(nil), members...)
	return Group(s.declare(fmt.Sprintf("group %q", name), s.groups-1, func(to *setup) (uint32, status) {
		return to.group(name, members)
	}))
}

// Site declares a site. Its feed holds up to capacity updates that it has not applied, 1 to 1,024. There are at most 16 sites.
func (s *Setup) Site(name string, capacity uint64) Site {
	s.sites++
	return Site(s.declare(fmt.Sprintf("site %q", name), s.sites-1, func(to *setup) (uint32, status) {
		return to.site(name, capacity)
	}))
}

// Limit gives a site a limit: the acknowledged updates that it has not applied never weigh more than amount on the scope, 0 to 10^18. A site
// has at most 64 limits, each on a scope of its own.
func (s *Setup) Limit(site Site, scope Scope, amount uint64) {
	s.declare(fmt.Sprintf("limit of site %d", site), 0, func(to *setup) (uint32, status) {
		return 0, to.limit(site, scope, amount)
	})
}

// tell declares all to the library.
func (s *Setup) tell(to *setup) error {
	for _, it := range s.declared {
		id, status := it.declare(to)
		if err := status.fault(); err != nil {
			return fmt.Errorf("ordup: %s: %w", it.what, err)
		}
		if id != it.id {
			return fmt.Errorf("ordup: %s has the identifier %d and not %d", it.what, id, it.id)
		}
	}
	return nil
}
