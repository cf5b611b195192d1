package engine

import (
	"fmt"
	"strconv"
	"strings"

	"ordup.dev/node/internal/exit"
)

// The keys of a deployment:
//
//	script/NUMBER          an entry, which is created where there is none, and never changed
//	epoch                  the last epoch, and the number of its first entry
//	primary                the process that writes, under its lease
//	site/FLEET/SITE        the process that serves a site, under its lease
//	archive/EPOCH/HOST     the digest of the archive that a host has of an epoch, whose entries are still here
const (
	scriptKeys, scriptEnd = "script/0", "script/:"
	epochKey              = "epoch"
	// PrimaryKey is the key of the primary's lease.
	PrimaryKey  = "primary"
	siteKeys    = "site/"
	archiveKeys = "archive/"
)

// SiteKey is the key of a site's lease. A site that is no fleet is its own.
func SiteKey(fleet, site string) string { return siteKeys + fleet + "/" + site }

// keysOf is the range of the keys of the leases of a fleet or a site.
func keysOf(fleet string) (from, to string) { return siteKeys + fleet + "/", siteKeys + fleet + "0" }

func entryKey(number int64) string { return fmt.Sprintf("script/%012d", number) }

// numberOf is the number of an entry, or 0 of a key that is none.
func numberOf(key []byte) int64 {
	digits := strings.TrimPrefix(string(key), "script/")
	number, err := strconv.ParseInt(digits, 10, 64)
	if err != nil || number < 1 || string(key) != entryKey(number) {
		return 0
	}
	return number
}

func archiveKey(epoch int64, host string) string {
	return fmt.Sprintf("%s%012d/%s", archiveKeys, epoch, host)
}

// archiveOf is what the key of an archive names, and whether it is one.
func archiveOf(key []byte) (epoch int64, host string, isOne bool) {
	digits, host, _ := strings.Cut(strings.TrimPrefix(string(key), archiveKeys), "/")
	epoch, err := strconv.ParseInt(digits, 10, 64)
	return epoch, host, err == nil && string(key) == archiveKey(epoch, host)
}

// epochValue is the value of the key `epoch`.
func epochValue(epoch, first int64) string { return fmt.Sprintf("%d %d", epoch, first) }

// epochOf reads the value of the key `epoch`.
func epochOf(value []byte) (epoch, first int64, err error) {
	one, other, _ := strings.Cut(string(value), " ")
	epoch, err = strconv.ParseInt(one, 10, 64)
	if err == nil {
		first, err = strconv.ParseInt(other, 10, 64)
	}
	if err != nil || epoch < 1 || first < 1 {
		return 0, 0, exit.With(exit.Gap, &WrongError{fmt.Sprintf("the key %s has %.40q, which is not an epoch and an entry", epochKey, value)})
	}
	return epoch, first, nil
}
