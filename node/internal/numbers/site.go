package numbers

import (
	"ordup.dev/node/internal/fleet"
	"ordup.dev/node/internal/site"
)

// OfSite gives the numbers of a site.
func OfSite(version, name string, connections func() int, status func() site.Status) *Numbers {
	return newNumbers("site", version, connections, func() []sample { now := status(); return ofSite(name, &now) })
}

func ofSite(name string, now *site.Status) []sample {
	samples := []sample{
		gauge("site_serves", "whether the site serves readers", truth(now.Serves)).of("site", name),
		gauge("lease_seconds", "for how long the process may rely on its lease", now.Lease.Seconds()),
		gauge("epoch", "the epoch that was run last", float64(now.Epoch)),
		gauge("entries", "entries of the script that were run, of all epochs", float64(now.Entry)),
		gauge("site_applied_updates", "updates of the epoch that the site has applied", float64(now.Place)).of("site", name),
		gauge("site_reported_updates", "updates of the epoch that the script has as told", float64(now.Told)).of("site", name),
		counter("readers_total", "readers that were served", now.Readers),
		counter("engine_failures_total", "calls of the engine that failed, by any of its members", now.EngineFailures),
	}
	if now.HasTold {
		samples = append(samples, gauge("site_told_seconds", "since when this process told no place; it does every three seconds", now.ToldSince.Seconds()).of("site", name))
	}
	if now.HasSeen {
		samples = append(samples, gauge("last_entry_seconds", "since when this process has its last entry", now.Since.Seconds()))
	}
	return samples
}

// OfFleet gives the numbers of a fleet.
func OfFleet(version string, connections func() int, status func() fleet.Status) *Numbers {
	return newNumbers("fleet", version, connections, func() []sample {
		now := status()
		samples := []sample{gauge("unlisted_keys", "keys of the fleet in the engine that are of none of its sites", float64(len(now.Unlisted)))}
		for _, member := range now.Members {
			samples = append(samples,
				gauge("member_epoch", "the epoch of the place that the site told", float64(member.Place.Epoch)).of("site", member.Place.Member),
				gauge("member_applied_updates", "updates of it that the site told as applied", float64(member.Place.Applied)).
					of("site", member.Place.Member))
			if member.Place.Epoch > 0 {
				samples = append(samples,
					gauge("member_told_seconds", "since when the site told this process nothing; it does every three seconds", member.Told.Seconds()).of("site", member.Place.Member))
			}
		}
		return samples
	})
}
