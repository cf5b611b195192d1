package numbers

import (
	"time"

	"github.com/prometheus/client_golang/prometheus"

	"ordup.dev/node/internal/primary"
)

// A PrimaryNumbers is those of a primary.
type PrimaryNumbers struct {
	*Numbers
	waits prometheus.Histogram
}

// OfPrimary gives the numbers of a primary.
func OfPrimary(version string, connections func() int, status func() primary.Status) *PrimaryNumbers {
	numbers := &PrimaryNumbers{newNumbers("primary", version, connections, func() []sample {
		now := status()
		return append(ofPrimary(&now), ofSites(&now)...)
	}), prometheus.NewHistogram(prometheus.HistogramOpts{Name: "ordup_update_wait_seconds",
		Help:    "how long updates waited for their answer at this process",
		Buckets: []float64{.001, .002, .005, .01, .02, .05, .1, .2, .5, 1, 2, 5, 10, 30, 60}})}
	numbers.registry.MustRegister(numbers.waits)
	return numbers
}

// Waited takes how long an update waited for its answer.
func (p *PrimaryNumbers) Waited(wait time.Duration) { p.waits.Observe(wait.Seconds()) }

func ofPrimary(status *primary.Status) []sample {
	core := &status.Core
	samples := []sample{
		gauge("primary_writes", "whether this process writes the script", truth(status.Writes)),
		gauge("lease_seconds", "for how long the process may rely on its lease", status.Lease.Seconds()),
		gauge("epoch", "the epoch that was run last", float64(core.Epoch)),
		gauge("entries", "entries of the script that were run, of all epochs", float64(core.Entries)),
		gauge("epoch_requests", "requests that the epoch took", float64(core.Requests)),
		gauge("log_updates", "updates in the log of the epoch", float64(core.Updates)),
		gauge("acknowledged_updates", "updates of the epoch that are acknowledged", float64(core.Acknowledged)),
		gauge("clients", "clients that are remembered", float64(core.Clients)),
		gauge("head_wait_seconds", "how long the head, the first update that is not acknowledged, has waited for a round", core.HeadWaits.Seconds()),
		gauge("open_requests", "requests that wait to be taken", float64(status.Queued)),
		gauge("waiting_requests", "requests that wait for an answer", float64(status.Waiting)),
		gauge("next_epoch_due", "whether the next epoch is due", truth(core.Due)),
		gauge("next_epoch_due_seconds", "since when the next epoch is due, or 0", core.DueSince.Seconds()),
		gauge("archives_waiting", "epochs that have ended and are still in the engine", float64(status.Archives)),
		gauge("engine_full", "whether the engine took no write for want of space", truth(status.Counts.Full)),
		counter("requests_total", "requests that this process took", status.Counts.Requests),
		counter("answers_total", "answers that this process told", status.Counts.Answers),
		counter("entries_written_total", "entries that this process wrote", status.Counts.Entries),
		counter("entries_written_bytes_total", "bytes of these entries", status.Counts.Bytes),
		counter("engine_failures_total", "calls of the engine that failed, by any of its members", status.EngineFailures),
	}
	if status.HasSeen {
		samples = append(samples, gauge("last_entry_seconds", "since when this process has its last entry", status.Since.Seconds()))
	}
	return samples
}

func ofSites(status *primary.Status) []sample {
	samples := []sample{}
	for _, site := range status.Core.Sites {
		samples = append(samples,
			gauge("head_waits_for", "whether the head waits for the site, which a limit forces to tell first", truth(site.Waited)).of("site", site.Name),
			gauge("next_epoch_waits_for", "whether the next epoch waits for the site", truth(site.NextWaits)).of("site", site.Name),
			gauge("site_leaves", "whether the site is taken out", truth(site.Leaves)).of("site", site.Name),
			gauge("site_applied_updates", "updates of the epoch that the site told as applied", float64(site.Applied)).of("site", site.Name),
			gauge("site_missing_updates", "acknowledged updates that the site did not tell as applied", float64(site.Missing)).of("site", site.Name),
			counter("site_rounds_total", "forced rounds of the site in the epochs that this process has run", status.Rounds[site.Name]).
				of("site", site.Name),
			gauge("site_has_told", "whether the site told this process a place in this epoch", truth(site.HasTold)).of("site", site.Name))
		for at, lag := range site.Lags {
			limit := site.Limits[at]
			samples = append(samples,
				gauge("site_lag", "what the acknowledged updates weigh on the limit that the script does not have as told", float64(lag)).
					of("site", site.Name).of("limit", limit.Scope),
				gauge("site_limit", "what they may weigh at most", float64(limit.Amount)).of("site", site.Name).of("limit", limit.Scope))
		}
		if count, isKnown := status.LeaveKeys[site.Name]; isKnown {
			samples = append(samples,
				gauge("leave_keys", "keys in the engine that hold the site which is taken out", float64(count.Keys)).of("site", site.Name),
				gauge("leave_keys_without_lease", "those of them that have no lease", float64(count.WithoutLease)).of("site", site.Name))
		}
		if site.HasTold {
			samples = append(samples, gauge("site_told_seconds", "since when the site told this process nothing; it does every three seconds", site.Told.Seconds()).of("site", site.Name))
		}
	}
	return samples
}
