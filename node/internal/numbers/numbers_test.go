package numbers

import (
	"fmt"
	"net/http"
	"net/http/httptest"
	"strings"
	"testing"
	"time"

	"github.com/prometheus/client_golang/prometheus/testutil"

	"ordup.dev/node/internal/epoch"
	"ordup.dev/node/internal/fleet"
	"ordup.dev/node/internal/primary"
	"ordup.dev/node/internal/script"
	"ordup.dev/node/internal/site"
)

func zero() int { return 7 }

func get(t *testing.T, handler http.Handler) string {
	t.Helper()
	answer := httptest.NewRecorder()
	handler.ServeHTTP(answer, httptest.NewRequest("GET", "/", nil))
	if answer.Code != 200 {
		t.Error(answer.Code, answer.Body)
	}
	return answer.Body.String()
}

func has(t *testing.T, text string, wants ...string) {
	t.Helper()
	for _, want := range wants {
		if !strings.Contains(text, want) {
			t.Errorf("there is no %q in %s", want, text)
		}
	}
}

var status = primary.Status{Writes: true, Lease: time.Second, Writer: "http://p1:1", Rounds: map[string]int64{"north": 9, "south": 0},
	LeaveKeys: map[string]primary.KeyCount{"south": {Keys: 3, WithoutLease: 2}}, Counts: primary.Counts{Requests: 5, Answers: 4},
	Since: 2 * time.Second, HasSeen: true, Archives: 1,
	Core: epoch.Status{Epoch: 3, Entries: 40, Updates: 8, Acknowledged: 6, Clients: 2, HeadWaits: 12 * time.Second, Due: true, DueSince: 3 * time.Second,
		Sites: []epoch.SiteStatus{{Name: "north", Applied: 4, Missing: 2, Rounds: 1, Waited: true, NextWaits: true, HasTold: true, Told: time.Second,
			Limits: script.Limits{{Scope: "count", Amount: 3}, {Scope: "object tea", Amount: 20}}, Lags: []int64{2, 19}}, {Name: "south", Applied: 8, Leaves: true}}}}

func TestNumbersOfAPrimary(t *testing.T) {
	t.Parallel()
	numbers := OfPrimary("1.2.3", zero, func() primary.Status { return status })
	numbers.Waited(3 * time.Millisecond)
	has(t, get(t, numbers.Handler()), `ordup_build_info{version="1.2.3"} 1`, "ordup_primary_writes 1", "ordup_epoch 3", "ordup_log_updates 8",
		"ordup_acknowledged_updates 6", "ordup_clients 2", "ordup_head_wait_seconds 12", `ordup_head_waits_for{site="north"} 1`,
		`ordup_head_waits_for{site="south"} 0`, `ordup_next_epoch_waits_for{site="north"} 1`, "ordup_next_epoch_due 1", "ordup_next_epoch_due_seconds 3",
		`ordup_site_missing_updates{site="north"} 2`, `ordup_site_rounds_total{site="north"} 9`, `ordup_site_told_seconds{site="north"} 1`,
		`ordup_leave_keys{site="south"} 3`, `ordup_leave_keys_without_lease{site="south"} 2`, `ordup_site_has_told{site="south"} 0`,
		`ordup_site_lag{limit="object tea",site="north"} 19`, `ordup_site_limit{limit="object tea",site="north"} 20`, "ordup_last_entry_seconds 2", "ordup_archives_waiting 1", "ordup_requests_total 5", "# TYPE ordup_requests_total counter",
		`ordup_update_wait_seconds_bucket{le="0.005"} 1`, "ordup_connections 7", "go_goroutines", "process_resident_memory_bytes")
}

func TestNumbersHaveTheFormOfPrometheus(t *testing.T) {
	t.Parallel()
	members := func() fleet.Status {
		return fleet.Status{Members: []fleet.MemberStatus{{Place: epoch.Place{Member: "east", Epoch: 2}}}}
	}
	for _, numbers := range []*Numbers{OfPrimary("1", zero, func() primary.Status { return status }).Numbers,
		OfSite("1", "north", zero, func() site.Status { return site.Status{HasTold: true, HasSeen: true} }), OfFleet("1", zero, members)} {
		problems, err := testutil.GatherAndLint(numbers.registry)
		if err != nil || len(problems) > 0 {
			t.Error(err, problems)
		}
	}
}

func TestThePageOfAPrimary(t *testing.T) {
	t.Parallel()
	lag := &Lag{}
	for at := 0; at < mostPoints+20; at++ {
		now := status
		now.Core.Sites = []epoch.SiteStatus{{Name: "north", Missing: int64(at % 50)}, {Name: "<b>", Missing: 3}}
		lag.add(&now)
	}
	text := get(t, PageOfPrimary("p1", lag, func() primary.Status { return status }))
	has(t, text, "It writes the script.", "The update 7 waits for north, for 12.0 s already.", "The next epoch has been due for 3.0 s, and waits for north.",
		"<td class=\"\">count 2 of 3, object tea 19 of 20</td>", "by the head, by the next epoch", "taken out, held by 3 keys in the engine", "<svg", `points="60.0,`, "&lt;b&gt;", `class="left">49</text>`)
	if strings.Contains(text, "<b>") {
		t.Error("a name is not quoted")
	}
	other := status
	other.Lease = 0
	has(t, get(t, PageOfPrimary("p1", lag, func() primary.Status { return other })), "the engine does not answer")
	other.Writes, other.Writer, other.Counts.Full = false, "", true
	has(t, get(t, PageOfPrimary("p1", lag, func() primary.Status { return other })), "knows of no primary that writes", "The engine is full")
}

func TestThePageOfASite(t *testing.T) {
	t.Parallel()
	now := site.Status{Serves: true, Place: 9, Told: 4, Acknowledged: 7, Values: map[string]int64{"tea": -5, "milk": 3}, Imports: map[string]int64{"tea": 2},
		Limits:  script.Limits{{Scope: "count", Amount: 3}, {Scope: "object tea", Amount: 20}, {Scope: "all", Amount: script.MostAmount}},
		HasSeen: true, Since: 107074 * time.Microsecond, Lease: 2664 * time.Millisecond, Entry: 1_234_567}
	lag := &Lag{}
	for at := int64(0); at <= 4; at++ {
		now.Told = at
		lag.addSite("north", &now)
	}
	row := func(cells ...string) string {
		return "<tr><td class=\"\">" + cells[0] + "</td><td class=\"n\">" + cells[1] + "</td><td class=\"n" + cells[2] + "</td></tr>"
	}
	has(t, get(t, PageOfSite("north", lag, func() site.Status { return now })), "It serves readers.", "the site north",
		row("count", "3 updates", " bad\">3 updates"), row("object tea", "20", "\">3 updates"), row("all", "none", "\">3 updates"),
		row("milk", "3", "\">0")+"\n"+row("tea", "-5", "\">2"), "as told by this site</h2><svg", `class="left">7</text>`,
		">2.7 s<", ">0.1 s<", ">1234567<", "whether the site serves readers</td><td class=\"n\">yes<")
	if now = (site.Status{Told: 4}); now.Lag() != 0 {
		t.Error("there is a lag of what is not acknowledged")
	}
}

func TestNumbersOfASiteAndAFleet(t *testing.T) {
	t.Parallel()
	now := site.Status{Serves: true, Entry: 9, Epoch: 2, Place: 5, Told: 4, HasTold: true, ToldSince: time.Second, Readers: 3, HasSeen: true, Since: time.Second}
	seen := func() site.Status { return now }
	has(t, get(t, OfSite("1", "north", zero, seen).Handler()), `ordup_site_serves{site="north"} 1`, `ordup_site_applied_updates{site="north"} 5`,
		`ordup_site_reported_updates{site="north"} 4`, `ordup_site_told_seconds{site="north"} 1`, "ordup_readers_total 3", "ordup_last_entry_seconds 1",
		`ordup_process_info{kind="site"} 1`)
	now.Serves, now.Values = false, nil
	text := get(t, PageOfSite("north", &Lag{}, seen))
	has(t, text, "It serves no reader now.")
	if strings.Contains(text, "Values") {
		t.Error("it has values that nobody is served")
	}
	far := fleet.Status{Looked: true, Members: []fleet.MemberStatus{
		{Place: epoch.Place{Member: "east", Epoch: 2, Applied: 5}, Told: time.Second}, {Place: epoch.Place{Member: "west"}}}}
	members := func() fleet.Status { return far }
	has(t, get(t, OfFleet("1", zero, members).Handler()), `ordup_member_applied_updates{site="east"} 5`, `ordup_member_told_seconds{site="east"} 1`,
		`ordup_member_epoch{site="west"} 0`, "ordup_unlisted_keys 0")
	has(t, get(t, PageOfFleet("far", members)), fmt.Sprintf("<td class=%q>not yet</td>", "n bad"))
	far.Looked, far.Unlisted = false, []string{"site/far/mid"}
	has(t, get(t, OfFleet("1", zero, members).Handler()), "ordup_unlisted_keys 1")
	has(t, get(t, PageOfFleet("far", members)), "the engine does not answer", "the key site/far/mid")
}
