package numbers

import (
	"bytes"
	"fmt"
	"html/template"
	"net/http"
	"sort"
	"strconv"
	"strings"
	"time"

	"ordup.dev/node/internal/epoch"
	"ordup.dev/node/internal/fleet"
	"ordup.dev/node/internal/primary"
	"ordup.dev/node/internal/script"
	"ordup.dev/node/internal/site"
)

// page renews itself, and asks for nothing else.
var page = template.Must(template.New("page").Parse(`<!DOCTYPE html>
<html lang="en"><head><meta charset="utf-8"><meta http-equiv="refresh" content="2"><title>{{.Title}}</title>
<style>body{font:16px sans-serif;margin:2em;color:#222;max-width:64em} h1{font-size:1.4em} h2{font-size:1.1em}
table{border-collapse:collapse} td,th{padding:.25em 1em;text-align:left;border-bottom:1px solid #ccc}
td.n,th.n{text-align:right;font-variant-numeric:tabular-nums} .bad{color:#b00020;font-weight:bold}
svg{width:100%;border:1px solid #ccc} svg text{font:12px sans-serif} .left{text-anchor:end} .grid{stroke:#ddd}</style></head>
<body><h1>{{.Title}}</h1>{{range .Says}}<p{{if .Bad}} class="bad"{{end}}>{{.Text}}</p>
{{end}}{{range .Tables}}{{if .Rows}}<h2>{{.Title}}</h2><table><tr>{{range .Heads}}<th class="{{if .N}}n{{end}}">{{.Text}}</th>{{end}}</tr>
{{range .Rows}}<tr>{{range .}}<td class="{{if .N}}n{{end}}{{if .Bad}} bad{{end}}">{{.Text}}</td>{{end}}</tr>
{{end}}</table>{{end}}{{end}}
{{if .Picture}}<h2>{{.Drawn}}</h2>{{.Picture}}{{end}}
<h2>Numbers</h2><table>{{range .Facts}}<tr><td>{{.Name}}</td><td class="n">{{.Text}}</td></tr>
{{end}}</table><p>All numbers are at <a href="metrics">metrics</a>.</p></body></html>
`))

// A cell is a text of the page. N is whether it is a number, and Bad whether an operator should look at it.
type cell struct {
	Name, Text string
	N, Bad     bool
}

// A table has its rows below heads, or is left out where there is no row.
type table struct {
	Title string
	Heads []cell
	Rows  [][]cell
}

type content struct {
	Title  string
	Says   []cell
	Tables []table
	// Drawn is what the picture shows.
	Drawn   string
	Picture template.HTML
	Facts   []cell
}

// serve shows what there is when it is asked.
func serve(look func() content) http.Handler {
	return http.HandlerFunc(func(to http.ResponseWriter, _ *http.Request) {
		var text bytes.Buffer
		if err := page.Execute(&text, look()); err != nil {
			http.Error(to, err.Error(), http.StatusInternalServerError)
			return
		}
		to.Header().Set("Content-Type", "text/html; charset=utf-8")
		to.Header().Set("Content-Security-Policy", "default-src 'none'; style-src 'unsafe-inline'; frame-ancestors 'none'")
		to.Header().Set("X-Frame-Options", "DENY")
		to.Header().Set("Cache-Control", "no-store")
		to.Write(text.Bytes())
	})
}

// PageOfPrimary is the page of a primary.
func PageOfPrimary(host string, lag *Lag, status func() primary.Status) http.Handler {
	return serve(func() content {
		now := status()
		sites := table{Title: "Sites"}
		for _, name := range []string{"site", "applied", "misses", "limits", "rounds", "told", "waited for"} {
			sites.Heads = append(sites.Heads, cell{Text: name, N: name == "applied" || name == "misses" || name == "rounds" || name == "told"})
		}
		for _, site := range now.Core.Sites {
			sites.Rows = append(sites.Rows, rowOf(&now, &site))
		}
		return content{Title: "ordup: the primary at " + host, Says: saysOf(&now), Tables: []table{sites},
			Drawn: "Updates that each site misses", Picture: lag.Picture(), Facts: facts(ofPrimary(&now))}
	})
}

// rowOf has what is known of a site.
func rowOf(status *primary.Status, site *epoch.SiteStatus) []cell {
	told, waits, count := "not yet", []string{}, status.LeaveKeys[site.Name]
	if site.HasTold {
		told = ago(site.Told)
	}
	for _, each := range []struct {
		is   bool
		text string
	}{{site.Waited, "by the head"}, {site.NextWaits, "by the next epoch"}, {site.Leaves, "taken out"},
		{count.Keys > 0, fmt.Sprintf("held by %d keys in the engine", count.Keys)}, {site.Gone, "gone"}} {
		if each.is {
			waits = append(waits, each.text)
		}
	}
	return []cell{{Text: site.Name}, {Text: fmt.Sprint(site.Applied), N: true}, {Text: fmt.Sprint(site.Missing), N: true},
		{Text: limitsOf(site)}, {Text: fmt.Sprint(status.Rounds[site.Name]), N: true}, {Text: told, N: true},
		{Text: strings.Join(waits, ", "), Bad: site.Waited || site.NextWaits}}
}

// limitsOf has the limits of a site, each with what of it is used: `count 2 of 3`.
func limitsOf(site *epoch.SiteStatus) string {
	texts := site.Limits.Texts()
	for at, lag := range site.Lags {
		limit := site.Limits[at]
		if texts[at] = fmt.Sprintf("%s %d of %d", limit.Scope, lag, limit.Amount); limit.Amount == script.MostAmount {
			texts[at] = limit.Scope + " none"
		}
	}
	return strings.Join(texts, ", ")
}

// saysOf says in words what a primary does, and what it waits for.
func saysOf(status *primary.Status) []cell {
	says := []cell{{Text: "It writes the script."}}
	if status.Writes && status.Lease == 0 {
		says[0] = cell{Text: "It writes the script, but its lease is over: the engine does not answer.", Bad: true}
	}
	if !status.Writes {
		says[0] = cell{Text: "It stands by for " + status.Writer + ", which writes the script."}
		if status.Writer == "" {
			says[0] = cell{Text: "It stands by, and knows of no primary that writes.", Bad: true}
		}
	}
	core, waited, next := &status.Core, []string{}, []string{}
	for _, site := range core.Sites {
		if site.Waited {
			waited = append(waited, site.Name)
		}
		if site.NextWaits {
			next = append(next, site.Name)
		}
	}
	if len(waited) > 0 {
		says = append(says, cell{Bad: true, Text: fmt.Sprintf("The update %d waits for %s, for %s already.", core.Acknowledged+1,
			strings.Join(waited, ", "), ago(core.HeadWaits))})
	}
	switch {
	case core.Ending:
		says = append(says, cell{Text: "The next epoch is being written."})
	case core.Due && len(next) > 0:
		says = append(says, cell{Bad: true, Text: fmt.Sprintf("The next epoch has been due for %s, and waits for %s.", ago(core.DueSince),
			strings.Join(next, ", "))})
	}
	if status.Counts.Full {
		says = append(says, cell{Text: "The engine is full, and takes no write.", Bad: true})
	}
	return says
}

// PageOfSite is the page of a site. It has the values while readers are served.
func PageOfSite(name string, lag *Lag, status func() site.Status) http.Handler {
	return serve(func() content {
		now, says := status(), cell{Text: "It serves readers."}
		if !now.Serves {
			says = cell{Text: "It serves no reader now.", Bad: true}
		}
		return content{Title: "ordup: the site " + name, Says: []cell{says}, Tables: []table{limitsOfSite(&now), valuesOf(&now)},
			Drawn: "Acknowledged updates that the script does not have as told by this site", Picture: lag.Picture(), Facts: facts(ofSite(name, &now))}
	})
}

// limitsOfSite has each limit, and beside it how many acknowledged updates the script does not have as told. What they weigh on a scope
// that is no count the primary tells.
func limitsOfSite(now *site.Status) table {
	limits := table{Title: "Limits", Heads: []cell{{Text: "limit"}, {Text: "at most", N: true}, {Text: "acknowledged, and not told", N: true}}}
	for _, limit := range now.Limits {
		most, isOfCount := fmt.Sprint(limit.Amount), limit.Scope == "count"
		switch {
		case limit.Amount == script.MostAmount:
			most = "none"
		case isOfCount:
			most += " updates"
		}
		limits.Rows = append(limits.Rows, []cell{{Text: limit.Scope}, {Text: most, N: true},
			{Text: fmt.Sprintf("%d updates", now.Lag()), N: true, Bad: isOfCount && now.Lag() > 0 && now.Lag() >= limit.Amount}})
	}
	return limits
}

// valuesOf has each value that readers are served, and how far it may be from what the acknowledged updates make of it.
func valuesOf(now *site.Status) table {
	values := table{Title: "Values", Heads: []cell{{Text: "object"}, {Text: "value", N: true}, {Text: "import, at most", N: true}}}
	objects := make([]string, 0, len(now.Values))
	for object := range now.Values {
		objects = append(objects, object)
	}
	sort.Strings(objects)
	for _, object := range objects {
		values.Rows = append(values.Rows, []cell{{Text: object}, {Text: fmt.Sprint(now.Values[object]), N: true}, {Text: fmt.Sprint(now.Imports[object]), N: true}})
	}
	return values
}

// PageOfFleet is the page of a fleet.
func PageOfFleet(name string, status func() fleet.Status) http.Handler {
	return serve(func() content {
		shown := content{Title: "ordup: the fleet " + name}
		members := table{Title: "Sites", Heads: []cell{{Text: "site"}, {Text: "epoch", N: true}, {Text: "applied", N: true}, {Text: "told", N: true}}}
		now := status()
		if !now.Looked {
			shown.Says = append(shown.Says, cell{Text: "It tells nothing: the engine does not answer.", Bad: true})
		}
		for _, key := range now.Unlisted {
			shown.Says = append(shown.Says, cell{Text: "It tells nothing: there is the key " + key + ", which is of none of its sites.", Bad: true})
		}
		for _, member := range now.Members {
			told := "not yet"
			if member.Place.Epoch > 0 {
				told = ago(member.Told)
			}
			members.Rows = append(members.Rows, []cell{{Text: member.Place.Member}, {Text: fmt.Sprint(member.Place.Epoch), N: true},
				{Text: fmt.Sprint(member.Place.Applied), N: true}, {Text: told, N: true, Bad: told == "not yet"}})
		}
		shown.Tables = []table{members}
		return shown
	})
}

func facts(samples []sample) []cell {
	rows := []cell{}
	for _, each := range samples {
		rows = append(rows, cell{Name: each.help, Text: each.text(), N: true})
	}
	return rows
}

// text is the number as a person reads it, with its unit where the help does not say what is counted.
func (s sample) text() string {
	plain := strconv.FormatFloat(s.value, 'f', -1, 64)
	switch {
	case strings.HasSuffix(s.name, "_seconds"):
		return ago(time.Duration(s.value * float64(time.Second)))
	case strings.HasSuffix(strings.TrimSuffix(s.name, "_total"), "_bytes"):
		return plain + " bytes"
	case strings.HasPrefix(s.help, "whether ") && s.value == 1:
		return "yes"
	case strings.HasPrefix(s.help, "whether "):
		return "no"
	}
	return plain
}

func ago(since time.Duration) string { return fmt.Sprintf("%.1f s", since.Seconds()) }
