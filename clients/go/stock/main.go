// Stock is a service that sells tea and rye from two sites by HTTP: an example of the package cluster.
//
//	POST /sell?object=tea&count=3        sells, if so many are left: 200, or 409 where there are fewer
//	GET  /stock?site=north&object=tea    how many are left at a site, by what it has applied
//	GET  /metrics                        the numbers of the store, for Prometheus
//
// An answer tells how many updates it has seen, as Ordup-Seen. A client that sends this back sees its own sales at each site.
//
// `go run ./stock` serves at 127.0.0.1:8080, until it is interrupted.
package main

import (
	"context"
	"encoding/json"
	"errors"
	"fmt"
	"log"
	"net/http"
	"os"
	"os/signal"
	"strconv"
	"strings"
	"time"

	"ordup.dev/ordup/cluster"
)

type service struct {
	store   *cluster.Cluster
	objects map[string]cluster.Object
	sites   map[string]cluster.Site
}

// open opens the store: what was sold, and a site has not applied, is never more than 20.
func open() (*service, error) {
	s, setup := &service{objects: map[string]cluster.Object{}, sites: map[string]cluster.Site{}}, cluster.Setup{}
	for _, name := range []string{"tea", "rye"} {
		s.objects[name] = setup.Object(name, 1000)
	}
	for _, name := range []string{"north", "south"} {
		s.sites[name] = setup.Site(name, 64)
		setup.Limit(s.sites[name], cluster.All, 20)
	}
	store, err := cluster.Open(setup)
	s.store = store
	return s, err
}

func (s *service) handler() http.Handler {
	paths := http.NewServeMux()
	paths.HandleFunc("/sell", s.sell)
	paths.HandleFunc("/stock", s.stock)
	paths.HandleFunc("/metrics", s.metrics)
	return paths
}

// asked gives the object of a request, its session, and a context for as long as an answer may take.
func (s *service) asked(r *http.Request) (cluster.Object, *cluster.Session, context.Context, context.CancelFunc, error) {
	ctx, cancel := context.WithTimeout(r.Context(), time.Second)
	object, isKnown := s.objects[r.FormValue("object")]
	if !isKnown {
		return 0, nil, ctx, cancel, cluster.ErrUnknownObject
	}
	seen, _ := strconv.ParseUint(r.Header.Get("Ordup-Seen"), 10, 64)
	return object, &cluster.Session{Seen: seen}, ctx, cancel, nil
}

func (s *service) sell(w http.ResponseWriter, r *http.Request) {
	object, session, ctx, cancel, err := s.asked(r)
	defer cancel()
	count, bad := strconv.ParseUint(r.FormValue("count"), 10, 16)
	if r.Method != http.MethodPost || bad != nil || err != nil {
		http.Error(w, "POST /sell?object=NAME&count=N", http.StatusBadRequest)
		return
	}
	number, err := s.store.ProposeIf(ctx, session, []cluster.Condition{cluster.AtLeast(object, 0)}, cluster.Add(object, -int64(count)))
	answer(w, session, map[string]uint64{"number": number}, err)
}

func (s *service) stock(w http.ResponseWriter, r *http.Request) {
	object, session, ctx, cancel, err := s.asked(r)
	defer cancel()
	at, isKnown := s.sites[r.FormValue("site")]
	if !isKnown || err != nil {
		http.Error(w, "GET /stock?site=NAME&object=NAME", http.StatusBadRequest)
		return
	}
	seen, err := s.store.ReadWhenLevel(ctx, session, at, object)
	// So many updates are acknowledged that the value may lack: what it lacks is within the limits of the site.
	stale := uint64(0)
	if acknowledged := s.store.Numbers().Acknowledged; acknowledged > seen.Applied {
		stale = acknowledged - seen.Applied
	}
	answer(w, session, map[string]any{"left": seen.Value, "applied": seen.Applied, "stale": stale}, err)
}

// answer writes what came of a call.
func answer(w http.ResponseWriter, session *cluster.Session, found any, err error) {
	var unmet cluster.ErrUnmet
	switch {
	case err == nil:
		w.Header().Set("Ordup-Seen", strconv.FormatUint(session.Seen, 10))
		json.NewEncoder(w).Encode(found)
	case errors.As(err, &unmet):
		http.Error(w, "there are fewer", http.StatusConflict)
	default:
		// After ErrNotYet the sale stands, and the error tells its number. After ErrBehind another site may have more.
		http.Error(w, err.Error(), http.StatusServiceUnavailable)
	}
}

// metrics writes the live numbers, those of a name together.
func (s *service) metrics(w http.ResponseWriter, _ *http.Request) {
	numbers, rows := s.store.Numbers(), map[string][]string{}
	add := func(name, labels string, value uint64) {
		rows[name] = append(rows[name], fmt.Sprintf("ordup_%s%s %d\n", name, labels, value))
	}
	add("updates_total", "", numbers.Length)
	add("acknowledged_updates_total", "", numbers.Acknowledged)
	for name, at := range s.sites {
		labels := fmt.Sprintf("{site=%q}", name)
		if it, err := s.store.SiteNumbers(at); err == nil {
			add("site_applied_updates_total", labels, it.Applied)
			add("site_rounds_total", labels, it.Rounds)
		}
		lags, _ := s.store.Lags(at)
		for _, lag := range lags {
			add("site_lag_bags", labels, lag.Weight)
			add("site_limit_bags", labels, lag.Amount)
		}
	}
	for name, lines := range rows {
		kind := "gauge"
		if strings.HasSuffix(name, "_total") {
			kind = "counter"
		}
		fmt.Fprintf(w, "# TYPE ordup_%s %s\n%s", name, kind, strings.Join(lines, ""))
	}
}

func main() {
	s, err := open()
	if err != nil {
		log.Fatal(err)
	}
	server := &http.Server{Addr: "127.0.0.1:8080", Handler: s.handler()}
	ctx, cancel := signal.NotifyContext(context.Background(), os.Interrupt)
	defer cancel()
	// ctx has ended then, and requests that are under way are answered all the same.
	go func() { <-ctx.Done(); server.Shutdown(context.Background()) }()
	if err := server.ListenAndServe(); err != http.ErrServerClosed {
		log.Print(err)
	}
	if _, err := s.store.Close(); err != nil {
		log.Fatal(err)
	}
}
