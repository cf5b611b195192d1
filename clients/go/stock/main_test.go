package main

import (
	"encoding/json"
	"fmt"
	"io"
	"net/http"
	"net/http/httptest"
	"strings"
	"sync"
	"sync/atomic"
	"testing"
)

type client struct {
	*testing.T
	url, seen string
}

// ask gives the status and the body of an answer, and keeps what it has seen.
func (c *client) ask(method, path string) (int, string) {
	request, err := http.NewRequest(method, c.url+path, nil)
	if err != nil {
		c.Fatal(err)
	}
	request.Header.Set("Ordup-Seen", c.seen)
	answer, err := http.DefaultClient.Do(request)
	if err != nil {
		c.Error(err)
		return 0, ""
	}
	defer answer.Body.Close()
	body, err := io.ReadAll(answer.Body)
	if err != nil {
		c.Error(err)
	}
	if seen := answer.Header.Get("Ordup-Seen"); seen != "" {
		c.seen = seen
	}
	return answer.StatusCode, string(body)
}

// left is what a site has, by the answer of the service.
func (c *client) left(site, object string) (left int64) {
	var found struct {
		Left           int64
		Applied, Stale uint64
	}
	status, body := c.ask("GET", "/stock?site="+site+"&object="+object)
	if err := json.Unmarshal([]byte(body), &found); status != 200 || err != nil {
		c.Errorf("%d %q", status, body)
	}
	return found.Left
}

func served(t *testing.T) (*service, string) {
	s, err := open()
	if err != nil {
		t.Fatal(err)
	}
	server := httptest.NewServer(s.handler())
	t.Cleanup(func() {
		server.Close()
		if _, err := s.store.Close(); err != nil {
			t.Error(err)
		}
	})
	return s, server.URL
}

func TestASaleIsSeenAtEachSite(t *testing.T) {
	_, url := served(t)
	c := &client{T: t, url: url}
	status, body := c.ask("POST", "/sell?object=tea&count=3")
	if status != 200 || body != "{\"number\":1}\n" || c.seen != "1" {
		t.Errorf("%d %q, seen %s", status, body, c.seen)
	}
	for _, site := range []string{"north", "south"} {
		if left := c.left(site, "tea"); left != 997 {
			t.Errorf("%d are left at %s", left, site)
		}
	}
	for _, path := range []string{"/sell?object=tea&count=3", "/stock?site=west&object=tea", "/stock?site=north&object=oat"} {
		if status, body := c.ask("GET", path); status != 400 {
			t.Errorf("%s: %d %q", path, status, body)
		}
	}
	if _, body := c.ask("GET", "/metrics"); !strings.Contains(body, "ordup_updates_total 1\n") || !strings.Contains(body, "ordup_acknowledged_updates_total 1\n") {
		t.Error(body)
	}
	if _, body := c.ask("GET", "/metrics"); !strings.Contains(body, `ordup_site_lag_bags{site="north"} `) || !strings.Contains(body, `ordup_site_limit_bags{site="south"} 20`) {
		t.Error(body)
	}
}

// A small load: clerks sell what there is, and each sees its sales at both sites.
func TestClerksSellWhatThereIs(t *testing.T) {
	s, url := served(t)
	var sold, refused atomic.Int64
	var group sync.WaitGroup
	for clerk := 0; clerk < 8; clerk++ {
		group.Add(1)
		go func(clerk int) {
			defer group.Done()
			c := &client{T: t, url: url}
			last := int64(1001)
			for sale := 0; sale < 50 && !t.Failed(); sale++ {
				switch status, body := c.ask("POST", "/sell?object=tea&count=3"); status {
				case 200:
					sold.Add(3)
				case 409:
					refused.Add(1)
				default:
					t.Errorf("%d %q", status, body)
				}
				left := c.left([]string{"north", "south"}[sale%2], "tea")
				if left > last || left < 0 {
					t.Errorf("%d are left, and %d were", left, last)
				}
				last = left
			}
		}(clerk)
	}
	group.Wait()
	c := &client{T: t, url: url, seen: fmt.Sprint(s.store.Numbers().Acknowledged)}
	for _, site := range []string{"north", "south"} {
		if left := c.left(site, "tea"); left != 1000-sold.Load() {
			t.Errorf("%d are left at %s, and %d were sold", left, site, sold.Load())
		}
	}
	if sold.Load() != 999 || refused.Load() != 67 {
		t.Errorf("%d were sold, and %d times there were fewer", sold.Load(), refused.Load())
	}
}
