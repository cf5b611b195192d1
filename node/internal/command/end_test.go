package command_test

import (
	"context"
	"fmt"
	"io"
	"net/http"
	"path/filepath"
	"strings"
	"testing"
	"time"
)

// awaitNumber waits until a primary has this among its numbers.
func (d *deployment) awaitNumber(line string) {
	d.t.Helper()
	for tries := 0; tries < 200; tries++ {
		for _, address := range d.primary {
			if answer, err := http.Get("http://" + address + "/metrics"); err == nil {
				text, _ := io.ReadAll(answer.Body)
				answer.Body.Close()
				if strings.Contains(string(text), line+"\n") {
					return
				}
			}
		}
		time.Sleep(50 * time.Millisecond)
	}
	d.t.Fatalf("no primary has the number %s", line)
}

func TestARequestOutlivesThePrimaryThatItWasAskedAt(t *testing.T) {
	deployment := deploy(t)
	deployment.is(0, "ok acked 1 epoch 1\n", "update", "ann", "1", "add:tea:-1")
	deployment.is(0, "epoch 1 place 1 tea=999", "value", "--seen", "1.1")
	deployment.awaitNumber(`ordup_site_applied_updates{site="north"} 1`)
	// Without north three updates pass, and the fourth one waits.
	deployment.stops["north"]()
	for number := 2; number <= 4; number++ {
		deployment.is(0, fmt.Sprintf("ok acked %d epoch 1\n", number), "update", "ann", fmt.Sprint(number), "add:tea:-1")
	}
	deployment.is(1, "there is no answer yet: the update waits for north", "update", "ann", "5", "add:tea:-1", "--patience", "2")
	answered := make(chan string, 1)
	go func() {
		_, out, log := run(context.Background(), append([]string{"update", "ann", "5", "add:tea:-1"}, deployment.common...)...)
		answered <- out + log
	}()
	time.Sleep(300 * time.Millisecond)
	for _, host := range []string{"p1", "p2"} {
		began := time.Now()
		if status, log := deployment.stops[host](); status != 0 || time.Since(began) > 4*time.Second {
			t.Error(host, status, log, time.Since(began))
		}
		deployment.start(host+" again", "primary", "--listen", deployment.primary[host[1]-'1'], "--host", host, "--archive",
			filepath.Join(t.TempDir(), host))
	}
	deployment.start("north again", "site", "--site", "north", "--listen", deployment.north)
	if answer := <-answered; !strings.Contains(answer, "ok acked 5 epoch 1") {
		t.Error(answer)
	}
	deployment.is(0, "epoch 1 place 5 tea=995", "value", "--seen", "1.5")
}
