package primary_test

import (
	"context"
	"errors"
	"fmt"
	"strings"
	"testing"
	"time"

	"ordup.dev/node/internal/epoch"
	"ordup.dev/node/internal/exit"
	"ordup.dev/node/internal/modelstore"
	"ordup.dev/node/internal/primary"
	"ordup.dev/node/internal/site"
)

func TestAFullEngineTakesNoRequests(t *testing.T) {
	deployment := deploy(t, 1, "--quota-backend-bytes", "2000000")
	own, _ := deployment.primary(deployment.config("p1"))
	south, _ := deployment.site("south", "")
	is(t, "ok acked 1 epoch 1", deployment.ask("ann", 1, "add:tea:-1"))
	is(t, "epoch 1 place 1 tea=999999", deployment.read(south, site.Seen{Epoch: 1, Place: 1}))
	deployment.members.Fill()
	answer := make(chan string, 1)
	go func() { answer <- deployment.ask("ann", 2, "add:tea:-1") }()
	until(t, 30*time.Second, "it does not notice", func() bool { return own.Status().Counts.Full })
	_, err := own.Submit(context.Background(), epoch.Request{Client: "bob", Number: 1, Changes: "add:tea:-1"})
	is(t, primary.ErrFull, err)
	is(t, "epoch 1 place 1 tea=999999", deployment.read(south, site.Seen{}))
	deployment.members.Free()
	is(t, "ok acked 2 epoch 1", <-answer)
	is(t, "ok acked 3 epoch 1", deployment.ask("bob", 1, "add:tea:-1"))
}

// A store that fails under a request ends the process. Who asked is told at once to ask elsewhere.
func TestWhoAsksAStoreThatFails(t *testing.T) {
	deployment := deploy(t, 1)
	config := deployment.config("p1")
	config.Open = modelstore.OpenWrong(func(_, answer string) string { return strings.Replace(answer, "ok proposed", "ok posed", 1) })
	own, process := deployment.primary(config)
	until(t, 10*time.Second, "p1 does not write", func() bool { return own.Status().Writes })
	limited, cancel := context.WithTimeout(context.Background(), 20*time.Second)
	defer cancel()
	_, err := own.Submit(limited, epoch.Request{Client: "ann", Number: 1, Changes: "add:tea:-1"})
	var other *primary.NotWriterError
	is(t, []any{true, exit.Gap}, []any{errors.As(err, &other), exit.Of(<-process.done)})
}

// A script that is written by hand, or that lacks what a process has run, ends the processes that meet it.
func TestAScriptThatChanges(t *testing.T) {
	deployment := deploy(t, 1)
	own, writer := deployment.primary(deployment.config("p1"))
	until(t, 10*time.Second, "p1 does not write", func() bool { return own.Status().Writes })
	two, standby := deployment.primary(deployment.config("p2"))
	south, process := deployment.site("south", "")
	is(t, "ok acked 1 epoch 1", deployment.ask("ann", 1, "add:tea:-1"))
	is(t, "epoch 1 place 1 tea=999999", deployment.read(south, site.Seen{Epoch: 1, Place: 1}))
	until(t, 30*time.Second, "p2 does not follow", func() bool { return two.Status().Core.Written >= 2 })
	deployment.members.Put(fmt.Sprintf("script/%012d", 2), "by hand")
	is(t, exit.Gap, exit.Of(<-process.done))
	is(t, exit.Gap, exit.Of(<-standby.done))
	// The writer goes on, until it has to run the script again.
	is(t, nil, writer.end())
	_, writer = deployment.primary(deployment.config("p3"))
	is(t, exit.Gap, exit.Of(<-writer.done))
}

// The key of the last epoch is written by hand: who starts then cannot know where to begin.
func TestAnEpochThatIsNone(t *testing.T) {
	deployment := deploy(t, 1)
	deployment.members.Put("epoch", "by hand")
	_, writer := deployment.primary(deployment.config("p1"))
	_, process := deployment.site("south", "")
	is(t, []exit.Status{exit.Gap, exit.Gap}, []exit.Status{exit.Of(<-writer.done), exit.Of(<-process.done)})
}

func TestAScriptThatLacksAnEntry(t *testing.T) {
	deployment := deploy(t, 1)
	_, writer := deployment.primary(deployment.config("p1"))
	for number := int64(1); number <= 3; number++ {
		deployment.ask("ann", number, "add:tea:1")
	}
	deployment.members.Delete(fmt.Sprintf("script/%012d", 3))
	_, process := deployment.site("south", "")
	is(t, exit.Gap, exit.Of(<-process.done))
	is(t, nil, writer.end())
	_, writer = deployment.primary(deployment.config("p2"))
	is(t, exit.Gap, exit.Of(<-writer.done))
}
