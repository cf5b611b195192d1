package epoch

import (
	"fmt"
	"runtime"
	"strings"
	"testing"

	"ordup.dev/node/internal/script"
)

// A process that runs the script keeps who asked, and not the entries: neither by a name that asks again, nor by one that is carried over.
func TestNoTextOfEntriesStaysInMemory(t *testing.T) {
	const clients = 100
	filler := strings.Repeat("x", script.MostChangesBytes)
	for name, write := range map[string]func(*world){
		"asks again": func(world *world) {
			for number := int64(1); number <= 2; number++ {
				for client := 0; client < clients; client++ {
					world.ask(fmt.Sprintf("c%d", client), number, "add:tea:1") // It waits for north.
					for fill := int64(1); fill <= 40; fill++ {
						world.ask("fill", (number*clients+int64(client))*100+fill, filler)
					}
					world.keep(world.seal())
				}
			}
		},
		"is carried over": func(world *world) {
			begins := world.script[0]
			world.script = nil
			for client := 0; client < clients; client++ {
				entry := &script.Entry{Epoch: 1, Ordup: "1", Writer: "p1"}
				for fill := 0; fill <= 1000; fill++ {
					entry.Steps = append(entry.Steps, script.Step{Kind: script.Known, Client: "fill", Number: 1, Digest: strings.Repeat("0", 64), Epoch: 1,
						Answer: script.Answer{Refusal: script.Refusal{Number: 1, Name: strings.Repeat("x", 64)}}})
				}
				entry.Steps[0].Client, entry.Steps[0].Answer = fmt.Sprintf("c%d", client), script.Answer{Refusal: script.Refusal{Number: 6, Name: "UnknownObject"}}
				world.script = append(world.script, entry.Text())
			}
			world.script = append(world.script, begins)
		},
	} {
		t.Run(name, func(t *testing.T) {
			long := settings
			long.Every = MostEvery
			world := newWorld(t, long, shop)
			write(world)
			before, size := heap(), 0
			for _, text := range world.script {
				size += len(text)
			}
			core := world.replay(config("p2"))
			if kept := heap() - before; kept > int64(size)/10 || len(core.clients) <= clients {
				t.Errorf("of %d bytes %d are kept", size, kept)
			}
			runtime.KeepAlive(core)
			runtime.KeepAlive(world)
		})
	}
}

func heap() int64 {
	runtime.GC()
	var stats runtime.MemStats
	runtime.ReadMemStats(&stats)
	return int64(stats.HeapAlloc)
}
