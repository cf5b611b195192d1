// measure FILE LINES: runs the lines of a file, so many by each call. Where LINES is 0 the updates of the file are made by methods, and
// the answer to `show a` comes after them. Writes the answers, and on standard error the seconds that the calls took.
package main

import (
	"bytes"
	"fmt"
	"log"
	"os"
	"strconv"
	"time"

	"ordup.dev/ordup"
)

// byMethods makes updates, each of five lines: `propose add:x:1`, `settle`, `send a`, `apply a`, `report a`.
func byMethods(store *ordup.Store, updates int) {
	for update := 0; update < updates; update++ {
		_, proposed := store.Propose(ordup.Add("x", 1))
		_, settled := store.Settle()
		_, sent := store.Send("a")
		_, applied := store.Apply("a")
		_, reported := store.Report("a")
		for _, err := range []error{proposed, settled, sent, applied, reported} {
			if err != nil {
				log.Fatal(err)
			}
		}
	}
}

func main() {
	text, err := os.ReadFile(os.Args[1])
	if err != nil {
		log.Fatal(err)
	}
	lines, err := strconv.Atoi(os.Args[2])
	if err != nil {
		log.Fatal(err)
	}
	store, err := ordup.Open()
	if err != nil {
		log.Fatal(err)
	}
	defer store.Close()
	if lines == 0 {
		at := bytes.Index(text, []byte("propose"))
		if _, err := store.Run(text[:at]); err != nil {
			log.Fatal(err)
		}
		start := time.Now()
		byMethods(store, bytes.Count(text, []byte("propose")))
		fmt.Fprintf(os.Stderr, "%.6f\n", time.Since(start).Seconds())
		shown, err := store.Run([]byte("show a"))
		if err != nil {
			log.Fatal(err)
		}
		os.Stdout.Write(shown)
		return
	}
	answers := make([]byte, 0, 1<<24)
	start := time.Now()
	for rest := text; len(rest) > 0; {
		end := 0
		for line := 0; line < lines && end < len(rest); line++ {
			end += bytes.IndexByte(rest[end:], '\n') + 1
		}
		some, err := store.Run(rest[:end])
		if err != nil {
			log.Fatal(err)
		}
		answers, rest = append(answers, some...), rest[end:]
	}
	fmt.Fprintf(os.Stderr, "%.6f\n", time.Since(start).Seconds())
	os.Stdout.Write(answers)
}
