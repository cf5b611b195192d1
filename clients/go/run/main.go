// Runs a script from the standard input through the library, and writes its answers: as `ordup run`.
package main

import (
	"bufio"
	"log"
	"os"

	"ordup.dev/ordup"
)

func main() {
	store, err := ordup.Open()
	if err != nil {
		log.Fatal(err)
	}
	defer store.Close()
	input, output := bufio.NewReader(os.Stdin), bufio.NewWriter(os.Stdout)
	for {
		line, end := input.ReadBytes('\n')
		answers, err := store.Run(line)
		output.Write(answers)
		if err != nil {
			log.Fatal(err)
		}
		if end != nil {
			break
		}
	}
	if err := output.Flush(); err != nil {
		log.Fatal(err)
	}
}
