package main

import (
	"os"

	"ordup.dev/node/internal/command"
	"ordup.dev/node/internal/exit"
	"ordup.dev/node/internal/library"
	"ordup.dev/node/internal/logs"
	"ordup.dev/node/internal/versions"
)

func main() {
	ctx, cancel := exit.Until()
	program := &command.Program{Versions: versions.All(), Build: versions.Build(), Open: library.Open, Checker: library.Checker,
		Out: os.Stdout, Err: os.Stderr, Log: logs.New(os.Stderr)}
	status := program.Run(ctx, os.Args[1:])
	cancel()
	os.Exit(int(status))
}
