package command

import (
	"context"
	"fmt"

	"ordup.dev/node/internal/fsck"
	"ordup.dev/node/internal/settings"
)

func fsckSettings(program *Program, set *settings.Set) func(context.Context, []string) error {
	own, from := &engineSettings{}, int64(0)
	own.add(set)
	set.Number(&from, "from", 0, 0, 1<<53, "`EPOCH` of the first archive: 0 stands for 1, or the first that prune left")
	return func(ctx context.Context, folders []string) error {
		if len(folders) == 0 && len(own.members) == 0 {
			return wrong("say the folders with archives, or the engine")
		}
		config := fsck.Config{Folders: folders, From: from, Versions: program.Versions, Open: program.Open, Checker: program.Checker,
			Tell: func(checked fsck.Epoch) { fmt.Fprintln(program.Out, checked) }}
		if len(own.members) > 0 {
			opened, err := own.open(program.Log)
			if err != nil {
				return err
			}
			defer opened.Close()
			config.Engine = opened
		}
		archives, entries, err := fsck.Run(ctx, config)
		if err == nil {
			fmt.Fprintf(program.Out, "ok %d archives %d entries\n", archives, entries)
		}
		return err
	}
}
