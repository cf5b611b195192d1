package command

import (
	"context"
	"fmt"

	"ordup.dev/node/internal/fsck"
	"ordup.dev/node/internal/settings"
)

func pruneSettings(program *Program, set *settings.Set) func(context.Context, []string) error {
	own, keep, copies, isDry := &engineSettings{}, int64(0), []string{}, false
	own.add(set)
	set.Number(&keep, "keep", 0, 1, 1<<53, "`NUMBER` of epochs whose archives stay, of those that have left the engine")
	set.List(&copies, "copy", "`FOLDER,..` of which each has a copy of what is deleted")
	set.Switch(&isDry, "dry-run", "say what would be deleted, and delete nothing")
	return func(ctx context.Context, folders []string) error {
		if len(folders) != 1 || len(copies) == 0 || keep == 0 {
			return wrong("say one folder with archives, --copy with folders that have copies, and --keep with how many epochs stay")
		}
		opened, err := own.open(program.Log)
		if err != nil {
			return err
		}
		defer opened.Close()
		what := "deletes"
		if isDry {
			what = "would delete"
		}
		pruned, err := fsck.Prune(ctx, fsck.PruneConfig{
			Config: fsck.Config{Folders: folders, Engine: opened, Versions: program.Versions, Open: program.Open, Checker: program.Checker,
				Tell: func(fsck.Epoch) {}},
			Copies: copies, Keep: keep, IsDry: isDry, Deletes: func(name string) { fmt.Fprintln(program.Out, what, name) }})
		if err != nil {
			return err
		}
		for _, folder := range pruned.OnOneDisk {
			program.Log.Warn("copies-on-one-disk", "folder", folders[0], "copies", folder)
		}
		fmt.Fprintf(program.Out, "ok %d deleted %d kept from epoch %d\n", pruned.Deleted, pruned.Kept, pruned.First)
		return nil
	}
}
