// Package epoch has what a script comes to: a core that is stepped by entries, requests and places, and gives the next entry.
//
// It has no engine, no threads and no clock. Whoever has these calls it, from one goroutine at a time, with the time where it matters:
//
//	core := epoch.New(config, first)
//	core.Replay(number, entry)        for each entry of the script, in order
//
// At the end of the script a primary may write:
//
//	replies, err := core.Ask(requests, now)   what clients ask goes into the open batch, or has its answer, or waits
//	limited, err := core.AskLimit(limit, now)   a limit of a site is changed, or the store refuses it
//	err = core.Tell(place, now)                what a site has shown
//	again, err := core.Work(now)               adds what sites told, and asks for acknowledgements
//	batch, err := core.Seal(now)                the open batch as an entry, or nil where there is nothing to write
//	core.Written(batch.Number)                  the entry is in the script, so its answers may be told
//
// A batch is run as its steps come, before it is written. The open batch takes requests while the batch before is on its way. Nothing is told
// for good, an answer or a refusal, before the entry that it rests on is written. Where an entry cannot be written, the core is dropped,
// and a new one runs the script.
//
// Who runs the script does not believe its writer. Each number of a client is greater than its last one. A site tells no more than there
// is, and is gone only after it was taken out. An epoch ends because of a wish or of so many requests, once all is acknowledged and each site
// has told the last place or is gone, and the next one begins with the values of that end. A process without
// a core, as a site, has a Judge for that. A writer gives out no batch that its own program does not read.
//
// # The clients
//
// A client numbers its requests. Its last number, the digest of its changes and its answer are in a table, which follows from the
// entries: requests and answers stand in them. A number that was taken is never taken again: it has its answer, or waits for it, or with
// other changes it is refused. A number before the last one is refused. At the end of an epoch the table is carried over by entries
// that have nothing else, before the one that begins the next epoch, but for clients that did not ask for so many epochs and so many
// seconds. The seconds stand in the entries, by the clock of who wrote them, and those between two writers count for nobody. So whoever
// runs the script forgets the same clients.
//
// # The end of an epoch
//
// It is due after so many requests, or when an operator wishes it. The wish is a step of the script too, with the epoch that it ends:
// so one wish ends one epoch, whoever writes and however often it is asked for. A wish that comes while an epoch ends that was due without
// one waits for that. While each site is here, no more requests are taken.
// Once all is acknowledged and each site has told the last place, or is gone, the table is carried over and the next epoch begins. A
// site is gone once the engine has no lease of it, by a compare in the transaction of the entry that says so. The entry that took it out
// stands before that one. So a process that gets a lease later reads it first, and serves nobody.
package epoch
