// Package cluster is a replicated store with a proved bound on its lag, which the goroutines of a program share.
//
//	var setup cluster.Setup
//	tea := setup.Object("tea", 40)
//	shop := setup.Site("shop", 64)
//	setup.Limit(shop, cluster.All, 10)
//	store, err := cluster.Open(setup)
//
//	var session cluster.Session // one for each user, say
//	number, err := store.Propose(ctx, &session, cluster.Add(tea, -3))
//	seen, err := store.ReadWhenLevel(ctx, &session, shop, tea) // it sees the sale
//
//	closed, err := store.Close()
//
// Updates are numbered in one order, from 1, or from where the cluster that this one follows ended: all numbers here go on. A site is a
// copy that lags: a goroutine of its own applies the updates to it, in their order. An update is acknowledged once each site that its
// limits name has applied it, so that no site ever lags by more than its limits. Whoever reads takes the lock of the site alone, and waits
// for nobody else.
//
// Goroutines may share a Cluster, also while one closes it. A Session is used by one goroutine at a time. A Query has a lock of its own.
//
// # What waits
//
// A call that may wait takes a context, which ends each wait, and so does Stop. Who waits sleeps on a channel, holds no thread of the
// system, and is woken by what it waits for. A cluster at rest takes no time of a processor: nothing ticks. A call that gave up says so in
// its error, with what came of it, and wraps the error of the context.
//
// # What is proved
//
// The work of each hold of a lock is done by libordup, and proved: ordup_holds.h says what each of its functions does, and docs/PROOFS.md has
// their clauses. The locks and the waits of this package are Go, which nothing proves. They are tested, and checks/waking has models of
// them: c_cluster.pml, whose steps are those of this package as they are of the cluster in C, and go_bell.pml, for the bells. checks/waking/steps
// compares them with the functions here, by their names.
//
// The book lies under one lock, and each site under one of its own. A hold of the book looks at what the sites told, settles, and sends. Who
// brings something about that another may wait for rings a bell after it:
//
//   - A hold that sent something rings sent, on which appliers sleep.
//   - A hold that acknowledged updates rings the bell in heads of each of them and of the one after, the new head. A caller sleeps on that of its
//     update until it is the head, and then on told.
//   - An applier rings the bell of its site after each update, for readers, and told once its feed is empty or it has applied some. A head waits
//     only for sites whose last update it is, so it is told at once.
//   - What an applier told is news until a hold has looked at it, which looked says. A caller whose update is the head makes a hold for them.
//     Where work is left, and there are news, and no such caller, the keeper is rung: by who told, by who ended the hold that did not see them,
//     or by the caller who leaves.
//
// It links libordup.a of out/ in this repository, or else of the folders that the C compiler knows. With the tag pkgconfig it links the
// library that pkg-config finds. Handles, and what the library writes at them, lie in memory of C. No pointer to a Go pointer crosses.
package cluster
