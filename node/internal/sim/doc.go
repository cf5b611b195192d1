// Package sim simulates a deployment of the node in one thread: what its processes decide is the code of the node, and all else is here.
//
// There are two primaries, two processes of the site north, the fleet far with a process of each of its sites east and west, clients that
// ask again, and operators, who change limits too. A Run is a list of events. What an event means stands at its Kind; one that cannot happen is passed over, so
// each part of a list is a run too. Generate gives the run of a seed, Try does a run, and Shrink leaves out what it does not need to break
// the same property.
//
// From the node come epoch.Core and epoch.Judge, script.Parse and Entry.Text, engine.Write with its compares and its refusal, engine.Mark,
// lease.Key, writer.Writer with Digests and Unleased, site.Replica, site.View and site.Look, follower.Follower.Run, and fleet.Fleet.
//
// The rest is a model. The engine is one map. A call of it is done at once, later or never, and its answer is late or lost. It ends a lease
// once five seconds have passed since it granted or renewed that, or later, as an event says. Each process of a site has a clock of its own
// rate, which differs from the engine's by less than two fifths. A place that was told comes at any time, more than once, to any primary.
// Events happen between a reader's look at the values and that at the lease.
//
// Whether a primary has the lease of the one that writes any event may say: more happens so than may, and nothing that holds stands on
// that lease. Not here are what is sent by HTTP and by whom, watches and pages of the engine, archives but for that entries go, the
// forgetting of clients, programs of several versions, sizes at their limits, and whether anything happens in time.
package sim
