// Ordup-node is one program for ordup on several machines: a primary that takes updates, and sites that show them.
//
// The store is in the process, by clients/go, and computes each value and each limit. etcd, the engine, keeps the script on three
// machines or five. What is proved is said of the store. This page says what the program does around it, and why nothing is lost, done
// twice, or shown beyond a limit.
//
// # The way of an update
//
//  1. A client asks a primary by HTTP: its name, a number, changes. The number is the client's own, and greater than its last one. A
//     primary that does not write passes the request on to the one that does.
//  2. The primary runs the request in its open batch, with what sites told, and asks the store for acknowledgements. Each step is run as
//     it comes, while the batch before is on its way to the engine.
//  3. It seals the batch as an entry, and creates the key script/NUMBER by one transaction. That is all that an update writes. Requests,
//     what sites told, and the answers that were decided stand in the entry.
//  4. Once a majority of members has the entry on its disks, the answers in it are told. So the wait of a client is the rest of the
//     transaction that is on its way, and its own.
//  5. Each site takes the entry by a watch, applies its updates in a store of its own, and shows the new values to its readers.
//  6. It tells its place to the primary, after it has shown it. The place goes into a later batch.
//
// # What is in the engine
//
//	script/NUMBER          an entry: 1, 2, 3 and so on, each created where there is none, and where the one before it is
//	epoch                  the last epoch and its first entry, put by the transaction that begins it
//	primary                the process that writes, under its lease
//	site/FLEET/SITE        the process that serves the readers of a site, under its lease
//	archive/EPOCH/HOST     which host has the archive of an epoch whose entries are still there
//
// There is no key for a client, a request, an answer, a place or a wish. So what a start reads, and what the engine keeps, is the entries
// of an epoch, however many clients there ever were. Package script has the form of an entry. No key or value of any bytes stops a
// process for want of a form: under script/ what has not the form of a number is passed over, and an entry that is none ends those that
// meet it with status 3, since nobody but a primary writes entries.
//
// # Nothing is lost or done twice
//
//   - The answers of a store depend on the lines that it takes alone. An entry has these lines, in few words. So each process that runs
//     the script comes to the same, and what it comes to is compared: a primary compares each answer of its store with the one in the
//     entry, a site each refusal, and at the end of an epoch each value with the one that the next epoch begins with. What differs ends
//     the process with status 3, and so does an entry that no right primary writes: package epoch says which.
//   - An entry is created where there is none of its number, the one before it is there, and no later epoch has begun. So of two primaries
//     that write, one is refused, whatever they believe of their leases. It drops what it ran, and runs the script again. The lease is for
//     speed alone.
//   - A primary that does not know whether its entry was written writes it again: it is there and its own, or created now, or another
//     primary was faster. The name of the process in the entry tells its own from others.
//   - A request stands in the same entry as its update. A client's last number, the digest of its changes and its answer are in a table
//     that follows from the entries. So whichever primary is asked again gives the same answer once that is written, lets the client
//     wait for it before, refuses the number for other changes, and refuses a number before the last one.
//   - A client is remembered for so many whole epochs after its last request, and for so many seconds at least: settings of the script, in
//     which the writer notes the seconds as they pass. At the end of each epoch the table is carried over by entries of its own, as many as
//     it needs. Who asks again under an old number after that is a new client.
//
// # Leases, and what a site promises its readers
//
// The engine drops a lease five seconds after it was renewed. Its holder relies on it for three, from before it asked, by a clock that
// also counts the time asleep. A lease that was given back is not taken up again, though its key is there still: the engine may hear of
// that at any time. A site serves its readers
//
//   - only while it relies on its lease, which it looks at after it took the values,
//   - only once it has run the entry that was the last one when it got the lease: the process before told no place after that one; and
//   - only once a place of it was taken since it got the lease, so who does not count for the limits serves nobody. It tells its places under
//     the lease before it serves, and goes on serving though no primary is there later.
//
// So readers of a site never see less than a place that it told, from whichever process. As the limits of the site hold for what it told,
// they hold for what its readers see. A reader who says what it has seen (epoch and place) sees no less, and waits or is told how far the
// site is.
//
// Places travel from the site to the primary by HTTP, and not by keys. A place costs the engine no write then, and a round one way less.
// It is safe since a site tells a place only after it has shown it and found its lease alive after that: who serves the site from then on
// shows no less, however late the place arrives, and whether or not the lease lives by then. What a site tells before it may serve is
// not told. A primary counts no place of another epoch, and refuses one beyond the updates of the entry that the site names. A place has
// the digest of that entry, so one of another script is refused too. That ends the site with status 5, and not the primary. A primary that takes over knows what the script has. A site tells its place again, twice a
// second, as long as the script does not have it. While that lacks at most a quarter of what its limits allow, nobody waits for the place: the
// site tells new ones twenty times a second at most, and else each at once.
//
// A fleet tells the least place of its sites. It takes places of its members alone, so no other process comes to serve; and it tells nothing
// before it has seen that the engine has no key of another one, which may have begun under a process of the fleet that knew it. A fleet and
// a site of the same name exclude each other: none gets its key while the engine has one of the other.
//
// # Epochs
//
// An epoch ends after so many requests, or when an operator wishes it. The wish names the epoch that it ends, and is a step of the script.
// So it survives the primary, and ends one epoch, however often it is asked for. While a site is away (it lacks many updates, or lacks some
// and tells nothing) the epoch goes on. Else no more requests are taken, and once all is acknowledged and each site has told the last
// place, the clients are carried over and one entry begins the next epoch: with the declarations that the library gives for the successor,
// or those of the operator, in which an object that stays keeps its value.
//
// A limit changes by a step of the script, with the answer of the store, which may refuse it. A primary that stands by and fsck come to the
// same answer. A site has not the store for that: it compares what its own store refuses, and from which update on the limit can be in force.
//
// A site that the operator takes out leaves first: an entry says so, and its processes end with status 4. Until it is gone it is waited
// for like any other. It is gone by an entry that the engine takes only where it has no key of the site, by a compare of their range in
// the same transaction. A process that gets a lease after that reads first that its site is taken out.
//
// A key of the site that has no lease was put by hand. The primary takes it away once it has seen it as it is for the five seconds of a
// lease, and says so. That is safe: a process serves by a key under a lease of its own, and relies on them for three seconds from before it
// last found both there. So even the one whose key was written over serves nobody by then. A key with a lease holds the site as long as the
// engine keeps that lease, whatever the key is. The log tells it each ten seconds, and /metrics counts it: an operator ends the process
// that renews the lease, or takes the key away once that serves nobody.
//
// What all primaries go by (requests an epoch, how long a client is remembered, the version of ordup, the digest of the declarations that an
// operator gave last) stands in the entry that begins an epoch, and changes by a wish. Beside it stands with what the script began. A primary
// that was started with other settings than those ends with status 2, before it stands by. So it comes back with its settings after any
// wish.
//
// A program has a list of versions of ordup: its own, and those before it whose answers are the same. So a new one goes on with the
// script of an old one, beside old processes. All entries of an epoch have one version: that of the epoch before, or the one that a
// wish names. A primary takes no wish for a version that it has not. One that took over such a wish ends with status 2 where it would
// begin that epoch, and so does who meets an entry of a version that it has not.
//
// # Archives
//
// Each primary, whether it writes or not, copies the entries of an epoch that has ended to a file of its own, and says so in the engine
// once the file is on its disk, with its digest. The entries leave the engine when so many hosts have the same file, two by default. Until
// then the engine keeps them. So no single disk has the script of an epoch alone, and no file travels between primaries. A host that lacks
// the archive of an epoch that others have is given a copy by an operator. An archive is a script for `ordup run`; the lines of the
// entries are comments in it. No process deletes one, or reads one again: an operator prunes them, and from the first that is left on the
// audit of package fsck begins.
//
// # The parts
//
//	script       the form of an entry, and of an answer
//	epoch        the core: what the script comes to, and the next entry. Pure
//	lease        what a process decides of a key that it holds under a lease. Pure
//	writer       what a primary that writes has on its way. Pure
//	engine       etcd: transactions, pages, watches, leases. No other package asks it
//	embedded     starts an etcd in this process, for the command try alone
//	primary      the process that writes or stands by
//	site         the process that serves readers
//	follower     how a primary that stands by and a site follow the script
//	fleet        the place of several sites
//	archive      the files of past epochs
//	fsck         checks them and the script from the first epoch on, and prunes them
//	wire         what travels by HTTP, with its table of errors. It knows none of the others but exit
//	listen       a server of HTTP for whoever comes
//	serve        the paths of a primary, a site and a fleet, and who may ask at them
//	client       asks them
//	numbers      what operators see: numbers for Prometheus, and a page
//	settings     flags and a file
//	reload       files with certificates, keys and tokens, which may change
//	command      the commands
//	store        what is asked of a store; library has the one of libordup
//	versions     the list of versions whose answers the library gives
//	clock, exit, logs
//
// modelstore, etcdtest and sim are for tests. Package sim simulates a deployment, of the packages that are pure and of a site's View and
// Replica, which are so too. The command sim/cost has them take their steps in simulated time, to see what rounds cost.
//
// # Statuses
//
//	0  a clean end: the lease is given back, and what is on its way is waited for
//	1  something outside cannot be used: a file, a port, memory, the user of the engine
//	2  words, settings or declarations are wrong, or not those of the script, also its version
//	3  the script lacks an entry, has one that is none, or comes to something else at this process
//	4  the site is not among those of the script, or of its fleet
//	5  the site told a place that no site can have told, or one of another script
package main
