"""Mistakes of ordup-node that its trial must tell."""

# An edit is of a file, what stands there once, and what takes its place.
Edit = tuple[str, str, str]
Mistakes = dict[str, list[Edit]]

TAKEN = "case request.Number > last.number:\n"
OVER = "	return s.applied < updates || s.leaves && !s.gone\n"
SERVES = "	if view.shown == nil || view.shown.Entry < view.first || !lives(view.term) {\n"
SHOWS = "		s.show(shown)\n		if shown != nil && shown.Entry >= s.end {\n"
RUNS = "			if err := s.run(raw); err != nil {\n				return err\n			}\n"

MISTAKES: Mistakes = {
    # The primary writes that sites told what is in the log, whether they did or not.
    "reports_what_no_site_told": [("internal/epoch/batch.go", "		places := site.known()\n", "		places := c.updates\n")],
    # The client is told once the update has a number.
    "answers_before_it_settles": [
        (
            "internal/epoch/run.go",
            "			c.waiting.push(asked)\n",
            "			c.waiting.push(asked)\n			c.decide(asked, script.Answer{Place: c.updates, Epoch: c.epoch})\n",
        ),
        ("internal/epoch/run.go", "	c.decide(c.waiting.pop(), script.Answer{Place: place, Epoch: c.epoch})\n", "	c.waiting.pop()\n"),
    ],
    # Each page that is read of the engine has all that is left, and no more time after a failure.
    "reads_all_at_once": [
        ("internal/engine/read.go", "	count, most := e.pages.next()\n", "	_, most := e.pages.next()\n"),
        ("internal/engine/read.go", "clientv3.WithLimit(count), clientv3.WithRev(revision)", "clientv3.WithRev(revision)"),
        ("internal/engine/pages.go", "mostTime = 30 * time.Second", "mostTime = CallTime"),
    ],
    # A request that comes again is proposed again.
    "takes_requests_again": [("internal/epoch/batch.go", TAKEN, "case request.Number >= last.number:\n")],
    # A primary that was replaced writes after the entries of the other one.
    "goes_on_after_another": [
        (
            "internal/primary/write.go",
            "	for {\n		err := p.config.Engine.Write(ctx, write)\n",
            "	for {\n		if last, err := p.config.Engine.Last(ctx, 1); err == nil {\n			write.Number = last + 1\n		}\n"
            "		err := p.config.Engine.Write(ctx, write)\n",
        ),
    ],
    # Answers are told before the entry is written that has them. A primary that dies then loses the requests.
    "takes_requests_before_it_writes": [
        (
            "internal/primary/write.go",
            "		go func() { w.landed <- w.send(ctx, batch) }()\n",
            "		w.calls.tell(batch.Answers)\n"
            "		go func() { time.Sleep(200 * time.Millisecond); w.landed <- w.send(ctx, batch) }()\n",
        ),
    ],
    # The next epoch begins with the values that the last one began with.
    "begins_again_with_the_first_values": [
        ("internal/epoch/core.go", "	failure error\n", "	failure error\n	firsts string\n"),
        ("internal/epoch/run.go", "	case script.Declare:\n", "	case script.Declare:\n		c.firsts += step.Words + \"\\n\"\n"),
        ("internal/epoch/ending.go", "	c.Close()\n", "	c.Close()\n	c.firsts = \"\"\n"),
        ("internal/epoch/ending.go", "	text, err := c.store.NextDeclarations()\n", "	text, err := c.firsts, error(nil)\n"),
    ],
    # The next epoch begins once all is acknowledged.
    "goes_over_before_all_have_told": [("internal/epoch/sites.go", OVER, "	return s.leaves && !s.gone\n")],
    # The next epoch begins while a process of a site that is taken out may still serve readers.
    "goes_over_before_a_site_is_gone": [("internal/epoch/sites.go", OVER, "	return s.applied < updates\n")],
    # What the operator asked for once is done twice.
    "begins_one_epoch_after_another": [
        (
            "internal/epoch/ending.go",
            "	c.clients, c.carry, c.wish = c.carry.clients, nil, nil\n",
            "	c.clients, c.carry = c.carry.clients, nil\n"
            "	if c.wish != nil && c.wish.From < c.epoch-1 {\n		c.wish = nil\n	}\n",
        ),
    ],
    # The next epoch waits for a site of a fleet that is away.
    "waits_for_a_fleet_that_is_away": [
        ("internal/epoch/sites.go", "missing <= Near && s.wasHeard && now-s.heard < Away\n", "missing <= Near\n"),
    ],
    # Who asks under a number that is before the last one waits for ever.
    "tells_nothing_of_late_requests": [
        ("internal/epoch/batch.go", "		return Reply{Kind: Passed, Last: last.number}\n", "		return Reply{Kind: Waits}\n"),
    ],
    # Two processes of a site serve readers, since neither looks at the lease.
    "serves_without_the_lease": [
        ("internal/site/view.go", SERVES, "	if view.shown == nil || view.shown.Entry < view.first {\n"),
    ],
    # A site shows old values to readers while it applies the script from the beginning.
    "serves_before_it_has_caught_up": [
        ("internal/site/view.go", SERVES, "	if view.shown == nil {\n"),
        (
            "internal/site/site.go",
            RUNS,
            RUNS + "			if early, err := s.replica.Show(); err == nil {\n				s.show(early)\n			}\n",
        ),
    ],
    # A site tells its place, and shows it to readers a little later.
    "tells_before_it_shows": [
        (
            "internal/site/site.go",
            SHOWS,
            "		if shown != nil && s.lease.Held() {\n			s.tell(ctx, PlaceOf(s.inName, s.config.Name, shown))\n"
            "			time.Sleep(300 * time.Millisecond)\n		}\n" + SHOWS,
        ),
    ],
    # A site that lost its connection takes the next entry as read.
    "skips_what_came_while_it_was_away": [
        (
            "internal/site/site.go",
            "		if err = s.follower.Heed(following, err, s.forget); err != nil {\n",
            "		if engine.IsAway(err) && s.replica != nil {\n			s.replica.entry++\n		}\n"
            "		if err = s.follower.Heed(following, err, s.forget); err != nil {\n",
        ),
    ],
    # A site that is taken out goes on, whatever the script and the primary say.
    "serves_after_it_was_taken_out": [
        ("internal/site/site.go", " || errors.Is(err, epoch.ErrNoSite)\n", "\n"),
        ("internal/site/replica.go", "			delete(r.sites, step.Site)\n", ""),
        (
            "internal/site/replica.go",
            "	r.epoch, r.place, r.told, r.acked, r.sites = entry.Epoch, 0, 0, 0, map[string]bool{}\n",
            "	r.epoch, r.place, r.told, r.acked = entry.Epoch, 0, 0, 0\n"
            "	if r.sites == nil {\n		r.sites = map[string]bool{}\n	}\n",
        ),
    ],
    # A process relies on its lease for longer than the engine keeps it.
    "relies_on_a_lease_that_is_over": [("internal/lease/lease.go", "	Relied = 3 * time.Second\n", "	Relied = 30 * time.Second\n")],
    # A process of a site tells its place though another one serves the readers.
    "tells_without_the_lease": [
        (
            "internal/site/site.go",
            "		now, changed := s.now()\n",
            "		now, changed := s.now()\n		s.lock.Lock()\n		now.Shown = s.view.shown\n		s.lock.Unlock()\n",
        ),
    ],
    # Other changes under a number that was taken have the answer to those before.
    "answers_other_changes": [("internal/epoch/batch.go", "	case script.DigestOf(request.Changes) != last.digest:\n", "	case false:\n")],
    # A primary stands by though it was started with other settings.
    "stands_by_with_other_settings": [
        ("internal/primary/standby.go", "			if err = p.agrees(core); err != nil {\n", "			if false {\n"),
    ],
    # A lease that was given back is taken up again, before the engine hears of that.
    "takes_up_what_it_gave_back": [
        ("internal/lease/lease.go", "	case found.Value != k.value || found.ID == k.given:\n", "	case found.Value != k.value:\n"),
    ],
    # A site serves readers before anybody has taken a place of it, and goes on though it is told that it is no site.
    "serves_though_nobody_lists_it": [
        ("internal/site/view.go", "	if !m.IsTaken {\n", "	if false {\n"),
        ("internal/site/site.go", " || errors.Is(err, epoch.ErrNoSite)\n", "\n"),
    ],
    # A fleet tells of the sites that it lists, whoever else serves readers as one of it.
    "tells_without_a_site_that_serves": [
        ("internal/fleet/fleet.go", "f.looked && len(f.unlisted) == 0\n", "true\n"),
    ],
    # A batch counts whatever comes, and is written unread.
    "writes_what_nobody_reads": [
        ("internal/epoch/batch.go", "	batchCounts = 200_000\n", "	batchCounts = 1 << 40\n"),
        ("internal/epoch/batch.go", "	if err := script.Check(b.Text); err != nil {\n", "	if err := script.Check(nil); false {\n"),
    ],
}
