package command

import (
	"context"
	"fmt"
	"net"
	"os"
	"sort"
	"strings"
	"time"

	"ordup.dev/node/internal/client"
	"ordup.dev/node/internal/epoch"
	"ordup.dev/node/internal/exit"
	"ordup.dev/node/internal/primary"
	"ordup.dev/node/internal/script"
	"ordup.dev/node/internal/serve"
	"ordup.dev/node/internal/settings"
	"ordup.dev/node/internal/site"
)

const (
	// packagedSettings is the file that the units of systemd name.
	packagedSettings = "/etc/ordup-node/settings"
	// flagsName is the variable in which a unit gives a process flags beside the file.
	flagsName = "FLAGS"
	// askTime is how long the engine may take to answer.
	askTime = 5 * time.Second
)

func checkSettings(program *Program, set *settings.Set) func(context.Context, []string) error {
	as, asks := "", false
	set.Text(&as, "as", "", "`COMMAND` that is to run with them, as a unit does: primary, site or fleet, with the flags in the variable FLAGS")
	set.Switch(&asks, "ask", "ask the engine too")
	return func(ctx context.Context, words []string) error {
		file := set.File()
		if file == "" {
			file = packagedSettings
		}
		if len(words) == 1 {
			file = words[0]
		}
		if as != "" && as != "primary" && as != "site" && as != "fleet" || len(words) > 1 {
			return wrong("say one file, and --as primary, site or fleet")
		}
		check := &checkup{program: program, file: file, as: as, now: time.Now()}
		if asks {
			check.asks = ctx
		}
		check.all()
		return check.tell()
	}
}

// A finding is what was found at a setting: a note or a warning where the status is Done, and else why a process would end with that.
type finding struct {
	line         int
	at, how, say string
	status       exit.Status
}

// A checkup looks at settings as processes would be started with them, and starts none.
type checkup struct {
	program  *Program
	file, as string
	now      time.Time
	// asks is the context in which the engine is asked, or nil.
	asks     context.Context
	lines    map[string]int
	isFlag   map[string]bool
	findings []finding
}

// add adds a finding at a key, unless it is there.
func (c *checkup) add(key, how string, status exit.Status, format string, words ...any) {
	found := finding{line: c.lines[key], at: c.file, how: how, status: status, say: fmt.Sprintf(format, words...)}
	if c.isFlag[key] {
		found.line, found.at = 0, flagsName
	} else if found.line > 0 {
		found.at = fmt.Sprintf("%s:%d", c.file, found.line)
	}
	for _, each := range c.findings {
		if each == found {
			return
		}
	}
	c.findings = append(c.findings, found)
}

func (c *checkup) note(key, format string, words ...any) {
	c.add(key, "note", exit.Done, format, words...)
}

func (c *checkup) warn(key, format string, words ...any) {
	c.add(key, "warning", exit.Done, format, words...)
}

// wrong adds an error with which a process would end, at the setting whose key it begins with.
func (c *checkup) wrong(err error) {
	key, _, _ := strings.Cut(err.Error(), ":")
	c.add(key, "error", exit.Of(err), "%v", err)
}

// wrongAt adds an error at a key.
func (c *checkup) wrongAt(key string, status exit.Status, format string, words ...any) {
	c.add(key, "error", status, key+": "+format, words...)
}

// has is whether an error was found already.
func (c *checkup) has() bool {
	for _, each := range c.findings {
		if each.status != exit.Done {
			return true
		}
	}
	return false
}

// tell prints the findings in the order of their lines, and gives the status: that of words that are wrong comes before others.
func (c *checkup) tell() error {
	sort.SliceStable(c.findings, func(one, other int) bool { return c.findings[one].line < c.findings[other].line })
	counts, status := map[string]int{}, exit.Done
	for _, each := range c.findings {
		fmt.Fprintf(c.program.Out, "%s: %s: %s\n", each.at, each.how, each.say)
		counts[each.how]++
		if each.status > status {
			status = each.status
		}
	}
	if status != exit.Done {
		return exit.With(status, fmt.Errorf("%s has %d errors and %d warnings", c.file, counts["error"], counts["warning"]))
	}
	fmt.Fprintf(c.program.Out, "ok %d settings %d warnings\n", len(c.lines), counts["warning"])
	return nil
}

func (c *checkup) all() {
	c.lines, c.isFlag = map[string]int{}, map[string]bool{}
	text, err := os.ReadFile(c.file)
	if err != nil {
		c.add("", "error", exit.Environment, "%v: is this the file, and may this user read it?", err)
		return
	}
	lines := settings.Lines(string(text), c.program.isKnown)
	for _, line := range lines {
		c.lines[line.Key] = line.Number
		if line.Err != nil {
			c.add(line.Key, "error", exit.Words, "%v: `ordup-node COMMAND --help` has all keys", line.Err)
		}
	}
	isPrimary, isSite, isFleet := &primaryOwn{}, &siteOwn{}, &fleetOwn{}
	for _, kind := range []struct {
		name  string
		add   func(*settings.Set)
		check func()
	}{
		{"primary", isPrimary.add, func() { c.primary(isPrimary) }},
		{"site", isSite.add, func() { c.site(isSite) }},
		{"fleet", isFleet.add, func() { c.fleet(isFleet) }},
	} {
		if c.as != "" && c.as != kind.name {
			continue
		}
		set := settings.New(kind.name)
		kind.add(set)
		c.read(set, lines)
		kind.check()
	}
}

// read gives a set of settings what stands in the file, and before that in the flags of a unit.
func (c *checkup) read(set *settings.Set, lines []settings.Line) {
	if c.as != "" {
		rest, err := set.Read(strings.Fields(os.Getenv(flagsName)), c.program.isKnown)
		if err == nil && len(rest) > 0 {
			err = fmt.Errorf("%.60q is no setting", rest[0])
		}
		c.isFlag = set.Given()
		if err != nil {
			c.isFlag[""] = true
			c.add("", "error", exit.Words, "%v", err)
		}
	}
	for _, line := range lines {
		if line.Err != nil || !set.Has(line.Key) || c.isFlag[line.Key] {
			continue
		}
		if err := set.Put(line.Key, line.Value); err != nil {
			c.add(line.Key, "error", exit.Words, "%v", err)
		}
	}
}

func (c *checkup) primary(own *primaryOwn) {
	c.engine(&own.engine)
	c.serving(&own.serving, own.authority, own.address, true, true)
	c.authority("authority", own.authority)
	if own.archive != "" {
		c.folder("archive", own.archive)
		if own.copies == 1 && c.lines["copies"] > 0 {
			c.warn("copies", "copies: the engine drops an epoch once one host has its archive; with several hosts say 2, since a disk may be lost")
		}
	}
	if own.declarations != "" {
		c.declarations(own.declarations)
	}
	if _, err := own.serving.address(own.address); err != nil && (c.as != "" || own.address != "") {
		c.wrong(err)
	}
	if c.as != "" && own.archive == "" {
		c.wrongAt("archive", exit.Words, "the folder is missing, as archive = /var/lib/ordup-node/archive")
	}
	if c.as == "" || c.has() {
		return
	}
	config := primary.Config{Host: own.serving.host, Versions: c.program.Versions, Copies: int(own.copies)}
	config.Address, _ = own.serving.address(own.address)
	config.Engine, _ = own.engine.open(nil)
	if _, err := primary.New(config); err != nil {
		c.wrong(err)
	}
	config.Engine.Close()
}

func (c *checkup) site(own *siteOwn) {
	c.engine(&own.engine)
	c.serving(&own.serving, own.telling.authority, "", true, false)
	c.telling(&own.telling)
	if own.tell != "" && !client.IsAddress(own.tell) {
		c.wrongAt("teller", exit.Words, "%.80q is no address as http://10.0.0.1:7003", own.tell)
	}
	if c.as == "" || c.has() {
		return
	}
	quiet := *c.program
	quiet.Log = nil
	config, err := own.config(&quiet)
	if err == nil {
		_, err = site.New(config)
		config.Engine.Close()
	}
	if err != nil {
		c.wrong(err)
	}
}

func (c *checkup) fleet(own *fleetOwn) {
	c.engine(&own.engine)
	c.serving(&own.serving, own.telling.authority, "", false, true)
	c.telling(&own.telling)
	if own.name == "" && len(own.members) == 0 && c.as == "" {
		return
	}
	if err := own.check(); err != nil && (c.as != "" || len(own.members) > 0) {
		c.wrong(err)
	}
}

// engine looks at what says where the engine is, and asks it.
func (c *checkup) engine(own *engineSettings) {
	c.authority("engine-authority", own.authority)
	c.pair("engine-certificate", "engine-key", own.certificate, own.key, own.authority, "", false)
	c.secret("engine-password", own.password)
	opened, err := own.open(nil)
	if err != nil {
		c.wrong(err)
		return
	}
	defer opened.Close()
	if c.asks == nil {
		return
	}
	limited, cancel := context.WithTimeout(c.asks, askTime)
	defer cancel()
	number, _, err := opened.Epoch(limited)
	if err != nil {
		c.wrongAt("engine", exit.Environment, "it does not answer: %v: does etcd run there, and do the certificates and the user fit?", err)
		return
	}
	c.note("engine", "engine: it answers, and has the script up to epoch %d", number)
}

// serving looks at where a process listens, and who may ask it. Of the roles some kinds of processes have no clients, and some no sites.
func (c *checkup) serving(own *servingSettings, authority, address string, hasClients, hasSites bool) {
	c.pair("certificate", "key", own.certificate, own.key, authority, hostOf(own, address), true)
	c.tokens("client-tokens", own.clientTokens, false)
	c.tokens("site-tokens", own.siteTokens, true)
	c.tokens("operator-tokens", own.operatorTokens, false)
	own.guard = serve.Guard{}
	if err := own.check(nil); err != nil {
		if key, _, _ := strings.Cut(err.Error(), ":"); key != "tokens" { // Each of these was looked at.
			c.wrong(err)
		}
		return
	}
	host, _, _ := net.SplitHostPort(own.listen)
	ip := net.ParseIP(host)
	isOwn := host == "localhost" || ip != nil && ip.IsLoopback()
	who := "anybody who reaches " + own.listen
	if isOwn {
		who = "anybody on this host"
	}
	for _, each := range []struct {
		has       bool
		role      serve.Role
		key       string
		may, what string
	}{
		{hasClients, serve.Clients, "client-tokens", "ask for updates and read values", ""},
		{hasSites, serve.Sites, "site-tokens", "tell the places of sites", ", by which updates are acknowledged that no site has"},
		{true, serve.Operators, "operator-tokens", "see numbers, end epochs and take sites out", ""},
	} {
		switch {
		case !each.has || own.guard.Asks(each.role) == serve.ByToken:
		case own.guard.Asks(each.role) == serve.Open:
			c.warn(each.key, "%s: %s may %s%s; give each role a file with tokens", each.key, who, each.may, each.what)
		default:
			c.warn(each.key, "%s: nobody may %s, since other roles have tokens and this one has none; name a file, or say open", each.key, each.may)
		}
	}
	if !own.isSecure() && !isOwn {
		c.warn("listen", "listen: %s is without TLS, so who is on the way reads tokens and changes answers; give a certificate and a key",
			own.listen)
	}
}

// hostOf is the name or address by which others ask a process, if it is known.
func hostOf(own *servingSettings, address string) string {
	at := own.listen
	if address != "" {
		_, at, _ = strings.Cut(address, "://")
	}
	host, _, _ := net.SplitHostPort(at)
	if ip := net.ParseIP(host); ip != nil && ip.IsUnspecified() {
		return ""
	}
	return host
}

// telling looks at whom a process tells its places.
func (c *checkup) telling(own *askingSettings) {
	c.authority("authority", own.authority)
	c.secret("token", own.token)
	if len(own.addresses) == 0 && c.as == "" {
		return
	}
	if _, err := own.client(nil); err != nil {
		key, _, _ := strings.Cut(err.Error(), ":")
		switch {
		case c.lines[key] > 0 || c.isFlag[key] || key == own.key:
			c.wrong(err)
		default:
			c.wrongAt(own.key, exit.Of(err), "%v", err)
		}
	}
	for _, address := range own.addresses {
		if strings.HasPrefix(address, "https://") && own.authority == "" {
			c.warn(own.key, "%s: %s is asked with the authorities of this system, since there is no authority", own.key, address)
		}
	}
}

// declarations has a store try them.
func (c *checkup) declarations(file string) {
	text, err := os.ReadFile(file)
	if err != nil {
		c.wrongAt("declarations", exit.Environment, "%v", err)
		return
	}
	declarations, err := epoch.Declarations(string(text))
	if err == nil {
		err = epoch.Check(c.program.Open, &script.Settings{Every: 1, Remembers: 1}, declarations)
	}
	if err != nil {
		c.wrongAt("declarations", exit.Words, "%s: %v", file, err)
	}
}
