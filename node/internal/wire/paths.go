package wire

import "net/http"

// What paths begin with.
const (
	UpdatePath = "/update"
	PlacePath  = "/place"
	NextPath   = "/next"
	EpochPath  = "/epoch"
	LimitPath  = "/relimit"
	ValuePath  = "/value/"
	ValuesPath = "/values"
	// Of each process.
	HealthPath  = "/healthz"
	ReadyPath   = "/readyz"
	NumbersPath = "/metrics"
	PagePath    = "/"
)

// A Process is a kind of process.
type Process string

// The kinds of processes.
const (
	Primary Process = "primary"
	Site    Process = "site"
	Fleet   Process = "fleet"
)

// A Role is who may ask at a path, and so whose tokens are taken there. Anybody needs none.
type Role string

// The roles.
const (
	Anybody   Role = "anybody"
	Clients   Role = "clients"
	Sites     Role = "sites"
	Operators Role = "operators"
)

// A Word is one that may stand behind the `?`, once.
type Word struct {
	Name string
	// Form is the word for what stands behind its `=`.
	Form string
	Says string
}

var (
	wait = Word{"wait", "SECONDS", "how long an answer is waited for: 10 without it, and 60 at most"}
	seen = Word{"seen", "EPOCH.PLACE", "what the reader has seen"}
)

// A Path is a row of the table of paths.
type Path struct {
	Method string
	// Path is all of it, or what it begins with: then it ends with `/`, and Rest is the word for what follows.
	Path, Rest string
	// At are the processes that have it.
	At   []Process
	Role Role
	// Does is what it does, and Again what comes of a request that is sent again. One by GET changes nothing.
	Does, Again string
	Words       []Word
	// Body is the zero value of what is sent, or nil, and MostBody how many bytes that may have.
	Body     any
	MostBody int
	// Answer is the zero value of the answer, or nil where that is of the media type Type.
	Answer any
	Type   string
	// Unready is the meaning of the status 503 with a text.
	Unready string
	// Own are the errors of this path. Errors has those of its kind too.
	Own []Name
}

// Paths are all that processes answer at.
var Paths = []Path{
	{
		Method: http.MethodPost, Path: UpdatePath, At: []Process{Primary}, Role: Clients, Words: []Word{wait},
		Does:  "a client asks for an update, which is answered once it is acknowledged",
		Again: "under its number it is done once, so it may be asked again, at any primary",
		Body:  Update{}, MostBody: MostBody, Answer: Acked{},
		Own: []Name{Passed, Differs, Refused, Failed, NotWriter, NoAnswer, Full},
	},
	{
		Method: http.MethodGet, Path: ValuePath, Rest: "OBJECT", At: []Process{Site}, Role: Clients, Words: []Word{wait, seen},
		Does:   "a reader asks for the value of an object",
		Answer: Value{}, Own: []Name{NoSuchObject, Behind, NotServing},
	},
	{
		Method: http.MethodGet, Path: ValuesPath, At: []Process{Site}, Role: Clients, Words: []Word{wait, seen},
		Does:   "a reader asks for all values",
		Answer: Values{}, Own: []Name{Behind, NotServing},
	},
	{
		Method: http.MethodGet, Path: EpochPath, At: []Process{Primary}, Role: Operators, Words: []Word{wait},
		Does:   "an operator asks for the epoch",
		Answer: Begun{}, Own: []Name{NotWriter, NoAnswer},
	},
	{
		Method: http.MethodPost, Path: NextPath, At: []Process{Primary}, Role: Operators, Words: []Word{wait},
		Does:  "an operator asks for the next epoch, which is answered once that has begun",
		Again: "it ends the epoch `from` once, so it may be asked again",
		Body:  Next{}, MostBody: MostNextBody, Answer: Begun{}, Own: []Name{OtherWish, NoSuchEpoch, NoWish, NotWriter, NoAnswer},
	},
	{
		Method: http.MethodPost, Path: LimitPath, At: []Process{Primary}, Role: Operators, Words: []Word{wait},
		Does:  "an operator asks for another limit of a site, which is answered once that is in the script",
		Again: "a limit that is so already stays; `refused` 24 and 25 are as things are now",
		Body:  Relimit{}, MostBody: MostBody, Answer: Limited{}, Own: []Name{Refused, Failed, NotWriter, NoAnswer, Full},
	},
	{
		Method: http.MethodPost, Path: PlacePath, At: []Process{Primary, Fleet}, Role: Sites, Words: []Word{wait},
		Does:  "a site tells what it has shown",
		Again: "a place that was told, or an earlier one, changes nothing",
		Body:  Place{}, MostBody: MostBody, Answer: Done{},
		Own: []Name{OtherSite, NoSite, CannotBe, OtherScript, Failed, NotWriter, NotYet, NoAnswer},
	},
	{
		Method: http.MethodGet, Path: HealthPath, At: everywhere, Role: Anybody,
		Does: "whether the process goes on: always `ok`", Type: "text/plain",
	},
	{
		Method: http.MethodGet, Path: ReadyPath, At: everywhere, Role: Anybody,
		Does: "whether it takes requests now: `ok`", Type: "text/plain",
		Unready: "it does not, and the text says why", Own: []Name{Busy},
	},
	{
		Method: http.MethodGet, Path: NumbersPath, At: everywhere, Role: Operators,
		Does: "its numbers, for Prometheus", Type: "text/plain", Own: []Name{Busy},
	},
	{
		Method: http.MethodGet, Path: PagePath, At: everywhere, Role: Operators,
		Does: "its numbers as a page, for a browser", Type: "text/html", Own: []Name{NoSuchPath, Busy},
	},
}

var everywhere = []Process{Primary, Site, Fleet}

// PathOf is the row of a path, which is there.
func PathOf(path string) *Path {
	for at := range Paths {
		if Paths[at].Path == path {
			return &Paths[at]
		}
	}
	panic("the table has no path " + path)
}

// Errors are those that may come at the path, by their statuses: its own, and those of each path, of one that takes tokens, of one that
// is answered in JSON, and of one that takes a body.
func (p *Path) Errors() []Name {
	may := map[Name]bool{NoSuchMethod: true}
	for _, kind := range []struct {
		isIt bool
		own  []Name
	}{
		{true, p.Own},
		{p.Role != Anybody, []Name{NoToken, Closed}},
		{p.Answer != nil, []Name{Malformed, TooLarge, TooSlow, Busy}},
		{p.Body != nil, []Name{OtherOrigin, NotJSON}},
	} {
		for _, name := range kind.own {
			may[name] = may[name] || kind.isIt
		}
	}
	all := []Name{}
	for _, name := range Names() {
		if may[name] {
			all = append(all, name)
		}
	}
	return all
}
