package wire

import (
	"net/http"

	"ordup.dev/node/internal/exit"
)

// A Name is that of an error, as it travels. The table of the package says when each comes.
type Name string

// The names of errors.
const (
	Malformed    Name = "Malformed"
	NoToken      Name = "NoToken"
	Closed       Name = "Closed"
	OtherSite    Name = "OtherSite"
	OtherOrigin  Name = "OtherOrigin"
	NoSuchPath   Name = "NoSuchPath"
	NoSuchObject Name = "NoSuchObject"
	NoSite       Name = "NoSite"
	NoSuchMethod Name = "NoSuchMethod"
	TooSlow      Name = "TooSlow"
	Passed       Name = "Passed"
	Differs      Name = "Differs"
	OtherWish    Name = "OtherWish"
	NoSuchEpoch  Name = "NoSuchEpoch"
	Behind       Name = "Behind"
	TooLarge     Name = "TooLarge"
	NotJSON      Name = "NotJSON"
	Refused      Name = "Refused"
	CannotBe     Name = "CannotBe"
	OtherScript  Name = "OtherScript"
	NoWish       Name = "NoWish"
	Failed       Name = "Failed"
	NotWriter    Name = "NotWriter"
	NotServing   Name = "NotServing"
	NotYet       Name = "NotYet"
	Busy         Name = "Busy"
	NoAnswer     Name = "NoAnswer"
	Full         Name = "Full"
)

// An Again says who may be asked again after an error.
type Again uint8

const (
	// Never says that the answer is the same whoever is asked, and whenever.
	Never Again = iota
	// Here says that the process that answered is the right one, and has another answer later.
	Here
	// Elsewhere says that another process may have another answer, or this one later.
	Elsewhere
)

// A row is what there is of an error of a name.
type row struct {
	name   Name
	status int
	// Ends is the status of a command that meets the error: Words where the request can never be done as it is.
	ends  exit.Status
	again Again
	// Says is when it comes.
	says string
}

// rows are the errors, by their statuses.
var rows = []row{
	{Malformed, http.StatusBadRequest, exit.Words, Never,
		"the request has not the form: JSON, a client, a number, changes, words behind `?`"},
	{NoToken, http.StatusUnauthorized, exit.Words, Never, "the token is missing, or not one of those who may ask this"},
	{Closed, http.StatusForbidden, exit.Words, Never, "the process has tokens of others, and none of those who may ask this"},
	{OtherSite, http.StatusForbidden, exit.Environment, Never, "the token is of another site than that which the place is of"},
	{OtherOrigin, http.StatusForbidden, exit.Environment, Never, "a page in a browser asks for what changes something"},
	{NoSuchPath, http.StatusNotFound, exit.Words, Never, "the process has no such path"},
	{NoSuchObject, http.StatusNotFound, exit.Words, Never, "the site has no such object"},
	{NoSite, http.StatusNotFound, exit.Environment, Never, "the script, or the fleet, has no such site"},
	{NoSuchMethod, http.StatusMethodNotAllowed, exit.Words, Never, "the path takes another method"},
	{TooSlow, http.StatusRequestTimeout, exit.Environment, Elsewhere, "the body did not come in time"},
	{Passed, http.StatusConflict, exit.Words, Never, "the client asked under a later number before, which is `last`"},
	{Differs, http.StatusConflict, exit.Words, Never, "the client asked for other changes under this number before"},
	{OtherWish, http.StatusConflict, exit.Environment, Never, "somebody else has asked for the next epoch, in another way"},
	{NoSuchEpoch, http.StatusConflict, exit.Environment, Never, "the epoch that is to end has not begun"},
	{Behind, http.StatusPreconditionFailed, exit.Environment, Never,
		"the site is at `epoch` and `place`, which is before what the reader has seen"},
	{TooLarge, http.StatusRequestEntityTooLarge, exit.Words, Never, "the body is too large"},
	{NotJSON, http.StatusUnsupportedMediaType, exit.Environment, Never, "the request does not say that its body is JSON"},
	{Refused, http.StatusUnprocessableEntity, exit.Environment, Never,
		"the store refuses the update, or the limit: `refused` has the number and `refusal` the name"},
	{CannotBe, http.StatusUnprocessableEntity, exit.Environment, Never, "no site can have told this place"},
	{OtherScript, http.StatusUnprocessableEntity, exit.Environment, Never,
		"the place is of a site that ran another script: the entry that it names is another one here"},
	{NoWish, http.StatusUnprocessableEntity, exit.Words, Never, "no next epoch can be as it is wished"},
	{Failed, http.StatusInternalServerError, exit.Environment, Elsewhere, "something else went wrong, and the message says what"},
	{NotWriter, http.StatusServiceUnavailable, exit.Environment, Elsewhere,
		"this primary does not write. `writer` says which one does, if it is known"},
	{NotServing, http.StatusServiceUnavailable, exit.Environment, Elsewhere, "this process of the site serves no reader now"},
	{NotYet, http.StatusServiceUnavailable, exit.Environment, Here, "this process has not run the script as far yet"},
	{Busy, http.StatusServiceUnavailable, exit.Environment, Here, "too many requests wait"},
	{NoAnswer, http.StatusGatewayTimeout, exit.Environment, Elsewhere, "there is no answer yet"},
	{Full, http.StatusInsufficientStorage, exit.Environment, Here, "the engine is full, and takes no write"},
}

// byName are the rows by their names.
var byName = func() map[Name]row {
	all := map[Name]row{}
	for _, row := range rows {
		all[row.name] = row
	}
	return all
}()

// Names are those of all errors, by their statuses.
func Names() []Name {
	all := make([]Name, len(rows))
	for at, row := range rows {
		all[at] = row.name
	}
	return all
}

// of is the row of a name. One that is not in the table is of a later version, and final.
func (n Name) of() row {
	if known, isKnown := byName[n]; isKnown {
		return known
	}
	return row{name: n, ends: exit.Environment}
}

// Status is that of an answer by HTTP with an error of this name, and Says when it comes.
func (n Name) Status() int  { return n.of().status }
func (n Name) Says() string { return n.of().says }

// Again says who may be asked again after an error of this name.
func (n Name) Again() Again { return n.of().again }

// An Error is an answer that is none.
type Error struct {
	// Status is that of the answer by HTTP.
	Status  int    `json:"-"`
	Name    Name   `json:"error" says:"the name of the error"`
	Message string `json:"message" says:"why it came, for a person"`
	Last    int64  `json:"last,omitempty" says:"of Passed: the last number of the client"`
	Refused int64  `json:"refused,omitempty" says:"of Refused: the number of the refusal"`
	Refusal string `json:"refusal,omitempty" says:"of Refused: its name"`
	Writer  string `json:"writer,omitempty" says:"of NotWriter: the address of the primary that writes, if it is known"`
	Epoch   int64  `json:"epoch,omitempty" says:"of Behind: the epoch that the site shows"`
	Place   int64  `json:"place,omitempty" says:"of Behind: how many updates of it"`
	Updates int64  `json:"updates,omitempty" says:"of CannotBe: how many updates there are"`
}

// NewError gives an error of a name, with its status.
func NewError(name Name, message string) *Error {
	return &Error{Status: name.Status(), Name: name, Message: message}
}

func (e *Error) Error() string {
	if e.Message == "" {
		return string(e.Name)
	}
	return e.Message
}

// ExitStatus is that of a command which meets it.
func (e *Error) ExitStatus() exit.Status { return e.Name.of().ends }
