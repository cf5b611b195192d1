// Package exit has the statuses with which a process ends. docs/MACHINES.md has them for whoever starts one.
package exit

import "errors"

// A Status is what the process tells the system.
type Status int

// The statuses.
const (
	// Done is a clean end.
	Done Status = 0
	// Environment says that something outside cannot be used: a file, a port, memory, the user of the engine.
	Environment Status = 1
	// Words says that words, settings or declarations are wrong, or not those of the script, also its version.
	Words Status = 2
	// Gap says that the script lacks an entry, has one that is none, or comes to something else at this process.
	Gap Status = 3
	// NotInScript says that the site is not among those of the script.
	NotInScript Status = 4
	// NoPlace says that the site told a place that no site can have told, or one of another script.
	NoPlace Status = 5
)

// An Ending is an error that says with which status the process ends.
type Ending interface {
	error
	ExitStatus() Status
}

type ending struct {
	error
	status Status
}

func (e *ending) Unwrap() error      { return e.error }
func (e *ending) ExitStatus() Status { return e.status }

// With is an error that ends the process with a status.
func With(status Status, err error) error { return &ending{err, status} }

// Of is the status of an error: Done without one, and Environment where it says none.
func Of(err error) Status {
	var ends Ending
	switch {
	case err == nil:
		return Done
	case errors.As(err, &ends):
		return ends.ExitStatus()
	}
	return Environment
}
