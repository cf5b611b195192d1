// Package store says what the rest of the program asks of the stores of ordup, and of the checker of their records.
//
// Package library has those of libordup, which is linked with the tag library, and package modelstore has a store for tests.
package store

import "ordup.dev/ordup/answer"

// A Store takes lines of ordup and gives their answers.
type Store interface {
	// Answers answers the lines of a text, each but comments and blank ones. With an error the store is of no more use.
	Answers(lines []byte) ([]answer.Answer, error)
	// NextDeclarations gives the declarations of the store that goes on from this one, all of whose updates are acknowledged.
	NextDeclarations() (string, error)
	// Record gives the record of a site, for a Checker.
	Record(site string) (string, error)
	// Close gives back what the store has.
	Close() error
}

// Open gives a store before its first line.
type Open func() (Store, error)

// A Checker says what the records of stores show.
type Checker interface {
	// Check checks the record of a site.
	Check(record []byte) (answer.Verdict, error)
	// CheckSeries checks those of a site, one after another, of a store and of those that go on from it.
	CheckSeries(records []byte) (answer.SeriesVerdict, error)
}
