// Package settings reads the settings of a command: flags, as `--every 1000`, and a file with one `every = 1000` a line. Flags win.
//
// Blank lines of the file and lines that begin with `#` are passed over. One file may serve several commands: a key of another command
// is passed over, and a key that no command has is an error, as is one that stands there twice.
package settings

import (
	"errors"
	"flag"
	"fmt"
	"os"
	"sort"
	"strconv"
	"strings"
	"time"
)

// fileKey is the flag that names the file.
const fileKey = "settings"

// A Set is what settings a command has.
type Set struct {
	flags *flag.FlagSet
	file  string
}

// New gives a set without a setting, but for the name of the file.
func New(command string) *Set {
	set := &Set{flags: flag.NewFlagSet(command, flag.ContinueOnError)}
	set.flags.StringVar(&set.file, fileKey, "", "the `FILE` with settings")
	return set
}

// Text is a setting of any text. In the help the word between back quotes stands for what it takes.
func (s *Set) Text(to *string, key, usual, help string) {
	s.flags.StringVar(to, key, usual, help)
}

// Switch is a setting that is true or false.
func (s *Set) Switch(to *bool, key, help string) { s.flags.BoolVar(to, key, false, help) }

// Number is a setting from least to most.
func (s *Set) Number(to *int64, key string, usual, least, most int64, help string) {
	*to = usual
	s.flags.Func(key, help+fmt.Sprintf(" (%d)", usual), func(text string) error {
		number, err := strconv.ParseInt(text, 10, 64)
		if err != nil || number < least || number > most {
			return fmt.Errorf("it is a number from %d to %d", least, most)
		}
		*to = number
		return nil
	})
}

// Seconds is a setting of a time, as 5 or 0.5.
func (s *Set) Seconds(to *time.Duration, key string, usual, most time.Duration, help string) {
	*to = usual
	s.flags.Func(key, help+fmt.Sprintf(" (%g)", usual.Seconds()), func(text string) error {
		seconds, err := strconv.ParseFloat(text, 64)
		if err != nil || !(seconds >= 0 && seconds <= most.Seconds()) {
			return fmt.Errorf("it is a number of seconds, at most %g", most.Seconds())
		}
		*to = time.Duration(seconds * float64(time.Second))
		return nil
	})
}

// List is a setting of words with commas between them.
func (s *Set) List(to *[]string, key, help string) {
	s.flags.Func(key, help, func(text string) error {
		*to = nil
		for _, word := range strings.Split(text, ",") {
			word = strings.TrimSpace(word)
			if word == "" {
				return errors.New("it is a list of words with commas between them")
			}
			*to = append(*to, word)
		}
		return nil
	})
}

// Has is whether the set has a setting of this key.
func (s *Set) Has(key string) bool { return s.flags.Lookup(key) != nil }

// Read reads the flags among the words and then the file, and returns the words that are none. isKnown is whether another command has a
// key, which may stand in the file then.
func (s *Set) Read(words []string, isKnown func(key string) bool) ([]string, error) {
	rest := []string{}
	for len(words) > 0 {
		word := words[0]
		words = words[1:]
		if word == "--" {
			rest = append(rest, words...)
			break
		}
		if len(word) < 2 || word[0] != '-' {
			rest = append(rest, word)
			continue
		}
		used, err := s.flag(strings.TrimPrefix(word[1:], "-"), words)
		if err != nil {
			return nil, err
		}
		words = words[used:]
	}
	if s.file == "" {
		return rest, nil
	}
	text, err := os.ReadFile(s.file)
	if err != nil {
		return nil, err
	}
	return rest, s.readFile(string(text), isKnown)
}

// flag sets one, as `every=8`, or with its value among the words that follow. It returns how many of these are used.
func (s *Set) flag(text string, words []string) (used int, err error) {
	key, value, hasValue := strings.Cut(text, "=")
	found := s.flags.Lookup(key)
	switch {
	case found == nil && (key == "help" || key == "h"):
		return 0, flag.ErrHelp
	case found == nil:
		return 0, fmt.Errorf("there is no flag --%s", key)
	case hasValue:
	case isSwitch(found):
		value = "true"
	case len(words) == 0:
		return 0, fmt.Errorf("a value is missing after --%s", key)
	default:
		value, used = words[0], 1
	}
	if err = s.flags.Set(key, value); err != nil {
		err = fmt.Errorf("%.60q for --%s: %w", value, key, err)
	}
	return used, err
}

// isSwitch is whether a flag may stand without a value.
func isSwitch(found *flag.Flag) bool {
	switched, isOne := found.Value.(interface{ IsBoolFlag() bool })
	return isOne && switched.IsBoolFlag()
}

func (s *Set) readFile(text string, isKnown func(string) bool) error {
	isGiven := s.Given()
	for _, line := range Lines(text, func(key string) bool { return s.Has(key) || isKnown(key) }) {
		err := line.Err
		if err == nil && s.Has(line.Key) && !isGiven[line.Key] {
			err = s.Put(line.Key, line.Value)
		}
		if err != nil {
			return fmt.Errorf("%s, line %d: %w", s.file, line.Number, err)
		}
	}
	return nil
}

// File is the name of the file with settings, or "".
func (s *Set) File() string { return s.file }

// Given are the keys that have a value.
func (s *Set) Given() map[string]bool {
	isGiven := map[string]bool{}
	s.flags.Visit(func(given *flag.Flag) { isGiven[given.Name] = true })
	return isGiven
}

// Put gives a setting its value.
func (s *Set) Put(key, value string) error {
	if err := s.flags.Set(key, value); err != nil {
		return fmt.Errorf("%.60q for %s: %w", value, key, err)
	}
	return nil
}

// A Line is a setting in a file, or an error in place of one.
type Line struct {
	Number     int
	Key, Value string
	Err        error
}

// Lines gives the settings of a file. isKnown is whether a key may stand there.
func Lines(text string, isKnown func(key string) bool) []Line {
	lines, isThere := []Line{}, map[string]bool{}
	for at, text := range strings.Split(text, "\n") {
		text = strings.TrimSpace(text)
		if text == "" || text[0] == '#' {
			continue
		}
		key, value, isPair := strings.Cut(text, "=")
		line := Line{Number: at + 1, Key: strings.TrimSpace(key), Value: strings.TrimSpace(value)}
		switch {
		case !isPair:
			line.Err = fmt.Errorf("%.60q is not `key = value`", text)
		case isThere[line.Key]:
			line.Err = fmt.Errorf("the key %s stands there twice", line.Key)
		case line.Key == fileKey || !isKnown(line.Key):
			line.Err = fmt.Errorf("there is no key %.60q", line.Key)
		}
		isThere[line.Key] = true
		lines = append(lines, line)
	}
	return lines
}

// Help is a line for each setting, in the order of their keys.
func (s *Set) Help() string {
	lines := []string{}
	s.flags.VisitAll(func(each *flag.Flag) {
		name, help := flag.UnquoteUsage(each)
		if each.DefValue != "" && each.DefValue != "false" {
			help += fmt.Sprintf(" (%s)", each.DefValue)
		}
		lines = append(lines, fmt.Sprintf("  --%-34s %s\n", strings.TrimSpace(each.Name+" "+name), help))
	})
	sort.Strings(lines)
	return strings.Join(lines, "")
}
