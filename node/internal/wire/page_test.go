package wire

import (
	"flag"
	"fmt"
	"os"
	"reflect"
	"strings"
	"testing"
)

var write = flag.Bool("write", false, "write the tables of docs/HTTP.md, and openapi.json")

const page, description = "../../../docs/HTTP.md", "../../openapi.json"

// A table begins with a head that the page has once, and goes up to the next empty line.
type table struct {
	head string
	rows []string
}

func (t *table) String() string {
	return t.head + "\n" + strings.Repeat("---|", strings.Count(t.head, "|")) + "---\n" + strings.Join(t.rows, "\n") + "\n"
}

// called is how a path is asked for.
func called(path *Path) string {
	words := []string{}
	for _, word := range path.Words {
		words = append(words, word.Name+"="+word.Form)
	}
	text := path.Method + " " + path.Path + path.Rest
	if len(words) > 0 {
		text += "?" + strings.Join(words, "&")
	}
	return "`" + text + "`"
}

// named is the name of a type of a body, or nothing.
func named(value any) string {
	if value == nil || reflect.TypeOf(value).NumField() == 0 {
		return ""
	}
	return reflect.TypeOf(value).Name()
}

func pathsTable() *table {
	all := &table{head: "path | at | who | what it does | body | answer | sent again"}
	for at := range Paths {
		path := &Paths[at]
		kinds := []string{}
		for _, kind := range path.At {
			kinds = append(kinds, string(kind))
		}
		answer := named(path.Answer)
		switch {
		case path.Type != "":
			answer = path.Type
		case answer == "":
			answer = "`{}`"
		}
		does := path.Does
		if path.Unready != "" {
			does += ". With the status 503 " + path.Unready
		}
		cells := []string{called(path), strings.Join(kinds, ", "), string(path.Role), does, named(path.Body), answer, path.Again}
		all.rows = append(all.rows, strings.TrimRight(strings.Join(cells, " | "), " "))
	}
	return all
}

// bodies are all types that travel, in their order, each once.
func bodies() []reflect.Type {
	all, has := []reflect.Type{}, map[reflect.Type]bool{}
	add := func(value any) {
		if named(value) != "" && !has[reflect.TypeOf(value)] {
			all, has[reflect.TypeOf(value)] = append(all, reflect.TypeOf(value)), true
		}
	}
	for _, path := range Paths {
		add(path.Body)
		add(path.Answer)
	}
	add(Error{})
	return all
}

// A field is one of a body, those of a struct in it too.
type field struct {
	name, says string
	isNeeded   bool
	kind       reflect.Type
}

func fieldsOf(body reflect.Type) []field {
	all := []field{}
	for at := 0; at < body.NumField(); at++ {
		one := body.Field(at)
		name, option, _ := strings.Cut(one.Tag.Get("json"), ",")
		switch {
		case one.Anonymous:
			all = append(all, fieldsOf(one.Type)...)
		case name != "-":
			all = append(all, field{name, one.Tag.Get("says"), option != "omitempty", one.Type})
		}
	}
	return all
}

func bodiesTable() *table {
	all := &table{head: "body | field | type | what it is"}
	told := map[field]bool{}
	for _, body := range bodies() {
		name := body.Name()
		for _, field := range fieldsOf(body) {
			if told[field] {
				continue // It is in the struct that Value and Values share.
			}
			told[field] = true
			kind := kindOf(field.kind)
			if !field.isNeeded {
				kind += ", if there is one"
			}
			all.rows = append(all.rows, fmt.Sprintf("%s | `%s` | %s | %s", name, field.name, kind, field.says))
			name = ""
		}
	}
	return all
}

// kindOf is how a type is called in JSON.
func kindOf(kind reflect.Type) string {
	switch kind.Kind() {
	case reflect.Int64:
		return "integer"
	case reflect.Float64:
		return "number"
	case reflect.Bool:
		return "boolean"
	case reflect.String:
		return "string"
	case reflect.Slice:
		return "array of " + kindOf(kind.Elem()) + "s"
	case reflect.Map:
		return "object of " + kindOf(kind.Elem()) + "s"
	}
	panic("no body has a " + kind.String())
}

// placesOf says at which paths an error may come.
func placesOf(name Name) string {
	kinds := []struct {
		says string
		isIt func(*Path) bool
	}{
		{"each path", func(*Path) bool { return true }},
		{"each path that takes tokens", func(path *Path) bool { return path.Role != Anybody }},
		{"each path that is answered in JSON", func(path *Path) bool { return path.Answer != nil }},
		{"each path that takes a body", func(path *Path) bool { return path.Body != nil }},
		{"each path but `" + HealthPath + "`", func(path *Path) bool { return path.Path != HealthPath }},
	}
	at := []string{}
	fits := make([]bool, len(kinds))
	for kind := range fits {
		fits[kind] = true
	}
	for index := range Paths {
		path, has := &Paths[index], false
		for _, each := range path.Errors() {
			has = has || each == name
		}
		for kind := range kinds {
			fits[kind] = fits[kind] && kinds[kind].isIt(path) == has
		}
		if has {
			at = append(at, "`"+path.Path+path.Rest+"`")
		}
	}
	for kind := range kinds {
		if fits[kind] {
			return kinds[kind].says
		}
	}
	return strings.Join(at, ", ")
}

func errorsTable() *table {
	all := &table{head: "status | error | when it comes | ask again | at"}
	again := map[Again]string{Never: "no", Here: "yes, there too", Elsewhere: "yes, elsewhere first"}
	for _, name := range Names() {
		row := fmt.Sprintf("%d | `%s` | %s | %s | %s", name.Status(), name, name.Says(), again[name.Again()], placesOf(name))
		all.rows = append(all.rows, row)
	}
	return all
}

// The page has the tables as they are printed here.
func TestThePageHasTheTables(t *testing.T) {
	text, err := os.ReadFile(page)
	if err != nil {
		t.Fatal(err)
	}
	whole := string(text)
	for _, table := range []*table{pathsTable(), bodiesTable(), errorsTable()} {
		before, rest, isThere := strings.Cut(whole, table.head+"\n")
		if !isThere {
			t.Fatalf("the page has no table %s", table.head)
		}
		had, after, _ := strings.Cut(rest, "\n\n")
		if want := table.String(); table.head+"\n"+had+"\n" != want {
			if !*write {
				t.Errorf("`go test ./internal/wire -write` prints another table %s", table.head)
			}
			whole = before + want + "\n" + after
		}
	}
	for _, number := range []string{fmt.Sprintf(": %g without it, and %g at most.", UsualWait.Seconds(), MostWait.Seconds()),
		fmt.Sprintf("at most %d KiB, that of `%s` %d MiB,", MostBody>>10, NextPath, MostNextBody>>20), "`" + WriterHeader + "`", "`" + PassedHeader + "`"} {
		if !strings.Contains(whole, number) {
			t.Errorf("the page does not say %q", number)
		}
	}
	if *write {
		if err := os.WriteFile(page, []byte(whole), 0o644); err != nil {
			t.Fatal(err)
		}
	}
}
