package wire

import (
	"net/http"
	"reflect"
	"testing"

	"ordup.dev/node/internal/exit"
)

// Each path and each error says what it is, each field of a body too, and each error comes at some path.
func TestTheTablesSayAll(t *testing.T) {
	t.Parallel()
	comes, said := map[Name]bool{}, map[string]bool{}
	for _, path := range Paths {
		if path.Does == "" || (path.Again == "") != (path.Method == http.MethodGet) || len(path.At) == 0 ||
			(path.Answer == nil) == (path.Type == "") || (path.Body == nil) != (path.MostBody == 0) {
			t.Errorf("a row lacks something: %+v", path)
		}
		for _, name := range path.Errors() {
			comes[name] = true
		}
		for _, name := range path.Own {
			if name.Status() == 0 {
				t.Errorf("%s has no row of an error %s", path.Path, name)
			}
		}
		if PathOf(path.Path).Does != path.Does {
			t.Errorf("two rows have the path %s", path.Path)
		}
	}
	for _, name := range Names() {
		if !comes[name] || name.Says() == "" || said[name.Says()] {
			t.Errorf("%s comes at some path: %v, and is %q", name, comes[name], name.Says())
		}
		said[name.Says()] = true
	}
	if len(said) != len(byName) || len(said) < 28 {
		t.Errorf("%d errors, %d of them with names of their own", len(said), len(byName))
	}
	for _, body := range bodies() {
		for _, field := range fieldsOf(body) {
			if field.name == "" || field.says == "" {
				t.Errorf("%s has a field without its name, or without its tag `says`: %+v", body, field)
			}
		}
	}
}

// Who reads the status alone knows whether to ask again: clients that know no names do.
func TestAStatusSaysWhetherToAskAgain(t *testing.T) {
	t.Parallel()
	again := map[int]bool{408: true, 500: true, 503: true, 504: true, 507: true}
	for _, name := range Names() {
		if may := name.Again() != Never; may != again[name.Status()] {
			t.Errorf("%d %s may be asked again: %v", name.Status(), name, may)
		}
	}
}

func TestAnErrorSaysItsNameWhereItHasNoMessage(t *testing.T) {
	t.Parallel()
	if err := NewError(Busy, ""); err.Error() != "Busy" || err.Status != 503 || err.Name.Again() != Here {
		t.Error(err, err.Status)
	}
}

// A name of a later version is an answer for good, and of no status that says more.
func TestANameThatNobodyKnows(t *testing.T) {
	t.Parallel()
	err := &Error{Status: 418, Name: "Teapot"}
	if err.Name.Again() != Never || err.ExitStatus() != exit.Environment || err.Error() != "Teapot" || err.Name.Says() != "" {
		t.Error(err.Name.Again(), err.ExitStatus(), err)
	}
}

// PathOf is asked for paths of the table alone.
func TestAPathThatIsNotThere(t *testing.T) {
	t.Parallel()
	defer func() {
		if recover() == nil {
			t.Error("there is a path /nowhere")
		}
	}()
	t.Error(reflect.ValueOf(PathOf("/nowhere")))
}
