package wire

import (
	"bytes"
	"encoding/json"
	"net/http"
	"os"
	"reflect"
	"sort"
	"strconv"
	"strings"
	"testing"
)

// An object of JSON. It is written with its keys in order.
type object = map[string]any

// schemaOf is how OpenAPI has a type.
func schemaOf(kind reflect.Type) object {
	switch kind.Kind() {
	case reflect.Int64:
		return object{"type": "integer", "format": "int64"}
	case reflect.Slice:
		return object{"type": "array", "items": schemaOf(kind.Elem())}
	case reflect.Map:
		return object{"type": "object", "additionalProperties": schemaOf(kind.Elem())}
	case reflect.Struct:
		needed, properties := []string{}, object{}
		for _, field := range fieldsOf(kind) {
			schema := schemaOf(field.kind)
			schema["description"] = field.says
			properties[field.name] = schema
			if field.isNeeded {
				needed = append(needed, field.name)
			}
		}
		schema := object{"type": "object", "properties": properties}
		if len(needed) > 0 {
			schema["required"] = needed
		}
		return schema
	}
	return object{"type": kindOf(kind)}
}

// content is what a body of a media type has.
func content(kind string, schema any) object { return object{kind: object{"schema": schema}} }

// ofType refers to the schema of a type that travels.
func ofType(value any) object {
	if named(value) == "" {
		return schemaOf(reflect.TypeOf(value))
	}
	return object{"$ref": "#/components/schemas/" + named(value)}
}

// parametersOf are what stands in a path and behind its `?`.
func parametersOf(path *Path) []object {
	all := []object{}
	if path.Rest != "" {
		all = append(all, object{"name": strings.ToLower(path.Rest), "in": "path", "required": true, "schema": object{"type": "string"}})
	}
	schemas := map[string]object{
		wait.Name: {"type": "number", "minimum": 0, "maximum": MostWait.Seconds(), "default": UsualWait.Seconds()},
		seen.Name: {"type": "string", "pattern": `^[0-9]+\.[0-9]+$`},
	}
	for _, word := range path.Words {
		all = append(all, object{"name": word.Name, "in": "query", "description": word.Says, "schema": schemas[word.Name]})
	}
	return all
}

// responsesOf are the statuses of a path, each with the errors that have it.
func responsesOf(path *Path) object {
	done := object{"description": "it is done, or shown"}
	if path.Answer != nil {
		done["content"] = content("application/json", ofType(path.Answer))
	} else {
		done["content"] = content(path.Type, object{"type": "string"})
	}
	all, says := object{strconv.Itoa(http.StatusOK): done}, map[int][]string{}
	for _, name := range path.Errors() {
		says[name.Status()] = append(says[name.Status()], string(name)+": "+name.Says())
	}
	for status, each := range says {
		all[strconv.Itoa(status)] = object{"description": strings.Join(each, ". "), "content": content("application/json", ofType(Error{}))}
	}
	if path.Unready != "" {
		busy := all[strconv.Itoa(http.StatusServiceUnavailable)].(object)
		busy["description"] = busy["description"].(string) + ". As a text: " + path.Unready
		busy["content"].(object)[path.Type] = object{"schema": object{"type": "string"}}
	}
	return all
}

func operationOf(path *Path) object {
	operation := object{"summary": path.Does, "responses": responsesOf(path), "tags": path.At}
	if path.Again != "" {
		operation["description"] = "Sent again: " + path.Again
	}
	if parameters := parametersOf(path); len(parameters) > 0 {
		operation["parameters"] = parameters
	}
	if path.Body != nil {
		operation["requestBody"] = object{"required": true, "content": content("application/json", ofType(path.Body))}
	}
	if path.Role != Anybody {
		schemes := []object{{string(path.Role): []string{}}}
		if path.Method == http.MethodGet {
			schemes = append(schemes, object{string(path.Role) + "_password": []string{}})
		}
		operation["security"] = append(schemes, object{})
	}
	return operation
}

// described is all of openapi.json.
func described() object {
	paths, schemas, security := object{}, object{}, object{}
	for at := range Paths {
		path := &Paths[at]
		name := path.Path
		if path.Rest != "" {
			name += "{" + strings.ToLower(path.Rest) + "}"
		}
		paths[name] = object{strings.ToLower(path.Method): operationOf(path)}
		if path.Role != Anybody {
			security[string(path.Role)] = object{"type": "http", "scheme": "bearer"}
			security[string(path.Role)+"_password"] = object{"type": "http", "scheme": "basic"}
		}
	}
	for _, body := range bodies() {
		schemas[body.Name()] = schemaOf(body)
	}
	return object{
		"openapi": "3.0.3",
		"info": object{"title": "ordup-node", "version": "1",
			"description": "What the processes of ordup-node answer by HTTP. A tag names a kind of process that has the path."},
		"paths": paths, "components": object{"schemas": schemas, "securitySchemes": security},
	}
}

func TestTheDescriptionIsThatOfTheTable(t *testing.T) {
	var want bytes.Buffer
	encoder := json.NewEncoder(&want)
	encoder.SetEscapeHTML(false)
	encoder.SetIndent("", " ")
	if err := encoder.Encode(described()); err != nil {
		t.Fatal(err)
	}
	if *write {
		if err := os.WriteFile(description, want.Bytes(), 0o644); err != nil {
			t.Fatal(err)
		}
	}
	if text, err := os.ReadFile(description); err != nil || string(text) != want.String() {
		t.Error("`go test ./internal/wire -write` writes another openapi.json", err)
	}
}

// What a program that reads the description finds of one path, by hand.
func TestTheDescriptionOfOnePath(t *testing.T) {
	t.Parallel()
	text, err := os.ReadFile(description)
	if err != nil {
		t.Fatal(err)
	}
	var read struct {
		OpenAPI string
		Paths   map[string]map[string]struct {
			Parameters []struct{ Name, In string }
			Responses  map[string]struct{ Description string }
			Security   []map[string][]string
		}
		Components struct {
			Schemas map[string]struct {
				Properties map[string]struct{ Type string }
				Required   []string
			}
		}
	}
	if err := json.Unmarshal(text, &read); err != nil || read.OpenAPI != "3.0.3" || len(read.Paths) != len(Paths) {
		t.Fatal(err, read)
	}
	value := read.Paths["/value/{object}"]["get"]
	statuses := []string{}
	for status := range value.Responses {
		statuses = append(statuses, status)
	}
	sort.Strings(statuses)
	if all := strings.Join(statuses, " "); all != "200 400 401 403 404 405 408 412 413 503" {
		t.Error(all)
	}
	if len(value.Parameters) != 3 || value.Parameters[0].In != "path" || value.Parameters[2].Name != "seen" {
		t.Error(value.Parameters)
	}
	if _, isThere := value.Security[1]["clients_password"]; !isThere {
		t.Error(value.Security)
	}
	schema := read.Components.Schemas["Value"]
	if schema.Properties["lease_seconds"].Type != "number" || schema.Properties["limits"].Type != "array" || len(schema.Required) < 8 {
		t.Error(schema)
	}
	if schema := read.Components.Schemas["Error"]; len(schema.Required) != 2 {
		t.Error(schema.Required)
	}
	for _, part := range strings.Split(string(text), `"$ref": "#/components/schemas/`)[1:] {
		if name, _, _ := strings.Cut(part, `"`); len(read.Components.Schemas[name].Properties) == 0 {
			t.Errorf("there is no schema %s", name)
		}
	}
}
