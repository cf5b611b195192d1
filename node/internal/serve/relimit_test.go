package serve_test

import (
	"fmt"
	"testing"

	"ordup.dev/node/internal/primary"
	"ordup.dev/node/internal/script"
)

func TestALimitIsAnswered(t *testing.T) {
	t.Parallel()
	writer := &writer{}
	address := startPrimary(t, nil, writer)
	for _, row := range []struct {
		body   string
		answer script.Answer
		err    error
		status int
		want   string
	}{
		{`{"site":"far","limit":"group goods 40"}`, script.Answer{Place: 3, Epoch: 2}, nil, 200,
			`{"site":"far","limit":"group goods 40","epoch":2,"place":3}`},
		{`{"site":"far","limit":"count none"}`, script.Answer{Place: 3, Epoch: 2}, nil, 200, `"limit":"count 1000000000000000000"`},
		{`{"site":"far","limit":"all 0"}`, script.Answer{Refusal: script.Refusal{Number: 25, Name: "LagOver"}}, nil, 422,
			`"message":"refused 25 LagOver","refused":25,"refusal":"LagOver"`},
		{`{"site":"far","limit":"count 3"}`, script.Answer{}, &primary.NotWriterError{}, 503, `"error":"NotWriter"`},
		{`{"site":"far","limit":"count"}`, script.Answer{}, nil, 400, "is no limit"},
		{`{"site":"far","limit":"count 3 4"}`, script.Answer{}, nil, 400, "is no limit"},
		{`{"site":"far","limit":"count -3"}`, script.Answer{}, nil, 400, "is no limit"},
		{`{"site":"far","limit":"object tea\nsettle 3"}`, script.Answer{}, nil, 400, "is no limit"},
		{`{"site":"Far","limit":"count 3"}`, script.Answer{}, nil, 400, "Malformed"},
		{`{"site":"far"}`, script.Answer{}, nil, 400, "Malformed"},
	} {
		writer.set(row.answer, row.err)
		status, text := ask(t, "POST", address+"/relimit", row.body)
		is(t, row.body, status, text, row.status, row.want)
	}
	if asked := fmt.Sprint(writer.limits[0]); asked != "{far group goods 40}" || len(writer.limits) != 4 {
		t.Error(writer.limits)
	}
}
