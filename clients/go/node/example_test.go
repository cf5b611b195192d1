package node_test

import (
	"context"
	"errors"
	"fmt"
	"net/http"
	"net/http/httptest"
	"time"

	"ordup.dev/ordup/node"
)

// answers stands in for a primary and a site.
func answers(to http.ResponseWriter, asked *http.Request) {
	if asked.Method == http.MethodGet {
		fmt.Fprint(to, `{"object":"tea","value":995,"site":"north","epoch":1,"place":1,"seen":"1.1","lease_seconds":2.6,"limits":["count 3"]}`)
		return
	}
	fmt.Fprint(to, `{"client":"ann","number":1,"epoch":1,"place":1,"seen":"1.1"}`)
}

func Example() {
	server := httptest.NewServer(http.HandlerFunc(answers))
	defer server.Close()
	primary, north := server.URL, server.URL // As http://10.0.0.1:7002 and http://10.0.0.6:7001.

	ctx, cancel := context.WithTimeout(context.Background(), time.Minute)
	defer cancel()
	shop, err := node.New(node.Config{Addresses: []string{primary}, Client: "ann"})
	if err != nil {
		panic(err)
	}
	if _, err = shop.Update(ctx, "add:tea:-5", "add:till:20"); errors.Is(err, node.Refused) {
		fmt.Println("the store refuses it:", err)
	}
	reading, err := shop.Read(ctx, north, "tea")
	fmt.Println(reading.Values["tea"], reading.Seen, err)
	// Output: 995 1.1 <nil>
}
