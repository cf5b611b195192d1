package serve

import (
	"context"
	"net/http"
	"net/http/httptest"
	"testing"
)

// A token that came by TLS goes on by TLS alone.
func TestWhatCameByTLSGoesNoOtherWay(t *testing.T) {
	t.Parallel()
	count := 0
	plain := httptest.NewServer(http.HandlerFunc(func(http.ResponseWriter, *http.Request) { count++ }))
	defer plain.Close()
	asked := &request{Request: httptest.NewRequest("POST", "/update", nil)}
	asked.Header.Set("Authorization", "Bearer secret")
	if err := NewPasser("https://127.0.0.1:1", nil).on(context.Background(), asked, plain.URL, &struct{}{}); err == nil || count != 0 {
		t.Error(err, count)
	}
}
