package primary_test

import (
	"context"
	"errors"
	"fmt"
	"testing"
	"time"

	"ordup.dev/node/internal/epoch"
)

// Who has no answer in time is told for which sites that waits.
func TestNoAnswerNamesTheSites(t *testing.T) {
	t.Parallel()
	deployment := deploy(t, 1)
	one, _ := deployment.primary(deployment.config("p1"))
	for number := int64(1); number <= 3; number++ {
		is(t, fmt.Sprintf("ok acked %d epoch 1", number), deployment.ask("ann", number, "add:tea:-1"))
	}
	ctx, cancel := context.WithTimeout(context.Background(), 300*time.Millisecond)
	defer cancel()
	_, err := one.Submit(ctx, epoch.Request{Client: "ann", Number: 4, Changes: "add:tea:-1"})
	is(t, "the update waits for north: context deadline exceeded", err)
	is(t, true, errors.Is(err, context.DeadlineExceeded))
	ctx, cancel = context.WithTimeout(context.Background(), 300*time.Millisecond)
	defer cancel()
	_, err = one.Next(ctx, epoch.Wish{From: 1})
	is(t, "the next epoch waits for north and south: context deadline exceeded", err)
}
