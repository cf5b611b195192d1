package sim

import "ordup.dev/node/internal/store"

// OpenModel gives the model of a store that a run has, which is quick.
func OpenModel() (store.Store, error) { return openModel() }
