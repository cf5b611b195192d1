package primary

import "ordup.dev/node/internal/epoch"

// rounds counts the forced rounds of sites over epochs. A core that runs an epoch again finds the same ones, so they are counted once.
type rounds struct {
	ended int64
	past  map[string]int64
	most  map[string]int64
}

// end takes those of an epoch that has ended.
func (r *rounds) end(epoch int64, those map[string]int64) {
	if epoch <= r.ended {
		return
	}
	r.ended = epoch
	if r.past == nil {
		r.past = map[string]int64{}
	}
	for site, count := range those {
		r.past[site] += count
	}
}

// over gives the sums, which never get less.
func (r *rounds) over(status *epoch.Status) map[string]int64 {
	if r.most == nil {
		r.most = map[string]int64{}
	}
	sums := map[string]int64{}
	for _, site := range status.Sites {
		sum := r.past[site.Name]
		if status.Epoch > r.ended {
			sum += site.Rounds
		}
		if sum < r.most[site.Name] {
			sum = r.most[site.Name]
		}
		r.most[site.Name], sums[site.Name] = sum, sum
	}
	return sums
}
