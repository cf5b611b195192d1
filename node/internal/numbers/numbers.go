// Package numbers has what operators see: numbers for Prometheus, and a page. The help of each number says what it is.
package numbers

import (
	"net/http"
	"time"

	"github.com/prometheus/client_golang/prometheus"
	"github.com/prometheus/client_golang/prometheus/collectors"
	"github.com/prometheus/client_golang/prometheus/promhttp"
)

// A sample is one number.
type sample struct {
	name, help string
	isCounter  bool
	// Labels are the names of labels and their values.
	labels [][2]string
	value  float64
}

func gauge(name, help string, value float64) sample {
	return sample{name: name, help: help, value: value}
}

func counter(name, help string, value int64) sample {
	return sample{name: name, help: help, isCounter: true, value: float64(value)}
}

func (s sample) of(name, value string) sample {
	s.labels = append(s.labels[:len(s.labels):len(s.labels)], [2]string{name, value})
	return s
}

func truth(is bool) float64 {
	if is {
		return 1
	}
	return 0
}

// A collector asks for the samples when Prometheus asks for them.
type collector func() []sample

// Describe says nothing, so that the samples may differ from time to time.
func (collector) Describe(chan<- *prometheus.Desc) {}

// Collect gives the samples.
func (c collector) Collect(to chan<- prometheus.Metric) {
	for _, each := range c() {
		names, values := []string{}, []string{}
		for _, label := range each.labels {
			names, values = append(names, label[0]), append(values, label[1])
		}
		kind := prometheus.GaugeValue
		if each.isCounter {
			kind = prometheus.CounterValue
		}
		to <- prometheus.MustNewConstMetric(prometheus.NewDesc("ordup_"+each.name, each.help, names, nil), kind, each.value, values...)
	}
}

// A Numbers is those of a process.
type Numbers struct{ registry *prometheus.Registry }

// newNumbers gives those that all processes have.
func newNumbers(kind, version string, connections func() int, samples collector) *Numbers {
	numbers := &Numbers{prometheus.NewRegistry()}
	numbers.registry.MustRegister(samples, collectors.NewGoCollector(),
		collectors.NewProcessCollector(collectors.ProcessCollectorOpts{}),
		collector(func() []sample {
			return []sample{
				gauge("build_info", "1, with the version of the program", 1).of("version", version),
				gauge("process_info", "1, with what the process is", 1).of("kind", kind),
				gauge("connections", "connections from outside that are open", float64(connections())),
			}
		}))
	return numbers
}

// Shows has the numbers tell until when the certificates are good that the process shows, by their files.
func (n *Numbers) Shows(certificates func() map[string]time.Time) {
	n.registry.MustRegister(collector(func() []sample {
		samples := []sample{}
		for file, until := range certificates() {
			samples = append(samples, gauge("certificate_expiry_timestamp_seconds",
				"when the first certificate of a file expires that the process shows", float64(until.Unix())).of("file", file))
		}
		return samples
	}))
}

// Handler answers at /metrics.
func (n *Numbers) Handler() http.Handler {
	return promhttp.HandlerFor(n.registry, promhttp.HandlerOpts{})
}
