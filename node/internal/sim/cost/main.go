// Cost simulates what rounds cost, in simulated time: go run ./internal/sim/cost [-plot FILE.png]
//
// It prints three tables in Markdown. With -plot gnuplot draws the first two.
//
// What is decided is decided by the code of the node: epoch.Core has the open batch, writer.Writer what is on its way, site.IsDue says when
// a site tells a place, fleet.Fleet what a fleet tells, and site.Replica what an entry comes to. What it takes is a model: the engine is one
// thread, the primary takes calls one after another and runs lines beside that, and each thing takes as long as a constant says. Each
// update weighs 1, all sites have the same limit, and no epoch ends.
package main

import (
	"flag"
	"fmt"
	"os"
	"os/exec"
	"runtime/debug"
	"strings"
	"time"
)

var (
	trips  = []int{1, 2, 5, 10, 20, 50, 100, 200}
	limits = []int{0, 10, 100, 1000}
	counts = []int{1, 4, 16, 64, 250, 1000}
	// few are the round trips of the second table.
	few = []int{1, 20, 100}
)

// members are those of an engine: how long a write takes where they are near each other, and the round trip between them.
var members = []struct {
	name           string
	fsync, between time.Duration
}{
	{"one", 550 * time.Microsecond, 0},
	{"three", fsync, 0},
	{"five", 1100 * time.Microsecond, 0},
	{"three, 2 ms apart", fsync, 2 * time.Millisecond},
	{"three, 10 ms apart", fsync, 10 * time.Millisecond},
	{"three, 50 ms apart", fsync, 50 * time.Millisecond},
}

func main() {
	file := flag.String("plot", "", "the `FILE.png` that gnuplot draws")
	flag.Parse()
	debug.SetGCPercent(800) // Little is kept, and much is left behind.
	if err := run(*file); err != nil {
		fmt.Fprintln(os.Stderr, "cost:", err)
		os.Exit(1)
	}
}

func run(file string) error {
	waits, err := printTable("round trip (ms)", "limit %s", trips, limits, waitsAt)
	if err != nil {
		return err
	}
	fmt.Println()
	rates, err := printTable("sites", "%s ms", counts, few, rateAt)
	if err != nil {
		return err
	}
	if err = printMembers(); err != nil || file == "" {
		return err
	}
	return plot(file, waits, rates)
}

// waitsAt is a cell of the first table, and the number to draw.
func waitsAt(trip, limit int) (string, float64, error) {
	cost, err := simulate(3000, setup{sites: most, trip: inMs(trip), limit: limit, rate: 500, fsync: fsync})
	return fmt.Sprintf("%.0f/%.0f, %.1f", cost.half, cost.most, cost.rounds), cost.half, err
}

// rateAt is one of the second.
func rateAt(count, trip int) (string, float64, error) {
	cost, err := simulate(10_000, setup{sites: count, trip: inMs(trip), limit: 1000, clients: 1000, fsync: fsync})
	return grouped(cost.rate), cost.rate, err
}

// printTable prints a line for each row, with a cell for each column. It gives the numbers to draw.
func printTable(of, title string, rows, columns []int, cell func(row, column int) (string, float64, error)) (drawn string, err error) {
	fmt.Printf("| %s |", of)
	for _, column := range columns {
		fmt.Printf(" "+title+" |", grouped(float64(column)))
	}
	fmt.Println("\n|--:|" + strings.Repeat("--:|", len(columns)))
	for _, row := range rows {
		fmt.Printf("| %s |", grouped(float64(row)))
		drawn += fmt.Sprint(row)
		for _, column := range columns {
			text, number, err := cell(row, column)
			if err != nil {
				return "", err
			}
			fmt.Printf(" %s |", text)
			drawn += fmt.Sprint(" ", number)
		}
		fmt.Println()
		drawn += "\n"
	}
	return drawn, nil
}

// printMembers prints both for members of the engine that are more, or farther from each other.
func printMembers() error {
	fmt.Println("\n| members | wait (ms) | updates a second |\n|---|--:|--:|")
	for _, it := range members {
		of := setup{sites: most, trip: inMs(1), limit: 1000, rate: 500, fsync: it.fsync, between: it.between}
		wait, err := simulate(3000, of)
		if err != nil {
			return err
		}
		of.rate, of.clients = 0, 1000
		through, err := simulate(10_000, of)
		if err != nil {
			return err
		}
		fmt.Printf("| %s | %.0f/%.0f | %s |\n", it.name, wait.half, wait.most, grouped(through.rate))
	}
	return nil
}

func inMs(count int) time.Duration { return time.Duration(count) * time.Millisecond }

// grouped is a number below a million.
func grouped(number float64) string {
	if number < 999.5 {
		return fmt.Sprintf("%.0f", number)
	}
	whole := int(number + 0.5)
	return fmt.Sprintf("%d,%03d", whole/1000, whole%1000)
}

// plot has gnuplot draw the first two tables. The colours are told apart without red and green (Okabe and Ito), each with a mark of its own.
func plot(file, waits, rates string) error {
	styles := []string{"pt 7 lc rgb '#d55e00'", "pt 5 lc rgb '#0072b2'", "pt 9 lc rgb '#000000'", "pt 13 lc rgb '#cc79a7'"}
	curves := func(data, title string, of []int) string {
		parts := []string{}
		for at, it := range of {
			parts = append(parts, fmt.Sprintf("$%s using 1:%d with linespoints lw 2.5 ps 1.4 %s title '%s'", data, at+2, styles[at],
				strings.Replace(title, "N", grouped(float64(it)), 1)))
		}
		return strings.Join(parts, ", ")
	}
	run := exec.Command("gnuplot")
	run.Stdin = strings.NewReader(fmt.Sprintf(drawing, waits, rates, file,
		curves("waits", "limit N updates", limits), curves("rates", "round trip N ms", few)))
	if said, err := run.CombinedOutput(); err != nil {
		return fmt.Errorf("draw %s: %w: %s", file, err, said)
	}
	return nil
}

const drawing = `$waits << end
%send
$rates << end
%send
set terminal pngcairo size 800,900 font 'DejaVu Sans,13' background 'white'
set output '%s'
set multiplot layout 2,1
set grid lc rgb '#d0d7de' lw 1
set logscale xy
set border lw 1.2
set format y '%%g'
set xlabel 'round-trip time to the sites, median (ms)'
set ylabel 'median wait for the answer (ms)'
set title '16 sites, 500 updates a second: what a client waits'
set key top left reverse Left
set xrange [0.4:250]
set yrange [1:3000]
set xtics (0.5, 1, 2, 5, 10, 20, 50, 100, 200)
set ytics (1, 2, 5, 10, 20, 50, 100, 200, 500, 1000, 2000)
plot %s
set xlabel 'sites'
set ylabel 'updates acknowledged each second'
set title '1,000 clients, limit 1,000 updates: how much goes through'
set key bottom left reverse Left
set xrange [0.8:1250]
set yrange [300:30000]
set xtics (1, 2, 4, 8, 16, 64, 250, 1000)
set ytics (500, 1000, 2000, 5000, 10000, 20000)
set arrow from 16,300 to 16,30000 nohead dt 2 lc rgb '#57606a'
set label 'above 16: fleets' at 18,22000 tc rgb '#57606a'
plot %s
unset multiplot
`
