package numbers

import (
	"context"
	"fmt"
	"html/template"
	"strings"
	"sync"
	"time"

	"ordup.dev/node/internal/primary"
	"ordup.dev/node/internal/site"
)

// mostPoints is how many points the picture of the lag has, one each pointTime: five minutes.
const mostPoints, pointTime = 300, time.Second

// A Lag keeps how many updates each site missed in the last minutes, as a primary or as the site itself knows.
type Lag struct {
	lock sync.Mutex
	// Points are by site, the last one at the end. One of -1 is none.
	points map[string][]int64
	names  []string
}

// RunOfPrimary looks at the sites each second, until the context ends.
func (l *Lag) RunOfPrimary(ctx context.Context, status func() primary.Status) {
	l.run(ctx, func() {
		now := status()
		l.add(&now)
	})
}

// RunOfSite looks at a site each second, until the context ends.
func (l *Lag) RunOfSite(ctx context.Context, name string, status func() site.Status) {
	l.run(ctx, func() {
		now := status()
		l.addSite(name, &now)
	})
}

func (l *Lag) run(ctx context.Context, look func()) {
	ticker := time.NewTicker(pointTime)
	defer ticker.Stop()
	for {
		look()
		select {
		case <-ticker.C:
		case <-ctx.Done():
			return
		}
	}
}

func (l *Lag) add(status *primary.Status) {
	names, missing := []string{}, map[string]int64{}
	for _, site := range status.Core.Sites {
		missing[site.Name] = site.Missing
		names = append(names, site.Name)
	}
	l.point(names, missing)
}

func (l *Lag) addSite(name string, status *site.Status) {
	l.point([]string{name}, map[string]int64{name: status.Lag()})
}

// point puts a point at the end of each line.
func (l *Lag) point(names []string, missing map[string]int64) {
	l.lock.Lock()
	defer l.lock.Unlock()
	l.names = names
	points := map[string][]int64{}
	for name, now := range missing {
		line := append(l.points[name], now)
		if len(line) > mostPoints {
			line = line[len(line)-mostPoints:]
		}
		points[name] = line
	}
	l.points = points
}

// The picture: its size, and where the lines are drawn.
const (
	width, height           = 900, 260
	left, top, right, below = 60, 16, 140, 30
)

// colors can be told apart by those who see few of them.
var colors = []string{"#0072b2", "#d55e00", "#009e73", "#cc79a7", "#e69f00", "#56b4e9", "#7a7a00", "#000000"}

// Picture draws the lines as SVG.
func (l *Lag) Picture() template.HTML {
	l.lock.Lock()
	defer l.lock.Unlock()
	most := int64(1)
	for _, line := range l.points {
		for _, point := range line {
			if point > most {
				most = point
			}
		}
	}
	var to strings.Builder
	fmt.Fprintf(&to, `<svg viewBox="0 0 %d %d" role="img" aria-label="missing updates of each site in the last five minutes">`, width, height)
	for part := int64(0); part <= 2; part++ {
		y := height - below - part*(height-top-below)/2
		fmt.Fprintf(&to, `<line x1="%d" x2="%d" y1="%d" y2="%d" class="grid"/><text x="%d" y="%d" class="left">%.4g</text>`,
			left, width-right, y, y, left-6, y+4, float64(most*part)/2)
	}
	fmt.Fprintf(&to, `<text x="%d" y="%d">5 minutes ago</text><text x="%d" y="%d" class="left">now</text>`,
		left, height-8, width-right, height-8)
	for at, name := range l.names {
		color, dash := colors[at%len(colors)], ""
		if at >= len(colors) {
			dash = ` stroke-dasharray="6 3"`
		}
		fmt.Fprintf(&to, `<polyline fill="none" stroke="%s" stroke-width="1.5"%s points="%s"/><text x="%d" y="%d" fill="%s">%s</text>`,
			color, dash, l.line(name, most), width-right+8, top+12+15*at, color, template.HTMLEscapeString(name))
	}
	to.WriteString(`</svg>`)
	return template.HTML(to.String())
}

func (l *Lag) line(name string, most int64) string {
	var to strings.Builder
	line := l.points[name]
	for at, point := range line {
		x := float64(width-right) - float64(len(line)-1-at)*float64(width-left-right)/(mostPoints-1)
		y := float64(height-below) - float64(point)*float64(height-top-below)/float64(most)
		fmt.Fprintf(&to, "%.1f,%.1f ", x, y)
	}
	return to.String()
}
