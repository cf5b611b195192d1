# A picture of the lag of a site: gnuplot -c examples/lag.gp LAG PICTURE
# LAG is a file with what `ordup lag` printed, or a header and a stretch of rows, also of epochs with limits on the same scopes. It is
# named after the site. PICTURE is the PNG to write. There is a panel for each limit. What is acknowledged of a place that waited is
# nothing: the site had reported it by then. The colours are told apart by readers who are colour-blind too, and each thing has a form of
# its own.
lag = ARG1
site = system(sprintf("basename '%s' | cut -d . -f 1", lag))
cell(line, column) = system(sprintf("%s -n 1 '%s' | cut -d , -f %d", line, lag, column))
columns = int(system(sprintf("head -n 1 '%s' | tr , '\n' | wc -l", lag)))
limits = (columns - 4) / 2
first = int(system(sprintf("sed -n 2p '%s' | cut -d , -f 1", lag)))
last = int(cell("tail", 1))
if (limits == 0 || last == 0) {
    print "no limit, or no decided place: there is nothing to draw"
    exit
}
round = columns - 1
window = columns
scope(column) = substr(cell("head", column), 8, -1)
unit(scope) = scope eq "count" ? "updates" : "units of the values"

set datafile separator comma
stats lag skip 1 using window name "WINDOW" nooutput
height = 145.0 + 260 * limits
set terminal pngcairo size 800, height font "DejaVu Sans,11"
set output ARG2
set label 2 "site ".site at screen 0.12, screen 1 - 22 / height left noenhanced font ",14"
set multiplot layout limits, 1 margins 0.12, 0.96, 65 / height, 1 - 95 / height spacing 0, 60 / height
set tics nomirror out
set border 3
set xrange [first - 0.5:last + 0.5]
if (last - first < 20) { set xtics 1 }
set key at graph 1, graph 1.12 right bottom horizontal reverse Left samplen 2.5 width 1
do for [i = 1:limits] {
    weight = 1 + 2 * i
    amount = 2 + 2 * i
    set yrange [*:*]
    stats lag skip 1 using weight name "WEIGHT" nooutput
    stats lag skip 1 using amount name "AMOUNT" nooutput
    top = 1.1 * (WEIGHT_max > AMOUNT_max ? WEIGHT_max : AMOUNT_max)
    top = top > 0 ? top : 1
    if (top <= 10) { set ytics 1 } else { set ytics autofreq }
    set yrange [0:top]
    if (i > 1) { unset label 2 }
    set label 1 scope(weight) at graph 0, graph 1.06 left noenhanced
    set ylabel unit(scope(weight))
    set xlabel i == limits ? "place in the log (updates)" : ""
    band(parity) = valid(window) && int(column(window)) % 2 == parity ? top : NaN
    plot lag skip 1 using 1:(band(1)):(1) with boxes lc rgb "#CFE3F1" fs solid border lc rgb "#CFE3F1" title (i == 1 && WINDOW_records > 0 ? "window" : ""), \
         lag skip 1 using 1:(band(0)):(1) with boxes lc rgb "#EAD9E6" fs solid border lc rgb "#EAD9E6" title (i == 1 && WINDOW_records > 0 && WINDOW_max > 1 ? "next window" : ""), \
         lag skip 1 using 1:(column(round) == 1 ? 0 : column(weight)) with histeps lw 2 lc rgb "#0072B2" title (i == 1 ? "acknowledged" : ""), \
         lag skip 1 using ($1 - 0.5):amount:(1):(0) with vectors nohead lw 2 lc rgb "#000000" title (i == 1 ? "amount" : ""), \
         lag skip 1 using 1:(column(round) == 1 ? column(weight) : NaN) with points pt 9 ps 1.4 lc rgb "#D55E00" title (i == 1 ? "waits" : "")
}
unset multiplot
