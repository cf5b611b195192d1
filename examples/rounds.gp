# A picture of rounds against amounts: gnuplot -c examples/rounds.gp TABLE PICTURE
# TABLE is a file of lines `AMOUNT,ROUNDS`, and PICTURE the PNG to write.
set datafile separator comma
set terminal pngcairo size 800, 320 font "DejaVu Sans,11"
set output ARG2
set tics nomirror out
set border 3
set grid ytics lc rgb "#D9D9D9"
set xrange [0:*]
set yrange [0:*]
set offsets 0, graph 0.05, graph 0.08, 0
set xlabel "amount of the limit (units of the values)"
set ylabel "forced rounds"
plot ARG1 using 1:2 with linespoints lw 2 pt 7 ps 1.2 lc rgb "#0072B2" notitle, \
     ARG1 using 1:2:2 with labels offset 0.8, 0.8 left notitle
