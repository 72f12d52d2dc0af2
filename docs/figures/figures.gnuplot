# The guide's figures, out of the files offset0 .. offset4 and frequency0 .. frequency4 of the folder `data`, into the folder `into`.
set terminal svg size 820,470 font "Helvetica,Arial,sans-serif,14" background "#ffffff"
set border 3 lc rgb "#444444"
set tics nomirror out
set grid lc rgb "#dddddd" lt 1 lw 0.7
set lmargin 11
set rmargin 3
array colour[5] = ["#0072b2", "#009e73", "#e69f00", "#d55e00", "#884488"]

array furthest[5]
do for [k = 0:4] {
    stats data."/frequency".k using 1:2 nooutput
    furthest[k + 1] = sprintf("%.1f ms behind after %.1f h", -STATS_min_y, STATS_pos_min_y)
}

array falls[5] = ["1,024 s (17 min)", "2,048 s (34 min)", "4,096 s (1 h 8 min)", "8,192 s (2 h 17 min)", "16,384 s (4 h 33 min)"]
set output into."/offset.svg"
set xlabel "time since the request (h)"
set ylabel "left of the offset (us)"
set xrange [0:12]
set xtics 1
set yrange [0:1000]
set ytics 200
set ytics add ("1,000" 1000)
set key at graph 0.97, graph 0.98 Left reverse samplen 2.5 spacing 1.25 title "Time constant, and when 1/e is left" left
set arrow 1 from graph 0, first 1000 / exp(1) to graph 1, first 1000 / exp(1) nohead dt (6, 5) lc rgb "#666666"
set label 1 "1,000/e = 368 us" at graph 0.99, first 1000 / exp(1) offset 0, 0.7 right textcolor rgb "#444444"
plot for [i = 0:4] k = 4 - i data."/offset".k using 1:2 with lines lw 2.2 lc rgb colour[k + 1] title "K = ".k.":  ".falls[k + 1]

unset arrow 1
unset label 1
set output into."/frequency.svg"
set xlabel "time since the timer became 1 ppm slow (h)"
set ylabel "time shown less true time (ms)"
set xrange [0:24]
set xtics 2
set yrange [-16:0]
set ytics 2
set key at graph 0.98, graph 0.52 Left reverse samplen 2.5 spacing 1.1 title "Time constant, and the greatest error" left
plot for [k = 0:4] data."/frequency".k using 1:2 with lines lw 2.2 lc rgb colour[k + 1] title "K = ".k.":  ".furthest[k + 1]
