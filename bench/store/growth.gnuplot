# Draws how a store grows beside FTS5, of the tables that growth.py leaves in a folder: the
# documents a second in each part of the longest load, and the times of finds by the number of
# documents.
set terminal svg size 1080,420 font "sans,13" background "white"
set output picture
set multiplot layout 1,2
set datafile separator "\t"
set grid ytics lc rgb "#dddddd"
set key below horizontal maxrows 2
set style data linespoints
set pointsize 0.6
rates = folder . "/growth.rates"
finds = folder . "/growth.finds"

set title "A load: documents a second"
set xlabel "million documents loaded"
set yrange [0:*]
set format y "%.0f"
plot rates using ($1 / 1e6):2 title "program" pt 7 lw 2 lc rgb "#1b6ca8", \
     rates using ($1 / 1e6):3 title "FTS5" pt 7 lw 2 lc rgb "#d98e04"

set title "A find that is waited for: microseconds"
set xlabel "documents"
set logscale xy
set yrange [1:*]
stats finds using 1 nooutput
set xrange [STATS_min / 1.3 : STATS_max * 1.3]
plot finds using 1:2:xticlabels(gprintf("%.0s%c", $1)) title "rare, program" \
         pt 7 lw 2 lc rgb "#1b6ca8", \
     finds using 1:4 title "rare, FTS5" pt 7 lw 2 lc rgb "#d98e04", \
     finds using 1:3 title "frequent, program" pt 7 lw 2 lc rgb "#86b8dc", \
     finds using 1:5 title "frequent, FTS5" pt 7 lw 2 lc rgb "#efc46f"
unset multiplot
