# Draws the times of finds in a row, in one segment, of the table that measure.py leaves: class,
# program, FTS5, Xapian, Lucene, the reply's bytes alone and loops in C, in microseconds.
set terminal svg size 1080,420 font "sans,13" background "white"
set output picture
set title "A find among many in a row over a pipe, 100,000 documents in one segment, warm: microseconds"
set style data histograms
set style histogram clustered gap 1
set style fill solid 0.85 noborder
set logscale y
set yrange [1:*]
set grid ytics lc rgb "#dddddd"
set xtics norotate font ",10" scale 0
set key below horizontal
set key maxrows 1
set datafile separator "\t"
plot table using 2:xtic(1) title "program" lc rgb "#1b6ca8", \
     "" using 3 title "FTS5" lc rgb "#d98e04", \
     "" using 4 title "Xapian" lc rgb "#7a9e3f", \
     "" using 5 title "Lucene" lc rgb "#a8324a", \
     "" using 6 title "the reply's bytes alone" lc rgb "#555555", \
     "" using 7 title "loops in C, no pipe" lc rgb "#bbbbbb"
