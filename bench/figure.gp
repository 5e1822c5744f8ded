# Draws how many instructions a byte costs, from the tables that `cargo run --release` prints, below a title:
# gnuplot -c figure.gp TABLES TITLE
set terminal svg size 800,420 font "sans-serif,12" background "white"
set datafile separator "|"
set key autotitle columnhead
set multiplot layout 1,2 title ARG2 noenhanced
set logscale xy 2
set xlabel "bytes"
set xrange [1:131072]
set yrange [0.25:256]
set xtics ("1" 1, "16" 16, "256" 256, "4 KiB" 4096, "64 KiB" 65536)
set ytics ("1/4" 0.25, "1" 1, "4" 4, "16" 16, "64" 64)
set grid
do for [call in "encode_to_slice decode_to_slice"] {
    set title call.": instructions per byte" noenhanced
    plot for [library = 3:6] sprintf("< sed -n '/^| %s |/,/^$/p' '%s'", call, ARG1) using 2:(column(library) / column(2)) with lines linewidth 2.5
}
