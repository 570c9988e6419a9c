set terminal svg size 760,500 font "Helvetica,12" background "white" noenhanced
set output "docs/pictures/speed-rows.svg"
set label 8 "The time of a look-up by the number of rows" at screen 0.03, screen 0.95200 font "Helvetica Bold,14"
set label 9 "Full lines are this library, dashed lines the Rust crate. Both scales are logarithmic." at screen 0.03, screen 0.91000 textcolor "#57606a"
set border 0; set tics scale 0 textcolor "#57606a"; set grid lc "#d0d7de" lt 1 lw 1
set logscale xy; set logscale x 2; set key textcolor variable; set tmargin 5; set rmargin 16
set ytics ("0.2" 0.2, "0.5" 0.5, "1" 1, "2" 2, "5" 5, "10" 10, "20" 20, "50" 50, "100" 100, "200" 200, "500" 500); set format x "2^%L"; set xlabel "number of rows"; set ylabel "ns"
$kind0 << end
16 4.5076 3.9396
64 3.8713 3.9425
256 3.646 3.8307
1024 3.6104 3.8321
4096 3.6003 3.8302
16384 3.5981 3.833
65536 3.6511 3.9188
262144 3.5994 3.8304
1048576 3.6787 3.9155
end
$kind1 << end
16 6.263 4.4941
64 9.1677 7.0797
256 12.6628 10.1682
1024 15.7573 15.1237
4096 19.2408 19.1079
16384 31.4235 31.2897
65536 43.295 43.1326
262144 70.6443 73.7385
1048576 227.2408 265.5758
end
$kind2 << end
16 1.4903 1.5862
64 1.4904 1.5875
256 1.49 1.5869
1024 1.491 1.5823
4096 1.4916 1.5869
end
$kind3 << end
16 9.761 5.0464
64 9.7307 5.5972
256 9.7425 5.5746
1024 9.8106 5.5545
4096 10.7597 6.6907
16384 12.2617 7.8479
65536 18.3084 12.6676
262144 62.569 27.8902
1048576 109.2972 55.3129
end
plot $kind0 using 1:3 with linespoints pt 7 ps 0.6 lw 2 lc "#2c7a3f" title "  dividing" at end, \
    $kind0 using 1:2 with linespoints pt 6 ps 0.6 dt 2 lw 1.5 lc "#2c7a3f" notitle, \
    $kind1 using 1:3 with linespoints pt 7 ps 0.6 lw 2 lc "#2f6fb0" title "  searching" at end, \
    $kind1 using 1:2 with linespoints pt 6 ps 0.6 dt 2 lw 1.5 lc "#2f6fb0" notitle, \
    $kind2 using 1:3 with linespoints pt 7 ps 0.6 lw 2 lc "#b35900" title "  looking up" at end, \
    $kind2 using 1:2 with linespoints pt 6 ps 0.6 dt 2 lw 1.5 lc "#b35900" notitle, \
    $kind3 using 1:3 with linespoints pt 7 ps 0.6 lw 2 lc "#7048b0" title "  hashed" at end, \
    $kind3 using 1:2 with linespoints pt 6 ps 0.6 dt 2 lw 1.5 lc "#7048b0" notitle
