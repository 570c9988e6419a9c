set terminal svg size 760,500 font "Helvetica,12" background "white" noenhanced
set output "docs/pictures/speed-slots.svg"
set label 8 "The time of a look-up over 24 bits of u32" at screen 0.03, screen 0.95200 font "Helvetica Bold,14"
set label 9 "Full lines are this library, dashed lines the Rust crate. Both scales are logarithmic." at screen 0.03, screen 0.91000 textcolor "#57606a"
set border 0; set tics scale 0 textcolor "#57606a"; set grid lc "#d0d7de" lt 1 lw 1
set logscale xy; set logscale x 2; set key textcolor variable; set tmargin 5; set rmargin 16
set ytics ("0.2" 0.2, "0.5" 0.5, "1" 1, "2" 2, "5" 5, "10" 10, "20" 20, "50" 50, "100" 100, "200" 200, "500" 500); set format x "2^%L"; set xlabel "number of rows"; set ylabel "ns"
$kind0 << end
16 6.2562 4.4984
256 12.6578 10.4494
4096 19.2412 19.1916
65536 43.2747 42.9009
end
$kind1 << end
16 6.2565 2.3797
256 12.6475 4.2244
4096 19.1534 10.2928
65536 43.2958 22.0188
end
$kind2 << end
16 6.2516 1.699
256 12.6472 2.5713
4096 19.1817 4.5943
65536 43.2349 12.6455
end
$kind3 << end
16 6.2505 2.2667
256 12.6431 2.3316
4096 19.1977 3.4443
65536 43.2132 6.6896
end
plot $kind0 using 1:3 with linespoints pt 7 ps 0.6 lw 2 lc "#2f6fb0" title "  searching" at end, \
    $kind0 using 1:2 with linespoints pt 6 ps 0.6 dt 2 lw 1.5 lc "#2f6fb0" notitle, \
    $kind1 using 1:3 with linespoints pt 7 ps 0.6 lw 2 lc "#7048b0" title "  256 slots" at end, \
    $kind2 using 1:3 with linespoints pt 7 ps 0.6 lw 2 lc "#b35900" title "  4,096 slots" at end, \
    $kind3 using 1:3 with linespoints pt 7 ps 0.6 lw 2 lc "#2c7a3f" title "  65,536 slots" at end
