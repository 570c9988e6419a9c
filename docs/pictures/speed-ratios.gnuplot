set terminal svg size 760,1869 font "Helvetica,12" background "white" noenhanced
set output "docs/pictures/speed-ratios.svg"
set label 8 "The time of each kernel, over that of the other side" at screen 0.03, screen 0.98716 font "Helvetica Bold,14"
set label 9 "A dot for each number of rows; those above 1.1 are orange. Each part has a scale of its own." at screen 0.03, screen 0.97592 textcolor "#57606a"
set border 0; set tics scale 0 textcolor "#57606a"; set grid lc "#d0d7de" lt 1 lw 1
set logscale x; unset key; set lmargin at screen 0.44; set rmargin at screen 0.8
set multiplot
$part0 << end
0 0.762 "uniform quantile_function" ""
0 0.874 "uniform quantile_function" ""
0 1.018 "uniform quantile_function" ""
0 1.051 "uniform quantile_function" ""
0 1.061 "uniform quantile_function" ""
0 1.061 "uniform quantile_function" ""
0 1.064 "uniform quantile_function" ""
0 1.064 "uniform quantile_function" ""
0 1.064 "uniform quantile_function" ""
0 1.065 "uniform quantile_function" ""
0 1.073 "uniform quantile_function" ""
1 0.518 "uniform left_cumulative_and_probability" ""
2 0.940 "uniform symbol_table" ""
3 0.665 "contiguous quantile_function" ""
3 0.680 "contiguous quantile_function" ""
3 0.719 "contiguous quantile_function" ""
3 0.772 "contiguous quantile_function" ""
3 0.774 "contiguous quantile_function" ""
3 0.826 "contiguous quantile_function" ""
3 0.833 "contiguous quantile_function" ""
3 0.960 "contiguous quantile_function" ""
3 0.991 "contiguous quantile_function" ""
3 0.996 "contiguous quantile_function" ""
3 0.997 "contiguous quantile_function" ""
3 1.003 "contiguous quantile_function" ""
3 1.044 "contiguous quantile_function" ""
3 1.169 "contiguous quantile_function" ""
4 0.862 "contiguous left_cumulative_and_probability" ""
4 1.138 "contiguous left_cumulative_and_probability" ""
5 0.952 "contiguous symbol_table" ""
6 1.061 "direct lookup quantile_function" ""
6 1.063 "direct lookup quantile_function" ""
6 1.063 "direct lookup quantile_function" ""
6 1.064 "direct lookup quantile_function" ""
6 1.065 "direct lookup quantile_function" ""
6 1.077 "direct lookup quantile_function" ""
7 0.766 "decoder of symbols quantile_function" ""
7 0.846 "decoder of symbols quantile_function" ""
7 0.937 "decoder of symbols quantile_function" ""
7 0.942 "decoder of symbols quantile_function" ""
7 1.012 "decoder of symbols quantile_function" ""
7 1.024 "decoder of symbols quantile_function" ""
7 1.091 "decoder of symbols quantile_function" ""
7 1.095 "decoder of symbols quantile_function" ""
8 1.026 "direct lookup of symbols quantile_function" ""
8 1.027 "direct lookup of symbols quantile_function" ""
8 1.033 "direct lookup of symbols quantile_function" ""
8 1.064 "direct lookup of symbols quantile_function" ""
9 0.852 "decoder of symbols quantile_function, a wide end" ""
9 1.011 "decoder of symbols quantile_function, a wide end" ""
9 1.022 "decoder of symbols quantile_function, a wide end" ""
9 1.123 "decoder of symbols quantile_function, a wide end" ""
10 1.030 "direct lookup of symbols quantile_function, a wide end" ""
10 1.032 "direct lookup of symbols quantile_function, a wide end" ""
10 1.032 "direct lookup of symbols quantile_function, a wide end" ""
10 1.036 "direct lookup of symbols quantile_function, a wide end" ""
11 1.067 "decoder of symbols symbol_table" ""
12 0.867 "contiguous made" ""
12 0.888 "contiguous made" ""
12 0.888 "contiguous made" ""
12 0.889 "contiguous made" ""
12 0.890 "contiguous made" ""
12 0.897 "contiguous made" ""
12 0.910 "contiguous made" ""
12 0.958 "contiguous made" ""
12 1.006 "contiguous made" ""
13 0.757 "direct lookup made" ""
13 0.825 "direct lookup made" ""
14 0.783 "decoder of symbols made, known to differ" ""
14 0.810 "decoder of symbols made, known to differ" ""
14 0.835 "decoder of symbols made, known to differ" ""
14 0.835 "decoder of symbols made, known to differ" ""
14 0.837 "decoder of symbols made, known to differ" ""
14 0.838 "decoder of symbols made, known to differ" ""
14 0.841 "decoder of symbols made, known to differ" ""
14 0.854 "decoder of symbols made, known to differ" ""
14 0.862 "decoder of symbols made, known to differ" ""
15 1.021 "to_generic_decoder_model_of_distinct" ""
15 1.161 "to_generic_decoder_model_of_distinct" ""
15 1.355 "to_generic_decoder_model_of_distinct" ""
15 1.400 "to_generic_decoder_model_of_distinct" ""
16 0.749 "to_lookup_decoder_model, direct" ""
17 1.596 "Cursor write" ""
18 1.001 "Cursor read, Queue" ""
19 0.999 "Cursor read, Stack" ""
20 1.119 "Reverse<Cursor> write" ""
21 1.001 "Reverse<Cursor> read, Stack" ""
22 0.998 "Cursor into_reversed" ""
23 0.982 "Vec write, growing" ""
24 1.082 "Vec write and read" ""
25 2.000 "iterator read" ""
26 1.798 "fallible iterator read" ""
27 1.000 "callback write" ""
28 1.000 "fallible callback write" ""
end
set tmargin at screen 0.94114; set bmargin at screen 0.61530
set label 1 "The same work on both sides" at screen 0.03, screen 0.94971 font "Helvetica Bold,13"
set xtics ("0.2" 0.2, "0.5" 0.5, "1" 1, "2" 2, "5" 5, "10" 10, "20" 20, "50" 50, "100" 100, "200" 200, "500" 500); set xrange [0.432:2.400]
set yrange [28.5:-0.5]; set arrow 1 from 1, graph 0 to 1, graph 1 nohead lc "#1f2328" lw 1.5
plot $part0 using 2:1:($2 > 1.1 ? 0xb35900 : 0x2f6fb0):ytic(3) with points pt 7 ps 0.7 lc rgb variable, \
    "" using 2:1:4 with labels left offset 1, 0 textcolor "#b35900"
unset label 8; unset label 9
$part1 << end
0 0.446 "hashed encoder left_cumulative_and_probability" ""
0 0.506 "hashed encoder left_cumulative_and_probability" ""
0 0.517 "hashed encoder left_cumulative_and_probability" ""
0 0.566 "hashed encoder left_cumulative_and_probability" ""
0 0.575 "hashed encoder left_cumulative_and_probability" ""
0 0.585 "hashed encoder left_cumulative_and_probability" ""
0 0.614 "hashed encoder left_cumulative_and_probability" ""
0 0.632 "hashed encoder left_cumulative_and_probability" ""
0 0.640 "hashed encoder left_cumulative_and_probability" ""
1 0.640 "hashed encoder made" ""
1 0.655 "hashed encoder made" ""
1 0.675 "hashed encoder made" ""
1 0.693 "hashed encoder made" ""
1 0.741 "hashed encoder made" ""
1 0.764 "hashed encoder made" ""
1 0.800 "hashed encoder made" ""
1 0.832 "hashed encoder made" ""
1 1.127 "hashed encoder made" ""
2 0.491 "to_generic_encoder_model" ""
2 0.532 "to_generic_encoder_model" ""
end
set tmargin at screen 0.57250; set bmargin at screen 0.53879
set label 1 "The same work, with another hash" at screen 0.03, screen 0.58106 font "Helvetica Bold,13"
set xtics ("0.2" 0.2, "0.5" 0.5, "1" 1, "2" 2, "5" 5, "10" 10, "20" 20, "50" 50, "100" 100, "200" 200, "500" 500); set xrange [0.371:1.352]
set yrange [2.5:-0.5]; set arrow 1 from 1, graph 0 to 1, graph 1 nohead lc "#1f2328" lw 1.5
plot $part1 using 2:1:($2 > 1.1 ? 0xb35900 : 0x2f6fb0):ytic(3) with points pt 7 ps 0.7 lc rgb variable, \
    "" using 2:1:4 with labels left offset 1, 0 textcolor "#b35900"
unset label 8; unset label 9
$part2 << end
0 1.000 "write_quantiles to a Vec" ""
0 1.000 "write_quantiles to a Vec" ""
1 0.858 "read_symbols of a Cursor" ""
1 0.987 "read_symbols of a Cursor" ""
2 0.984 "stack coder encode_symbol" ""
2 0.991 "stack coder encode_symbol" ""
3 1.018 "stack coder decode_symbol" ""
3 1.019 "stack coder decode_symbol" ""
4 0.860 "range coder encode_symbol" ""
4 0.999 "range coder encode_symbol" ""
5 0.985 "range coder decode_symbol" ""
5 0.990 "range coder decode_symbol" ""
end
set tmargin at screen 0.49599; set bmargin at screen 0.42857
set label 1 "The same work, which this project wrote out for both sides" at screen 0.03, screen 0.50455 font "Helvetica Bold,13"
set xtics ("0.2" 0.2, "0.5" 0.5, "1" 1, "2" 2, "5" 5, "10" 10, "20" 20, "50" 50, "100" 100, "200" 200, "500" 500); set xrange [0.715:1.223]
set yrange [5.5:-0.5]; set arrow 1 from 1, graph 0 to 1, graph 1 nohead lc "#1f2328" lw 1.5
plot $part2 using 2:1:($2 > 1.1 ? 0xb35900 : 0x2f6fb0):ytic(3) with points pt 7 ps 0.7 lc rgb variable, \
    "" using 2:1:4 with labels left offset 1, 0 textcolor "#b35900"
unset label 8; unset label 9
$part3 << end
0 1.243 "256-slot lookup quantile_function" ""
0 1.742 "256-slot lookup quantile_function" ""
0 2.235 "256-slot lookup quantile_function" ""
0 2.613 "256-slot lookup quantile_function" ""
0 4.893 "256-slot lookup quantile_function" ""
0 6.645 "256-slot lookup quantile_function" "6.64 at 1,024 rows"
1 1.207 "256-slot lookup of symbols quantile_function" ""
1 1.632 "256-slot lookup of symbols quantile_function" ""
1 2.454 "256-slot lookup of symbols quantile_function" ""
1 4.111 "256-slot lookup of symbols quantile_function" "4.11 at 4,096 rows"
2 0.563 "256-slot lookup made" ""
2 0.765 "256-slot lookup made" ""
3 1.248 "direct lookup of symbols made" ""
3 8.054 "direct lookup of symbols made" "8.05 at 256 rows"
4 2.122 "decoder of symbols made, comparing" ""
4 9.597 "decoder of symbols made, comparing" ""
4 35.686 "decoder of symbols made, comparing" ""
4 141.013 "decoder of symbols made, comparing" ""
4 568.803 "decoder of symbols made, comparing" ""
4 2289.517 "decoder of symbols made, comparing" "2,290 at 16,384 rows"
5 5.581 "decoder of symbols made, hashing" ""
5 5.609 "decoder of symbols made, hashing" ""
5 5.700 "decoder of symbols made, hashing" ""
5 5.734 "decoder of symbols made, hashing" ""
5 5.971 "decoder of symbols made, hashing" ""
5 5.985 "decoder of symbols made, hashing" ""
5 7.952 "decoder of symbols made, hashing" ""
5 18.629 "decoder of symbols made, hashing" ""
5 32.381 "decoder of symbols made, hashing" "32.38 at 1,048,576 rows"
6 0.944 "decoder of symbols made, in order" ""
6 0.950 "decoder of symbols made, in order" ""
6 1.017 "decoder of symbols made, in order" ""
6 1.025 "decoder of symbols made, in order" ""
6 1.030 "decoder of symbols made, in order" ""
6 1.030 "decoder of symbols made, in order" ""
6 1.030 "decoder of symbols made, in order" ""
6 1.041 "decoder of symbols made, in order" ""
6 1.141 "decoder of symbols made, in order" ""
7 65.804 "to_generic_decoder_model" ""
7 908.020 "to_generic_decoder_model" "908 at 4,096 rows"
end
set tmargin at screen 0.38577; set bmargin at screen 0.29588
set label 1 "Other work here, by a rule: repeats are refused, or a table has fewer slots" at screen 0.03, screen 0.39433 font "Helvetica Bold,13"
set xtics ("0.1" 0.1, "1" 1, "10" 10, "100" 100, "1,000" 1000); set xrange [0.469:2747.421]
set yrange [7.5:-0.5]; set arrow 1 from 1, graph 0 to 1, graph 1 nohead lc "#1f2328" lw 1.5
plot $part3 using 2:1:($2 > 1.1 ? 0xb35900 : 0x2f6fb0):ytic(3) with points pt 7 ps 0.7 lc rgb variable, \
    "" using 2:1:4 with labels left offset 1, 0 textcolor "#b35900"
unset label 8; unset label 9
$part4 << end
0 0.334 "wide 256-slot lookup quantile_function" ""
0 0.380 "wide 256-slot lookup quantile_function" ""
0 0.509 "wide 256-slot lookup quantile_function" ""
0 0.537 "wide 256-slot lookup quantile_function" ""
1 0.203 "wide 4,096-slot lookup quantile_function" ""
1 0.240 "wide 4,096-slot lookup quantile_function" ""
1 0.272 "wide 4,096-slot lookup quantile_function" ""
1 0.292 "wide 4,096-slot lookup quantile_function" ""
2 0.155 "wide 65,536-slot lookup quantile_function" ""
2 0.179 "wide 65,536-slot lookup quantile_function" ""
2 0.184 "wide 65,536-slot lookup quantile_function" ""
2 0.363 "wide 65,536-slot lookup quantile_function" ""
3 1.580 "wide 256-slot lookup made" ""
3 1.768 "wide 256-slot lookup made" ""
3 2.372 "wide 256-slot lookup made" ""
3 3.900 "wide 256-slot lookup made" "3.90 at 16 rows"
4 1.966 "wide 4,096-slot lookup made" ""
4 4.242 "wide 4,096-slot lookup made" ""
4 4.296 "wide 4,096-slot lookup made" ""
4 29.266 "wide 4,096-slot lookup made" "29.27 at 16 rows"
5 6.400 "wide 65,536-slot lookup made" ""
5 12.049 "wide 65,536-slot lookup made" ""
5 48.502 "wide 65,536-slot lookup made" ""
5 440.084 "wide 65,536-slot lookup made" "440 at 16 rows"
6 0.277 "stack coder decode_symbol, 4,096-slot lookup" ""
6 0.349 "stack coder decode_symbol, 4,096-slot lookup" ""
end
set tmargin at screen 0.25308; set bmargin at screen 0.17442
set label 1 "A lookup table, which the Rust crate lacks, beside its search" at screen 0.03, screen 0.26164 font "Helvetica Bold,13"
set xtics ("0.1" 0.1, "1" 1, "10" 10, "100" 100, "1,000" 1000); set xrange [0.129:528.100]
set yrange [6.5:-0.5]; set arrow 1 from 1, graph 0 to 1, graph 1 nohead lc "#1f2328" lw 1.5
plot $part4 using 2:1:($2 > 1.1 ? 0xb35900 : 0x2f6fb0):ytic(3) with points pt 7 ps 0.7 lc rgb variable, \
    "" using 2:1:4 with labels left offset 1, 0 textcolor "#b35900"
unset label 8; unset label 9
$part5 << end
0 0.753 "direct table decode_into" ""
1 0.794 "direct table decode_two" ""
2 0.407 "direct table encode_prepared_slice_reverse" ""
end
set tmargin at screen 0.13162; set bmargin at screen 0.09791
set label 1 "A table with an entry for each quantile, which the Rust crate lacks, beside its lookup model and its division" at screen 0.03, screen 0.14018 font "Helvetica Bold,13"
set xtics ("0.2" 0.2, "0.5" 0.5, "1" 1, "2" 2, "5" 5, "10" 10, "20" 20, "50" 50, "100" 100, "200" 200, "500" 500); set xrange [0.340:0.952]
set yrange [2.5:-0.5]; set arrow 1 from 1, graph 0 to 1, graph 1 nohead lc "#1f2328" lw 1.5
plot $part5 using 2:1:($2 > 1.1 ? 0xb35900 : 0x2f6fb0):ytic(3) with points pt 7 ps 0.7 lc rgb variable, \
    "" using 2:1:4 with labels left offset 1, 0 textcolor "#b35900"
unset label 8; unset label 9
$part6 << end
0 1.106 "direct table decode_into" ""
1 1.149 "direct table decode_two" ""
2 1.227 "direct table encode_prepared_slice_reverse" ""
end
set tmargin at screen 0.05511; set bmargin at screen 0.02140
set label 1 "The same work as C, which this project wrote" at screen 0.03, screen 0.06367 font "Helvetica Bold,13"
set xtics ("0.2" 0.2, "0.5" 0.5, "1" 1, "2" 2, "5" 5, "10" 10, "20" 20, "50" 50, "100" 100, "200" 200, "500" 500); set xrange [0.922:1.472]
set yrange [2.5:-0.5]; set arrow 1 from 1, graph 0 to 1, graph 1 nohead lc "#1f2328" lw 1.5
plot $part6 using 2:1:($2 > 1.1 ? 0xb35900 : 0x2f6fb0):ytic(3) with points pt 7 ps 0.7 lc rgb variable, \
    "" using 2:1:4 with labels left offset 1, 0 textcolor "#b35900"
unset label 8; unset label 9
