* The line through six points whose largest error is least. SLOPE and LEVEL are free, BEND has no low end and a high one,
* GAP has the ends that a column has without a bound.
NAME          LINE_FIT
ROWS
 N  ERROR
 L  BELOW1
 L  BELOW2
 L  BELOW3
 L  BELOW4
 L  BELOW5
 L  BELOW6
 G  ABOVE1
 G  ABOVE2
 G  ABOVE3
 G  ABOVE4
 G  ABOVE5
 G  ABOVE6
COLUMNS
    SLOPE     BELOW1               0   BELOW2              1
    SLOPE     BELOW3               2   BELOW4              3
    SLOPE     BELOW5               4   BELOW6              5
    SLOPE     ABOVE1               0   ABOVE2              1
    SLOPE     ABOVE3               2   ABOVE4              3
    SLOPE     ABOVE5               4   ABOVE6              5
    LEVEL     BELOW1               1   BELOW2              1
    LEVEL     BELOW3               1   BELOW4              1
    LEVEL     BELOW5               1   BELOW6              1
    LEVEL     ABOVE1               1   ABOVE2              1
    LEVEL     ABOVE3               1   ABOVE4              1
    LEVEL     ABOVE5               1   ABOVE6              1
    BEND      BELOW5               1   BELOW6              2
    BEND      ABOVE5               1   ABOVE6              2
    GAP       ERROR                1
    GAP       BELOW1              -1   BELOW2             -1
    GAP       BELOW3              -1   BELOW4             -1
    GAP       BELOW5              -1   BELOW6             -1
    GAP       ABOVE1               1   ABOVE2              1
    GAP       ABOVE3               1   ABOVE4              1
    GAP       ABOVE5               1   ABOVE6              1
RHS
    RHS       BELOW1             7.1   BELOW2            5.2
    RHS       BELOW3             2.6   BELOW4            1.3
    RHS       BELOW5            -2.4   BELOW6           -4.1
    RHS       ABOVE1             7.1   ABOVE2            5.2
    RHS       ABOVE3             2.6   ABOVE4            1.3
    RHS       ABOVE5            -2.4   ABOVE6           -4.1
BOUNDS
 FR BND       SLOPE
 FR BND       LEVEL
 MI BND       BEND
 UP BND       BEND              0.25
 PL BND       GAP
ENDATA
