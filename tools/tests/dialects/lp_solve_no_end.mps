*<meta creator='lp_solve v5.5'>
*<meta rows=2>
*<meta columns=4>
*<meta equalities=0>
*<meta integers=2>
*<meta scvars=1>
*<meta origsense='MAX'>
*
NAME                  
OBJSENSE
 MAX
ROWS
 N  R0      
 L  c1      
 G  c2      
COLUMNS
    x1        R0        3.0000000000   c1        1.0000000000
    x1        c2        1.0000000000
    MARK0000  'MARKER'                 'INTORG'
    x2        R0        2.0000000000   c1        1.0000000000
    x3        R0        4.0000000000   c1        1.0000000000
    MARK0001  'MARKER'                 'INTEND'
    y         R0        -1.000000000   c1        1.0000000000
    y         c2        1.0000000000
RHS
    RHS       c1        40.000000000   c2        2.0000000000
BOUNDS
 UP BND       x1        4.0000000000
 LO BND       x2        0.0000000000
 UP BND       x2        5.0000000000
 LO BND       x3        0.0000000000
 UP BND       x3        6.0000000000
 SC BND       y                     
ENDATA
