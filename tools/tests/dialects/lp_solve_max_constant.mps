*<meta creator='lp_solve v5.5'>
*<meta rows=1>
*<meta columns=2>
*<meta equalities=0>
*<meta integers=1>
*<meta origsense='MAX'>
*
NAME                  
OBJSENSE
 MAX
ROWS
 N  R0      
 L  c1      
COLUMNS
    x1        R0        3.0000000000   c1        1.0000000000
    MARK0000  'MARKER'                 'INTORG'
    x2        R0        2.0000000000   c1        1.0000000000
    MARK0001  'MARKER'                 'INTEND'
RHS
    RHS       R0        -100.0000000   c1        6.5000000000
BOUNDS
 UP BND       x1        4.0000000000
 LO BND       x2        0.0000000000
 UP BND       x2        5.0000000000
ENDATA
