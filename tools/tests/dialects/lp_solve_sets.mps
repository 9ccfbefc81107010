*<meta creator='lp_solve v5.5'>
*<meta rows=5>
*<meta columns=7>
*<meta equalities=0>
*<meta SOS=2>
*<meta integers=1>
*<meta scvars=1>
*<meta origsense='MAX'>
*
NAME                  
OBJSENSE
 MAX
ROWS
 N  R0      
 L  c1      
 G  R3      
 G  R4      
 G  R5      
 G  c9      
COLUMNS
    x1        R0        3.0000000000   c1        1.0000000000
    x1        R3        1.0000000000   R4        -1.000000000
    x1        R5        1.0000000000
    x2        R0        2.0000000000   c1        1.0000000000
    x2        R3        -1.000000000   R4        -1.000000000
    x3        R0        4.0000000000   c1        1.0000000000
    x3        R5        1.0000000000   c9        -1.000000000
    y         R0        1.0000000000   c1        1.0000000000
    z         R0        1.0000000000   c1        1.0000000000
    MARK0000  'MARKER'                 'INTORG'
    w         R0        1.0000000000   c1        1.0000000000
    w         c9        -1.000000000
    MARK0001  'MARKER'                 'INTEND'
    q         c1        1.0000000000
RHS
    RHS       c1        40.000000000   R3        -5.000000000
    RHS       R4        -8.000000000   R5        2.0000000000
    RHS       c9        -10.00000000
RANGES
    RGS       R5        7.0000000000
BOUNDS
 UP BND       x1        4.0000000000
 UP BND       x2        5.0000000000
 UP BND       x3        6.0000000000
 LO BND       y         3.0000000000
 SC BND       y         12.000000000
 LO BND       z         -5.000000000
 UP BND       z         8.0000000000
 LO BND       w         -4.000000000
 UP BND       w         9.0000000000
 MI BND       q       
 UP BND       q         4.0000000000
SOS
 S1 SOS       SOS1      1.0000000000
    SOS       x1        5.0000000000
    SOS       x2        6.0000000000
    SOS       x3        7.0000000000
 S2 SOS       SOS2      2.0000000000
    SOS       x1        1.0000000000
    SOS       x2        2.0000000000
    SOS       x3        3.0000000000
ENDATA
