* Problem:
* Class:      MIP
* Rows:       2
* Columns:    2 (1 integer, 0 binary)
* Non-zeros:  4
* Format:     Free MPS
*
NAME
ROWS
 N R0000000
 L c1
 L c2
COLUMNS
 x1 R0000000 3 c1 1
 x1 c2 1
 M0000001 'MARKER' 'INTORG'
 x2 R0000000 2 c1 1
 x2 c2 -1
 M0000002 'MARKER' 'INTEND'
RHS
 RHS1 c1 6.5 c2 3
BOUNDS
 UP BND1 x1 4
 PL BND1 x2
ENDATA
