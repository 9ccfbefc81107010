* Problem:    bin
* Class:      MIP
* Rows:       5
* Columns:    5 (3 integer, 1 binary)
* Non-zeros:  17
* Format:     Free MPS
*
NAME bin
ROWS
 N p
 E c
 L d
 E e
 G free
COLUMNS
 M0000001 'MARKER' 'INTORG'
 x p 3 c 1
 x free 1
 y p 2 c 1
 y e 1 free 1
 M0000002 'MARKER' 'INTEND'
 z p 1 c 1
 z d 1 free 1
 M0000003 'MARKER' 'INTORG'
 w p 1 c 1
 w free 1
 M0000004 'MARKER' 'INTEND'
 v p 1 c 1
 v free 1
RHS
 RHS1 c -4 d 4
 RHS1 e 2 free -1000000
RANGES
 RNG1 c 15 e 7
BOUNDS
 UP BND1 x 1
 FR BND1 y
 FR BND1 z
 LO BND1 w -5
 PL BND1 w
 MI BND1 v
 UP BND1 v -2
ENDATA
