NAME          BLANK   
ROWS
 N  OBJROW
 L  c1
COLUMNS
    x1        OBJROW     -3.           c1        1.          
    x2        OBJROW     -2.           c1        1.          
    x3        OBJROW     -4.           c1        1.          
RHS
    RHS       c1        10.         
BOUNDS
 UP BOUND     x1        4.          
 UP BOUND     x2        5.          
 UP BOUND     x3        6.          
SOS
 S1
   x1                  1.          
   x2                  2.          
   x3                  3.          
ENDATA
