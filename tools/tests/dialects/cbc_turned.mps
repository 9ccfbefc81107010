NAME          BLANK   
ROWS
 N  OBJROW
 L  c1
COLUMNS
    x1        OBJROW     -3.           c1        1.          
    x2        OBJROW     -2.           c1        1.          
RHS
    RHS       OBJROW     -100.         c1        6.5         
BOUNDS
 UP BOUND     x1        4.          
 UI BOUND     x2               1e+30
ENDATA
