NAME          set4    
ROWS
 N  OBJROW
 L  c1
 G  c2
COLUMNS
    x1        OBJROW    3.             c1        1.          
    x1        c2        1.          
    x2        OBJROW    2.             c1        1.          
    x3        OBJROW    4.             c1        1.          
    y         OBJROW     -1.           c1        1.          
    y         c2        1.          
RHS
    RHS       c1        40.            c2        2.          
BOUNDS
 UP BOUND     x1        4.          
 UI BOUND     x2        5.          
 UI BOUND     x3        6.          
 SC BOUND     y                1e+30
ENDATA
