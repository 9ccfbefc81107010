NAME          quad    
ROWS
 N  OBJROW
 G  R0000000
COLUMNS
    C0000000  OBJROW     -2.           R0000000  1.          
    C0000001  OBJROW    1.             R0000000  1.          
RHS
    RHS       R0000000  1.          
BOUNDS
 UP BOUND     C0000000  10.         
 UP BOUND     C0000001  10.         
QUADOBJ
    C0000000  C0000000  3.          
    C0000001  C0000001  2.5         
ENDATA
