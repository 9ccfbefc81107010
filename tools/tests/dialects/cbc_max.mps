NAME          BLANK   
ROWS
 N  OBJROW
 L  R0000000
COLUMNS
    C0000000  OBJROW    3.             R0000000  1.          
    C0000001  OBJROW    2.             R0000000  1.          
RHS
    RHS       OBJROW     -100.         R0000000  6.5         
BOUNDS
 UP BOUND     C0000000  4.          
 UI BOUND     C0000001         1e+30
ENDATA
