* Boards of 6 metres are sawn into pieces of 2.5 and 1.7 metres in three ways, with as few boards as may be. The counts
* are whole, and nobody has said how many boards of a kind there can be at most.
NAME          BOARDS
ROWS
 N  BOARDS
 G  LONG
 G  SHORT
COLUMNS
    MARK      'MARKER'                 'INTORG'
    TWO_NONE  BOARDS               1   LONG                2
    ONE_TWO   BOARDS               1   LONG                1
    ONE_TWO   SHORT                2
    NONE_3    BOARDS               1   SHORT               3
    MARK      'MARKER'                 'INTEND'
RHS
    RHS       LONG                45   SHORT              70
ENDATA
