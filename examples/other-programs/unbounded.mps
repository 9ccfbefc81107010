* A smelter turns three tons of ore into two of metal. Ore is bought at 40 a ton and metal sold at 75. The furnace takes
* at most 500 tons of scrap, and at least 30 tons of metal are sold. Nobody has said how much ore there is.
NAME          SMELTER
OBJSENSE MAX
ROWS
 N  PROFIT
 E  BALANCE
 G  ORDERS
 L  FURNACE
COLUMNS
    ORE       PROFIT             -40   BALANCE            -2
    SCRAP     PROFIT             -55   BALANCE          -2.4
    SCRAP     FURNACE              1
    METAL     PROFIT              75   BALANCE             3
    METAL     ORDERS               1
RHS
    RHS       ORDERS              30   FURNACE           500
ENDATA
