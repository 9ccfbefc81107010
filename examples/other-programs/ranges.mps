* Three crudes, bought as cheaply as may be. RANGES gives each of the rows a second side: 90 to 120 tons in all (L), 20 to 35
* of petrol (G), 30 to 34 of diesel (E, a range above 0), and 20 to 25 of heating oil (E, a range below 0).
* A second set of sides stands behind the first; it is the plan of another month, and is not used.
NAME          CRUDES
ROWS
 N  COST
 N  SULPHUR
 L  TONS
 G  PETROL
 E  DIESEL
 E  HEATING
COLUMNS
    LIGHT     COST                62   SULPHUR           0.4
    LIGHT     TONS                 1   PETROL           0.36
    LIGHT     DIESEL            0.31   HEATING          0.14
    MIDDLE    COST                55   SULPHUR           1.1
    MIDDLE    TONS                 1   PETROL           0.24
    MIDDLE    DIESEL            0.33   HEATING          0.23
    HEAVY     COST                43   SULPHUR           2.6
    HEAVY     TONS                 1   PETROL           0.12
    HEAVY     DIESEL            0.26   HEATING          0.32
RHS
    MAY       TONS               120   PETROL             20
    MAY       DIESEL              30   HEATING            25
    JUNE      TONS               140   PETROL             26
    JUNE      DIESEL              34   HEATING            25
RANGES
    MAY       TONS                30   PETROL             15
    MAY       DIESEL               4   HEATING            -5
BOUNDS
 UP MAY       LIGHT               60
ENDATA
