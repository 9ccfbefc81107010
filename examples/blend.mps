* 60 tons of feed are blended from five meals, at the least cost. The mill takes a meal in a lot of at least so many tons,
* or not at all: 0, or from the number of LO to that of SC. PROTEIN and FIBRE are in tons times percent, so that
* the blend has from 16 to 20 percent of protein and at most 6 of fibre.
NAME BLEND
ROWS
 N COST
 E TONS
 G PROTEIN
 L FIBRE
COLUMNS
 CORN COST 180 TONS 1
 CORN PROTEIN 9 FIBRE 2
 BARLEY COST 165 TONS 1
 BARLEY PROTEIN 11.5 FIBRE 5
 BRAN COST 140 TONS 1
 BRAN PROTEIN 15.5 FIBRE 11
 SOY COST 410 TONS 1
 SOY PROTEIN 46 FIBRE 6
 FISH COST 890 TONS 1
 FISH PROTEIN 65 FIBRE 1
RHS
 RHS TONS 60 PROTEIN 960
 RHS FIBRE 360
RANGES
 RNG PROTEIN 240
BOUNDS
 LO BND CORN 18
 SC BND CORN 40
 LO BND BARLEY 25
 SC BND BARLEY 50
 LO BND BRAN 15
 SC BND BRAN 30
 LO BND SOY 12
 SC BND SOY 20
 LO BND FISH 3
 SC BND FISH 10
ENDATA
