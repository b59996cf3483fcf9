"""The numbers of refusal in words. Their order here is the checking order: of several broken rules the first gives the number."""

RULES = {
    1: "the file ends before something that its sizes announce",
    2: "bytes follow the last announced train",
    3: "a number is beyond its limits: points 3 to 4,096, step 1 to 100 m, limits 1 to 64, blocks 1 to 32, balises 0 to 64,"
       " trains 1 to 64; of a train the class 0 to 2, the length 1 to 1,000 m, bands 1 to 8, stops 0 to 32",
    4: "the limit points do not begin at 0, do not rise, or one is beyond the last cell",
    5: "a limit is not 1 to 300 km/h",
    6: "the first block does not start at 0, a block does not end after its start, starts before the one before it ends,"
       " or ends beyond the last point",
    15: "the balises do not strictly rise in place, the metres past a point reach the step, or a balise lies beyond the last point",
    7: "the band tops of a train do not rise within 1 to 300 km/h, or a rate is not 1 to 200 cm/s²",
    8: "a stop is less than two points after the one before it or beyond the last point, or a dwell is longer than 3,600 s",
    9: "a train has no room behind the last block: that block's end plus the train's length is beyond the last point",
    10: "the file has no train of the number asked for (they are counted from 0)",
    11: "a lent buffer is too short: fewer entries than points, or than trains in a column, or fewer bytes than the text or the"
        " diagram",
    12: "a block count is not 1 to 32, or the sheet has more than 64 trains, a free time that no list of additions gives or,"
        " with trains on it, a first train's beginning that is not below the block's free time",
    13: "the sheet has 64 trains already",
    14: "the hold record has another block count than the sheet, a beginning that is not before its end, or an end above 2^44 µs",
    16: "the slices of placed trains do not hold exactly one row of the new hold's block count for each start, there are more"
        " than 64 rows, a start or an end of the window is above 2^50 µs, a row breaks 14, rows overlap or are out of order, or"
        " the window ends before it begins",
    17: "no start in the window has a place among the placed trains",
}


class Refusal(Exception):
    """A call's refusal: the number of the first broken rule in checking order, and that rule in words."""

    def __init__(self, number: int):
        super().__init__(number)
        self.number = number
        self.words = RULES[number]

    def __str__(self):
        return f"refused {self.number}: {self.words}"
