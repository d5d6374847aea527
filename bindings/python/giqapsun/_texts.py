"""The words for each number that an answer can hold, those of texts/refusals.tsv and texts/rules.tsv."""

# the conditions of the refusal list, in the order in which they are tested
REFUSALS: dict[int, str] = {
    14: "a list of windows not of whole pairs; a window empty, unsorted or overlapping its neighbour; "
        "a day not of 23 to 25 hours; or first hour plus length of a window or of the day above 8,784",
    15: "an hour of the day in both lists of windows",
    16: "a coefficient of the curve that is not a number, negative or above 1,000,000, "
        "or an unused one that is not 0; or a kind that is none of the three",
    1: "file under 16 bytes, or pairs not as laid down",
    2: "a section length, or a count in a record, not as laid down; by calendar, T not the day's number of hours",
    12: "form number neither 2 nor 3",
    3: "minimum output 0 or above capacity, or capacity above 400",
    4: "RU or RD outside 1 to 400, or a minimum time outside 1 to 24",
    5: "F not from 0 to 1,000,000, or A, B or C not from 0 to 100,000,000",
    6: "PU not strictly rising from 1 or more to the minimum output, "
       "or PD not strictly falling from the minimum output to 1 or more",
    7: "h outside 1 to 10,000; both stages set; "
       "a start-up stage not from 1 to UD - 1, or set with p(0) not PU(stage) or h not the stage; "
       "a shut-down stage not from 2 to DD, or set with p(0) not PD(stage) or h below UD + stage - 1; "
       "with no stage set, p(0) neither 0 nor from minimum to capacity, or p(0) above 0 with h below UD",
    8: "an order byte above 2",
    13: "a price outside -10,000,000 to 10,000,000",
    9: "checked list not of T outputs",
    10: "lent memory short: 8,192 signed 64-bit numbers to work in, 32,768 where a minimum time is above 8, "
        "801 for the table of a curve, T outputs, or the written file's bytes",
    11: "best list asked for, and no list keeps every rule",
}

# the rules that a check can name
RULES: dict[int, str] = {
    1: "lower limit of the output, with the start-up trajectory",
    2: "lower limit of the output, with the shut-down trajectory",
    3: "upper limit of the output, with the start-up trajectory",
    4: "upper limit of the output, with the shut-down trajectory",
    5: "ramp-up limit RU",
    6: "ramp-down limit RD",
    7: "starts and stops against the hours on-line",
    8: "on-line through a start-up",
    9: "on-line through a shut-down",
    10: "a start-up and a shut-down meet in the hour at minimum output or not at all",
    11: "minimum output where a start-up and a shut-down meet, by PU",
    12: "minimum output where a start-up and a shut-down meet, by PD",
    21: "minimum up time",
    22: "minimum down time",
    23: "hour order",
}
