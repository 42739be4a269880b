"""Makes the two files of a network from what others have: a matrix, a list of exposures, totals of banks, or a
number.

Each tool is a module with the words of its command line, `convert` and `main`. From a sheet to the files it goes
through these steps, each in its modules:

    step                             matrix              exposure_list       totals
    1  words become frozen options   sheet_options, with options and made_case, by which words are read
    2  a file becomes rows           reading, for text; books, for workbooks
    3  rows become tables            tables, with amounts for cells, columns for names, and faults for what is wrong
    4  the sheets of the tool        matrix_sheets       exposure_sheets     totals_table
    5  lines of totals, by numbers   control, with sums and totals_names; left_out has what is said of all lines
    6  what is left out              matrix_drop         exposure_drop       totals_table
    7  amounts become debts          matrix_debts        exposure_lines,     networks: entropy,
                                                         exposure_debts      sparse, chain
    8  whole units within limits     units               units               totals_units
    9  files, and the summary        options, with made_case for a case, and summary for what was told

`groups` makes banks of a group one, and reads small tables of classes and rates. `generated` makes a network of a
number, and none of these steps.
"""
